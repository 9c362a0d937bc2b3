/* Where replies go: they are written as lines of text, or only the flows among them are digested, for each kind. */
#ifndef SINK_H
#define SINK_H

#include "desk.h"
#include "fields.h"
#include "kinds.h"

/* of a kind: what was walked, and the digest (FNV-1a) of its flows */
struct tally {
    size_t networks, calls, refused, flows;
    uint64_t digest;
};

static struct {
    bool digests; /* of flows; else all is written */
    struct tally *tally; /* that of the kind in hand */
    size_t length;
    char text[1 << 16];
} sink;

static inline void digest_byte(uint64_t *digest, uint8_t byte)
{
    *digest = (*digest ^ byte) * 1099511628211u;
}

static inline struct tally empty_tally(void)
{
    return (struct tally){.digest = 14695981039346656037u};
}

/* ---- text */

/* writes what was told */
static inline void empty_sink(void)
{
    MUST(sink.digests || fwrite(sink.text, 1, sink.length, stdout) == sink.length);
    sink.length = 0;
}

static inline void tell_bytes(const void *bytes, size_t length)
{
    for (size_t i = 0; i < length; i++) {
        if (sink.length == sizeof sink.text)
            empty_sink();
        sink.text[sink.length++] = ((const char *)bytes)[i];
    }
}

static inline void tell(const char *text)
{
    tell_bytes(text, strlen(text));
}

static inline void tell_number(const char *name, uint64_t number)
{
    char digits[20];
    size_t at = sizeof digits;
    do
        digits[--at] = (char)('0' + number % 10);
    while (number /= 10);
    tell(name);
    tell_bytes(digits + at, sizeof digits - at);
}

static inline void tell_signed(const char *name, int64_t number)
{
    tell(name);
    tell_number(number < 0 ? "-" : "", number < 0 ? -(uint64_t)number : (uint64_t)number);
}

static inline void tell_text(const char *name, const uint8_t *text, size_t length)
{
    tell(name);
    tell("[");
    tell_bytes(text, length);
    tell("]");
}

static inline void tell_hex(const uint8_t *bytes, size_t length)
{
    static const char digits[] = "0123456789abcdef";
    for (size_t i = 0; i < length; i++) {
        tell(" ");
        tell_bytes(&digits[bytes[i] / 16], 1);
        tell_bytes(&digits[bytes[i] % 16], 1);
    }
}

/* ---- a plan */

static inline uint64_t field_at(const struct pamzolit_plan *plan, const struct field *field, size_t index)
{
    const uint8_t *place = (const uint8_t *)plan + field->offset + index * field->width;
    uint64_t value = 0;
    for (size_t i = field->width; i > 0; i--)
        value = value * 256 + place[i - 1];
    return value;
}

/* its numbers up to the last that is not 0 */
static inline void tell_field(const struct pamzolit_plan *plan, const struct field *field)
{
    size_t count = field->places;
    while (count > 0 && field_at(plan, field, count - 1) == 0)
        count--;
    tell("  ");
    tell(field->name);
    for (size_t i = 0; i < count; i++)
        tell_number(" ", field_at(plan, field, i));
    tell("\n");
}

static inline void tell_plan(const struct pamzolit_plan *plan)
{
    for (size_t i = 0; i < FIELDS; i++)
        tell_field(plan, &fields[i]);
}

/* ---- replies */

static inline void count_call(bool accepted)
{
    sink.tally->calls++;
    sink.tally->refused += !accepted;
}

/* a call was made: its number comes first */
static inline void tell_refusal(uint32_t number)
{
    count_call(number == PAMZOLIT_ACCEPTED);
    tell_number(": ", number);
}

/* link by link: each link's number as four bytes, lowest first, where flows are digested */
static inline void tell_flow(const int32_t *flow, size_t links)
{
    sink.tally->flows++;
    for (size_t k = 0; k < links; k++)
        if (sink.digests)
            for (int shift = 0; shift < 32; shift += 8)
                digest_byte(&sink.tally->digest, (uint8_t)((uint32_t)flow[k] >> shift));
        else
            tell_signed(" ", flow[k]);
}

static inline void tell_pair(const struct pamzolit_pair_reply *pair)
{
    tell_number(", weight ", pair->weight);
    tell_number(", side ", pair->side);
    tell_number(", node ", pair->node);
    tell_number(", size ", pair->size);
}

static inline void tell_window(const struct pamzolit_window *window)
{
    tell_signed(", last ", window->last);
    tell_signed(", lowest ", window->lowest);
    tell_number(", count ", window->count);
}

static inline void tell_question(enum call call, const struct question *q)
{
    static const char *const names[CALLS] = {
        "change", "undo", "pair", "preview", "headroom", "reading", "flow", "write",
    };
    tell(names[call]);
    if (call == CHANGE || call == PREVIEW)
        tell_number(" link ", q->link), tell_number(" to ", q->capacity);
    if (call != CHANGE && call != UNDO && call != WRITE)
        tell_number(" from ", q->s), tell_number(" to ", q->t);
    if (call == HEADROOM || call == READING)
        tell_number(", demand ", q->demand);
    if (call == FLOW)
        tell_number(" into ", q->places);
    if (call == WRITE)
        tell_number(" into ", q->room);
}

/* what the call stored on the desk beside its number */
static inline void tell_stored(enum call call, const struct desk *desk, const struct question *q, bool accepted)
{
    if (call == CHANGE || call == UNDO || call == PREVIEW)
        tell_number(", not kept ", desk->count);
    if (call == PAIR || call == PREVIEW)
        tell_pair(&desk->pair);
    if (call == HEADROOM)
        tell_signed(", value ", desk->headroom.value), tell_text(" ", desk->headroom.text, 12);
    if (call == READING)
        tell_text(", ", desk->shown.text, 4), tell_window(&desk->window);
    if (call == FLOW && accepted)
        tell_flow(desk->flow, q->places);
    if (call == WRITE)
        tell_number(", used ", desk->used), tell_hex(desk->file, desk->used);
    tell("\n");
    if ((call == CHANGE || call == UNDO) && accepted)
        tell_plan(&desk->plan);
}

#endif
