/* A desk: all that is lent to a call, with gaps between. After a call nothing on the desk may differ from before but
 * what the header says that the call stores. */
#ifndef DESK_H
#define DESK_H

#include "../../include/pamzolit.h"
#include "check.h"
#include <stdbool.h>
#include <string.h>

struct desk {
    uint8_t gap_0[64];
    struct pamzolit_plan plan;
    uint8_t gap_1[64];
    uint32_t count;
    uint8_t gap_2[60];
    struct pamzolit_pair_reply pair;
    uint8_t gap_3[64];
    struct pamzolit_headroom_reply headroom;
    uint8_t gap_4[60];
    struct pamzolit_window window;
    uint8_t gap_5[60];
    struct pamzolit_window_reply shown;
    uint8_t gap_6[64];
    int32_t flow[PAMZOLIT_LINKS + 1];
    uint8_t gap_7[60];
    uint8_t file[PAMZOLIT_FILE_MAX + 1];
    uint8_t gap_8[68];
    size_t used;
    uint8_t gap_9[64];
    size_t place;
    uint8_t gap_10[64];
};
/* padding would not be safe to compare */
_Static_assert(sizeof(struct desk) == 3104 + 4 + 32 + 20 + 12 + 8 + 1028 + 1540 + 8 + 8 + 692, "the desk has padding");

enum call { CHANGE, UNDO, PAIR, PREVIEW, HEADROOM, READING, FLOW, WRITE, CALLS };

/* a call's arguments; `places` and `room` are the lengths of the flow's and the file's buffers */
struct question {
    size_t link, s, t, places, room;
    uint32_t capacity, demand;
};

static inline void cover_with_noise(void *start, size_t length)
{
    for (size_t i = 0; i < length; i++)
        ((uint8_t *)start)[i] = (uint8_t)draw(256);
}

static inline bool same_plan(const struct pamzolit_plan *x, const struct pamzolit_plan *y)
{
    return memcmp(x, y, sizeof *x) == 0;
}

static inline uint32_t ask(enum call call, struct desk *desk, const struct question *q)
{
    switch (call) {
    case CHANGE: return pamzolit_change(&desk->plan, q->link, q->capacity, &desk->count);
    case UNDO: return pamzolit_undo(&desk->plan, &desk->count);
    case PAIR: return pamzolit_pair(&desk->plan, q->s, q->t, &desk->pair);
    case PREVIEW:
        return pamzolit_preview(&desk->plan, q->link, q->capacity, q->s, q->t, &desk->pair, &desk->count);
    case HEADROOM: return pamzolit_headroom(&desk->plan, q->s, q->t, q->demand, &desk->headroom);
    case READING: return pamzolit_reading(&desk->window, &desk->plan, q->s, q->t, q->demand, &desk->shown);
    case FLOW: return pamzolit_flow(&desk->plan, q->s, q->t, desk->flow, q->places);
    default: return pamzolit_write(&desk->plan, desk->file, q->room, &desk->used);
    }
}

/* what stands beside a refusal: zeros, a text of spaces, and the rest as it was */
static inline void store_refusal(enum call call, struct desk *desk, uint32_t number)
{
    switch (call) {
    case CHANGE:
    case UNDO: desk->count = 0; break;
    case PAIR: desk->pair = (struct pamzolit_pair_reply){.number = number}; break;
    case PREVIEW: desk->pair = (struct pamzolit_pair_reply){.number = number}, desk->count = 0; break;
    case HEADROOM:
        desk->headroom = (struct pamzolit_headroom_reply){.number = number};
        memset(desk->headroom.text, ' ', sizeof desk->headroom.text);
        break;
    case READING:
        desk->shown.number = number;
        memset(desk->shown.text, ' ', sizeof desk->shown.text);
        break;
    case FLOW: break;
    default: desk->used = 0;
    }
}

/* what an accepted call may store, taken over from the desk behind it */
static inline void store_reply(enum call call, struct desk *desk, const struct desk *behind, const struct question *q)
{
    switch (call) {
    case CHANGE:
    case UNDO: desk->plan = behind->plan, desk->count = behind->count; break;
    case PAIR: desk->pair = behind->pair, MUST(desk->pair.number == 0); break;
    case PREVIEW: desk->pair = behind->pair, desk->count = behind->count, MUST(desk->pair.number == 0); break;
    case HEADROOM: desk->headroom = behind->headroom, MUST(desk->headroom.number == 0); break;
    case READING: desk->window = behind->window, desk->shown = behind->shown, MUST(desk->shown.number == 0); break;
    case FLOW: memcpy(desk->flow, behind->flow, q->places * sizeof desk->flow[0]); break;
    default:
        MUST(behind->used <= q->room);
        desk->used = behind->used;
        memcpy(desk->file, behind->file, desk->used);
    }
}

/* noise where the call stores something in any case, so that nothing is right because it was left there */
static inline void cover_reply(enum call call, struct desk *desk)
{
    if (call == CHANGE || call == UNDO || call == PREVIEW)
        cover_with_noise(&desk->count, sizeof desk->count);
    if (call == PAIR || call == PREVIEW)
        cover_with_noise(&desk->pair, sizeof desk->pair);
    if (call == HEADROOM)
        cover_with_noise(&desk->headroom, sizeof desk->headroom);
    if (call == READING)
        cover_with_noise(&desk->shown, sizeof desk->shown);
    if (call == WRITE)
        cover_with_noise(&desk->used, sizeof desk->used);
}

/* a call that keeps to what it may store; its number */
static inline uint32_t called(enum call call, struct desk *desk, const struct question *q)
{
    struct desk want;
    cover_reply(call, desk);
    memcpy(&want, desk, sizeof want);
    uint32_t number = ask(call, desk, q);
    if (number != PAMZOLIT_ACCEPTED)
        store_refusal(call, &want, number);
    else
        store_reply(call, &want, desk, q);
    MUST(memcmp(&want, desk, sizeof want) == 0);
    return number;
}

/* a reset of whatever the record's memory holds, which stores three zeros and nothing else */
static inline void reset_window(struct desk *desk)
{
    struct desk want;
    cover_with_noise(&desk->window, sizeof desk->window);
    memcpy(&want, desk, sizeof want);
    pamzolit_reset(&desk->window);
    want.window = (struct pamzolit_window){0, 0, 0};
    MUST(memcmp(&want, desk, sizeof want) == 0);
}

/* an opening into whatever the plan's memory holds; its number */
static inline uint32_t opened(struct desk *desk, const uint8_t *file, size_t length)
{
    struct desk want;
    memcpy(&want, desk, sizeof want);
    /* in a block that ends with the file, so that valgrind sees a byte read behind it */
    uint8_t *block = malloc(length + 1);
    MUST(block != NULL);
    memcpy(block + 1, file, length);
    uint32_t number = pamzolit_open(block + 1, length, &desk->plan, &desk->place);
    want.plan = desk->plan;
    want.place = desk->place;
    MUST(memcmp(&want, desk, sizeof want) == 0 && memcmp(block + 1, file, length) == 0);
    free(block);
    return number;
}

static inline void must_refuse_all(struct desk *desk, const struct question *q, uint32_t number)
{
    for (enum call call = 0; call < CALLS; call++)
        MUST(called(call, desk, q) == number);
}

#endif
