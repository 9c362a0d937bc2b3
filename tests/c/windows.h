/* The gate window: what one reading leaves of any record, and the four characters, from document 02, section 4: "the
 * last headroom, the lowest since reset, and the number of readings. [..] the first reading sets the lowest. [..] the
 * headroom right-aligned with one digit of tenths from -9.9 to 99.9, `LOW ` below, `HIGH` above." */
#ifndef WINDOWS_H
#define WINDOWS_H

#include "../../include/pamzolit.h"
#include "check.h"
#include <stdbool.h>
#include <string.h>

static inline bool same_window(const struct pamzolit_window *x, const struct pamzolit_window *y)
{
    return x->last == y->last && x->lowest == y->lowest && x->count == y->count;
}

static inline struct pamzolit_window window_behind(struct pamzolit_window was, int32_t headroom)
{
    bool lower = was.count == 0 || headroom < was.lowest;
    return (struct pamzolit_window){headroom, lower ? headroom : was.lowest, was.count + 1};
}

/* what the window looks like */
enum look { LOW, BELOW_ZERO, ONE_DIGIT, TWO_DIGITS, HIGH, LOOKS };

static inline enum look look_of(int32_t headroom)
{
    if (headroom < 0)
        return headroom < -99 ? LOW : BELOW_ZERO;
    if (headroom < 100)
        return ONE_DIGIT;
    return headroom > 999 ? HIGH : TWO_DIGITS;
}

static inline struct pamzolit_window_reply shown_of(int32_t headroom)
{
    static const char *const words[LOOKS] = {
        [LOW] = "LOW ", [BELOW_ZERO] = "-d.d", [ONE_DIGIT] = " d.d", [TWO_DIGITS] = "dd.d", [HIGH] = "HIGH",
    };
    struct pamzolit_window_reply reply = {0};
    int rest = abs(headroom);
    memcpy(reply.text, words[look_of(headroom)], sizeof reply.text);
    /* the digits, from the right */
    for (int i = 3; i >= 0; i--)
        if (reply.text[i] == 'd')
            reply.text[i] = (uint8_t)('0' + rest % 10), rest /= 10;
    return reply;
}

/* numbers at which a reading does something else, or any */
static inline int32_t random_tenths(void)
{
    static const int32_t ends[] = {INT32_MIN, INT32_MIN + 1, -100, -1, 0, 1, 1000, INT32_MAX - 1, INT32_MAX};
    return draw(2) ? ends[draw(sizeof ends / sizeof ends[0])] : (int32_t)(uint32_t)noise();
}

static inline struct pamzolit_window random_window(void)
{
    static const uint32_t counts[] = {0, 0, 1, 2, 999998, 999999, 1000000, 1000001, INT32_MAX, UINT32_MAX};
    uint32_t count = draw(4) ? counts[draw(sizeof counts / sizeof counts[0])] : (uint32_t)noise();
    return (struct pamzolit_window){random_tenths(), random_tenths(), count};
}

#endif
