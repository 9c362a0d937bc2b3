/* What a call on a plan must answer, from what the plan holds. */
#ifndef ANSWERS_H
#define ANSWERS_H

#include "desk.h"
#include "files.h"
#include "flows.h"
#include "pairs.h"
#include "sound.h"
#include "table.h"
#include "windows.h"

/* ---- an accepted change or undo sets one capacity and the stack, and leaves a plan that is sound: its lightest edge
 * is that of its new tree */

static inline void must_have_set(const struct pamzolit_plan *was, const struct desk *desk, size_t link,
                                 uint32_t capacity)
{
    struct pamzolit_network want = was->network;
    want.capacity[link] = capacity;
    MUST(memcmp(&want, &desk->plan.network, sizeof want) == 0);
    MUST(desk->count < want.nodes);
    MUST(sound(&desk->plan));
}

static inline void must_have_changed(const struct pamzolit_plan *was, const struct desk *desk, const struct question *q)
{
    struct pamzolit_stack want = was->stack;
    want.link[want.depth] = (uint16_t)q->link;
    want.capacity[want.depth++] = was->network.capacity[q->link];
    MUST(memcmp(&want, &desk->plan.stack, sizeof want) == 0);
    must_have_set(was, desk, q->link, q->capacity);
}

static inline void must_have_undone(const struct pamzolit_plan *was, const struct desk *desk)
{
    struct pamzolit_stack want = was->stack;
    size_t top = --want.depth;
    want.link[top] = 0;
    want.capacity[top] = 0;
    MUST(memcmp(&want, &desk->plan.stack, sizeof want) == 0);
    must_have_set(was, desk, was->stack.link[top], was->stack.capacity[top]);
}

/* ---- what an accepted call left on the desk, `was` being what it was lent */

static inline void must_have_paired(const struct pamzolit_plan *plan, const struct desk *desk, const struct question *q)
{
    struct pamzolit_pair_reply want = pair_of(plan, q->s, q->t);
    MUST(memcmp(&want, &desk->pair, sizeof want) == 0);
}

/* a change of a copy, and the pair of that */
static inline void must_have_previewed(const struct pamzolit_plan *was, const struct desk *desk,
                                       const struct question *q)
{
    struct pamzolit_plan copy = *was;
    uint32_t count;
    MUST(pamzolit_change(&copy, q->link, q->capacity, &count) == 0 && count == desk->count);
    must_have_paired(&copy, desk, q);
}

/* how often a window of each look was shown */
static size_t looks[LOOKS];

static inline void must_have_read(const struct lent *was, const struct desk *desk, const struct question *q)
{
    int32_t headroom = headroom_of(pair_of(&was->plan, q->s, q->t).weight, q->demand).value;
    struct pamzolit_window window = window_behind(was->window, headroom);
    struct pamzolit_window_reply shown = shown_of(headroom);
    MUST(same_window(&window, &desk->window));
    MUST(memcmp(&shown, &desk->shown, sizeof shown) == 0);
    looks[look_of(headroom)]++;
}

static inline void must_have_flowed(const struct pamzolit_network *net, const int32_t *flow, size_t s, size_t t)
{
    MUST(lawful(net, flow, s, t));
    MUST(largest(net, flow, s, t));
}

static inline void must_have_written(const struct pamzolit_network *net, const struct desk *desk)
{
    struct file want = file_of(net);
    MUST(desk->used == want.length && memcmp(desk->file, want.bytes, want.length) == 0);
}

static inline void must_have_answered(enum call call, const struct lent *was, const struct desk *desk,
                                      const struct question *q)
{
    const struct pamzolit_plan *plan = &was->plan;
    struct pamzolit_headroom_reply headroom;
    switch (call) {
    case CHANGE: must_have_changed(plan, desk, q); break;
    case UNDO: must_have_undone(plan, desk); break;
    case PAIR: must_have_paired(plan, desk, q); break;
    case PREVIEW: must_have_previewed(plan, desk, q); break;
    case HEADROOM:
        headroom = headroom_of(pair_of(plan, q->s, q->t).weight, q->demand);
        MUST(memcmp(&headroom, &desk->headroom, sizeof headroom) == 0);
        break;
    case READING: must_have_read(was, desk, q); break;
    case FLOW: must_have_flowed(&plan->network, desk->flow, q->s, q->t); break;
    default: must_have_written(&plan->network, desk);
    }
}

/* how often each call gave each number */
static size_t given[CALLS][PAMZOLIT_TOO_MANY_READINGS + 1];

/* all eight calls, each on the desk's plan and record as they are now; whether the plan is sound */
static inline bool must_answer_all(struct desk *desk, const struct question *q)
{
    struct lent was = {desk->plan, desk->window};
    bool keeps_shape = sound(&was.plan);
    for (enum call call = 0; call < CALLS; call++) {
        uint32_t number = keeps_shape ? number_of(call, &was, q) : 19;
        MUST(called(call, desk, q) == number);
        given[call][number]++;
        if (number == 0)
            must_have_answered(call, &was, desk, q);
        desk->plan = was.plan;
        desk->window = was.window;
    }
    return keeps_shape;
}

/* a row of the table that was never met was not tested */
static inline void must_have_met_all_rows(size_t least)
{
    enum { NUMBERS = 7 };
    static const uint32_t numbers[CALLS][NUMBERS] = {
        [CHANGE] = {0, 10, 11, 12, 19},
        [UNDO] = {0, 13, 19},
        [PAIR] = {0, 14, 15, 19},
        [PREVIEW] = {0, 10, 11, 12, 14, 15, 19},
        [HEADROOM] = {0, 14, 15, 17, 19},
        [READING] = {0, 14, 15, 17, 19, 20},
        [FLOW] = {0, 14, 15, 16, 19},
        [WRITE] = {0, 18, 19},
    };
    for (enum call call = 0; call < CALLS; call++)
        for (int i = 0; i < NUMBERS; i++)
            MUST(given[call][numbers[call][i]] >= least);
}

static inline void must_have_met_all_looks(size_t least)
{
    for (enum look look = 0; look < LOOKS; look++)
        MUST(looks[look] >= least);
}

#endif
