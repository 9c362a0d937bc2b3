/* The papers' table of refusals: of each call the first row that holds, 0 for none. */
#ifndef TABLE_H
#define TABLE_H

#include "desk.h"
#include "files.h"
#include <stdbool.h>

static inline uint32_t change_number(const struct pamzolit_plan *plan, const struct question *q)
{
    if (q->link >= plan->network.links)
        return 10;
    if (q->capacity > 8000000)
        return 11;
    return plan->stack.depth == 64 ? 12 : 0;
}

static inline uint32_t nodes_number(const struct pamzolit_plan *plan, const struct question *q)
{
    if (q->s >= plan->network.nodes || q->t >= plan->network.nodes)
        return 14;
    return q->s == q->t ? 15 : 0;
}

static inline uint32_t first_of(uint32_t number, bool later, uint32_t later_number)
{
    return number ? number : later ? later_number : 0;
}

static inline uint32_t headroom_number(const struct pamzolit_plan *plan, const struct question *q)
{
    return first_of(nodes_number(plan, q), q->demand > 1000000000, 17);
}

/* what a call is lent */
struct lent {
    struct pamzolit_plan plan;
    struct pamzolit_window window;
};

/* of a plan that is sound */
static inline uint32_t number_of(enum call call, const struct lent *lent, const struct question *q)
{
    const struct pamzolit_plan *plan = &lent->plan;
    switch (call) {
    case CHANGE: return change_number(plan, q);
    case UNDO: return plan->stack.depth == 0 ? 13 : 0;
    case PAIR: return nodes_number(plan, q);
    case PREVIEW: return first_of(change_number(plan, q), true, nodes_number(plan, q));
    case HEADROOM: return headroom_number(plan, q);
    case READING: return first_of(headroom_number(plan, q), lent->window.count >= 1000000, 20);
    case FLOW: return first_of(nodes_number(plan, q), q->places != plan->network.links, 16);
    default: return q->room < file_of(&plan->network).length ? 18 : 0;
    }
}

#endif
