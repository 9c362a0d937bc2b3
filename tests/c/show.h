/* A plan, a gate's record, a question and a file as lines of text. */
#ifndef SHOW_H
#define SHOW_H

#include "desk.h"

static inline void show_tree(const struct pamzolit_plan *plan)
{
    for (size_t i = 1; i < plan->network.nodes; i++)
        printf("tree %zu %u %u\n", i, (unsigned)plan->tree.parent[i], (unsigned)plan->tree.weight[i]);
}

static inline void show_steps(const struct pamzolit_plan *plan)
{
    const struct pamzolit_steps *steps = &plan->steps;
    for (size_t s = 1; s < plan->network.nodes; s++)
        printf("step %zu: pivot %u, side %llu, value %u\n", s, (unsigned)steps->pivot[s],
               (unsigned long long)steps->side[s], (unsigned)steps->value[s]);
}

static inline void show_links(const struct pamzolit_plan *plan)
{
    const struct pamzolit_network *net = &plan->network;
    printf("network: %zu nodes, %zu links\n", net->nodes, net->links);
    for (size_t k = 0; k < net->links; k++)
        printf("link %zu: %u %u, capacity %u\n", k, (unsigned)net->a[k], (unsigned)net->b[k],
               (unsigned)net->capacity[k]);
}

static inline void show_stack(const struct pamzolit_plan *plan)
{
    printf("stack: depth %zu\n", plan->stack.depth);
    for (size_t i = 0; i < plan->stack.depth; i++)
        printf("before change %zu: link %u, capacity %u\n", i, (unsigned)plan->stack.link[i],
               (unsigned)plan->stack.capacity[i]);
}

static inline void show_lightest(const struct pamzolit_plan *plan)
{
    printf("lightest: node %u, weight %u\n", (unsigned)plan->lightest.node, (unsigned)plan->lightest.weight);
}

static inline bool all_zero(const void *start, size_t length)
{
    for (size_t i = 0; i < length; i++)
        if (((const uint8_t *)start)[i] != 0)
            return false;
    return true;
}

#define ZERO_FROM(array, used) all_zero((array) + (used), sizeof(array) - (used) * sizeof(array)[0])

/* what is not shown is 0 */
static inline void must_be_blank_elsewhere(const struct pamzolit_plan *plan)
{
    size_t n = plan->network.nodes, m = plan->network.links, depth = plan->stack.depth;
    MUST(ZERO_FROM(plan->network.a, m) && ZERO_FROM(plan->network.b, m) && ZERO_FROM(plan->network.capacity, m));
    MUST(ZERO_FROM(plan->tree.parent, n) && ZERO_FROM(plan->tree.weight, n));
    MUST(ZERO_FROM(plan->steps.pivot, n) && ZERO_FROM(plan->steps.side, n) && ZERO_FROM(plan->steps.value, n));
    MUST(ZERO_FROM(plan->stack.link, depth) && ZERO_FROM(plan->stack.capacity, depth));
    MUST(plan->tree.parent[0] == 0 && plan->tree.weight[0] == 0);
    MUST(plan->steps.pivot[0] == 0 && plan->steps.side[0] == 0 && plan->steps.value[0] == 0);
}

static inline void show_plan(const struct pamzolit_plan *plan)
{
    show_links(plan);
    show_tree(plan);
    show_steps(plan);
    show_stack(plan);
    show_lightest(plan);
    must_be_blank_elsewhere(plan);
}

static inline void show_question(enum call call, const struct question *q)
{
    switch (call) {
    case CHANGE: printf("change link %zu to %u", q->link, (unsigned)q->capacity); break;
    case UNDO: printf("undo"); break;
    case PAIR: printf("pair %zu %zu", q->s, q->t); break;
    case PREVIEW:
        printf("preview link %zu to %u, pair %zu %zu", q->link, (unsigned)q->capacity, q->s, q->t);
        break;
    case HEADROOM: printf("headroom %zu %zu, demand %u", q->s, q->t, (unsigned)q->demand); break;
    case READING: printf("reading %zu %zu, demand %u", q->s, q->t, (unsigned)q->demand); break;
    case FLOW: printf("flow %zu %zu into %zu places", q->s, q->t, q->places); break;
    default: printf("write into %zu bytes", q->room);
    }
}

static inline void show_window(const struct pamzolit_window *window)
{
    printf("last %d, lowest %d, count %u\n", (int)window->last, (int)window->lowest, (unsigned)window->count);
}

static inline void show_bytes(const uint8_t *bytes, size_t length)
{
    for (size_t i = 0; i < length; i++)
        printf(" %02x", (unsigned)bytes[i]);
}

#endif
