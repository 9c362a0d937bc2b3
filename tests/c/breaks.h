/* A plan that is sound, broken on purpose: each line breaks one clause of soundness, most of them that clause alone. */
#ifndef BREAKS_H
#define BREAKS_H

#include "desk.h"
#include "sound.h"

/* a number that is `low` in its lower 32 bits */
#define AND_MORE(low) ((low) | (size_t)1 << 32)

/* the edit on the whole plan, and then 19 from all calls */
#define BREAK(edit) (desk->plan = *whole, (void)(edit), trial.damage = #edit, must_be_refused(desk, whole))

static size_t broken;

/* whether the arguments have faults of their own or not: 19 comes before all others */
static inline void must_be_refused(struct desk *desk, const struct pamzolit_plan *whole)
{
    struct question fine = {.t = 1, .places = whole->network.links, .room = PAMZOLIT_FILE_MAX};
    struct question faulty = {SIZE_MAX, SIZE_MAX, SIZE_MAX, 0, 0, UINT32_MAX, UINT32_MAX};
    MUST(!sound(&desk->plan));
    desk->window.count = 0;
    must_refuse_all(desk, &fine, 19);
    desk->window.count = UINT32_MAX;
    must_refuse_all(desk, &faulty, 19);
    broken++;
}

static inline void break_sizes(struct desk *desk, const struct pamzolit_plan *whole)
{
    struct pamzolit_plan *p = &desk->plan;
    BREAK(memset(p, 0, sizeof *p));
    BREAK(p->network.nodes = 0);
    BREAK(p->network.nodes = 65);
    BREAK(p->network.nodes = 256);
    BREAK(p->network.nodes = SIZE_MAX);
    BREAK(p->network.nodes = AND_MORE(whole->network.nodes));
    BREAK(p->network.links = 257);
    BREAK(p->network.links = 65536);
    BREAK(p->network.links = SIZE_MAX);
    BREAK(p->network.links = AND_MORE(whole->network.links));
    BREAK(p->stack.depth = 65);
    BREAK(p->stack.depth = 256);
    BREAK(p->stack.depth = SIZE_MAX);
    BREAK(p->stack.depth = AND_MORE(whole->stack.depth));
}

/* a link of the network */
static inline void break_link(struct desk *desk, const struct pamzolit_plan *whole, size_t k)
{
    struct pamzolit_network *net = &desk->plan.network;
    size_t n = whole->network.nodes;
    BREAK(net->a[k] = (uint8_t)n);
    BREAK(net->a[k] = 255);
    BREAK(net->b[k] = (uint8_t)n);
    BREAK(net->b[k] = 255);
    BREAK(net->a[k] = net->b[k]);
    BREAK(net->b[k] = net->a[k]);
    BREAK(net->capacity[k] = 8000001);
    BREAK(net->capacity[k] = UINT32_MAX);
}

/* a place of the network without a link */
static inline void break_no_link(struct desk *desk, const struct pamzolit_plan *whole, size_t k)
{
    struct pamzolit_network *net = &desk->plan.network;
    BREAK(net->a[k] = 1);
    BREAK(net->b[k] = 1);
    BREAK(net->capacity[k] = 1);
    BREAK((net->a[k] = 1, net->capacity[k] = 8000000));
}

static inline void break_node_0(struct desk *desk, const struct pamzolit_plan *whole)
{
    struct pamzolit_plan *p = &desk->plan;
    BREAK(p->tree.parent[0] = 1);
    BREAK(p->tree.parent[0] = 255);
    BREAK(p->tree.weight[0] = 1);
    BREAK(p->steps.pivot[0] = 1);
    BREAK(p->steps.side[0] = 1);
    BREAK(p->steps.side[0] = (uint64_t)1 << 63);
    BREAK(p->steps.value[0] = 1);
}

/* the lightest edge, and its weight in the tree */
static inline void break_lightest(struct desk *desk, const struct pamzolit_plan *whole)
{
    struct pamzolit_edge *edge = &desk->plan.lightest;
    uint32_t n = (uint32_t)whole->network.nodes;
    BREAK(edge->node = n);
    BREAK((edge->node = n, edge->weight = 0));
    BREAK((edge->node = n, edge->weight = 1));
    BREAK(edge->node = n + 1);
    BREAK(edge->node = PAMZOLIT_NODES);
    BREAK(edge->node += 256);
    BREAK(edge->node += 65536);
    BREAK(edge->node = UINT32_MAX);
    BREAK(edge->weight += 1);
    BREAK(edge->weight -= 1);
    BREAK(edge->weight += 65536);
    BREAK(edge->weight = UINT32_MAX);
    if (n == 1)
        return;
    BREAK(edge->node = 0);
    BREAK((edge->node = 0, edge->weight = 0));
    BREAK(desk->plan.tree.weight[edge->node] ^= 1);
}

/* a node but 0, beside the lightest edge */
static inline void break_by_weight(struct desk *desk, const struct pamzolit_plan *whole, size_t i)
{
    struct pamzolit_plan *p = &desk->plan;
    uint32_t lightest = whole->lightest.weight;
    if (i != whole->lightest.node) {
        BREAK(p->lightest.node = (uint32_t)i);
        /* heavier, or later and as light */
        BREAK((p->lightest.node = (uint32_t)i, p->lightest.weight = p->tree.weight[i]));
    }
    if (i < whole->lightest.node)
        BREAK(p->tree.weight[i] = lightest);
    if (lightest > 0)
        BREAK(p->tree.weight[i] = lightest - 1);
}

/* a node but 0 */
static inline void break_node(struct desk *desk, const struct pamzolit_plan *whole, size_t i)
{
    struct pamzolit_plan *p = &desk->plan;
    size_t n = whole->network.nodes, pivot = whole->steps.pivot[i], parent = whole->tree.parent[i];
    BREAK(p->tree.parent[i] = (uint8_t)n);
    BREAK(p->tree.parent[i] = 255);
    BREAK(p->tree.parent[i] = (uint8_t)i);
    BREAK((p->tree.parent[0] = (uint8_t)i, p->tree.parent[i] = 0));
    if (parent != 0)
        BREAK(p->tree.parent[parent] = (uint8_t)i);
    BREAK(p->tree.weight[i] = 2048000001);
    BREAK(p->tree.weight[i] = INT32_MAX);
    BREAK(p->tree.weight[i] = UINT32_MAX);
    break_by_weight(desk, whole, i);
    BREAK(p->steps.pivot[i] = (uint8_t)n);
    BREAK(p->steps.pivot[i] = 255);
    BREAK(p->steps.pivot[i] = (uint8_t)i);
    BREAK(p->steps.side[i] = 0);
    BREAK(p->steps.side[i] &= ~((uint64_t)1 << i));
    BREAK(p->steps.side[i] |= (uint64_t)1 << pivot);
    if (n < PAMZOLIT_NODES)
        BREAK(p->steps.side[i] |= (uint64_t)1 << n);
    if (n < PAMZOLIT_NODES)
        BREAK(p->steps.side[i] |= (uint64_t)1 << 63);
    BREAK(p->steps.value[i] = 2048000001);
    BREAK(p->steps.value[i] = INT32_MAX);
    BREAK(p->steps.value[i] = UINT32_MAX);
}

/* a place of the tree and the steps without a node */
static inline void break_no_node(struct desk *desk, const struct pamzolit_plan *whole, size_t i)
{
    struct pamzolit_plan *p = &desk->plan;
    BREAK(p->tree.parent[i] = 1);
    BREAK(p->tree.weight[i] = 1);
    BREAK(p->steps.pivot[i] = 1);
    BREAK(p->steps.side[i] = (uint64_t)1 << i);
    BREAK(p->steps.value[i] = 1);
    BREAK((p->lightest.node = (uint32_t)i, p->lightest.weight = 0));
}

/* an entry of the stack */
static inline void break_entry(struct desk *desk, const struct pamzolit_plan *whole, size_t i)
{
    struct pamzolit_stack *stack = &desk->plan.stack;
    BREAK(stack->link[i] = (uint16_t)whole->network.links);
    BREAK(stack->link[i] = 65535);
    BREAK(stack->capacity[i] = 8000001);
    BREAK(stack->capacity[i] = UINT32_MAX);
    BREAK((stack->depth = i, stack->capacity[i] = 1));
}

/* a place of the stack without an entry */
static inline void break_no_entry(struct desk *desk, const struct pamzolit_plan *whole, size_t i)
{
    struct pamzolit_stack *stack = &desk->plan.stack;
    BREAK(stack->link[i] = 1);
    BREAK(stack->capacity[i] = 1);
    if (whole->network.links == 0)
        BREAK(stack->depth = i + 1);
}

static inline void break_all(struct desk *desk, const struct pamzolit_plan *whole)
{
    trial.at = 0;
    break_sizes(desk, whole);
    break_node_0(desk, whole);
    break_lightest(desk, whole);
    for (trial.at = 0; trial.at < PAMZOLIT_LINKS; trial.at++)
        (trial.at < whole->network.links ? break_link : break_no_link)(desk, whole, trial.at);
    for (trial.at = 1; trial.at < PAMZOLIT_NODES; trial.at++)
        (trial.at < whole->network.nodes ? break_node : break_no_node)(desk, whole, trial.at);
    for (trial.at = 0; trial.at < PAMZOLIT_CHANGES; trial.at++)
        (trial.at < whole->stack.depth ? break_entry : break_no_entry)(desk, whole, trial.at);
}

#endif
