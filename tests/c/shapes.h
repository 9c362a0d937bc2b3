/* Random plans that keep the shape and nothing else: trees, steps and stacks that no opening would give. */
#ifndef SHAPES_H
#define SHAPES_H

#include "../../include/pamzolit.h"
#include "check.h"

/* at most `limit`, and often at its ends */
static inline uint32_t up_to(uint32_t limit)
{
    switch (draw(4)) {
    case 0: return 0;
    case 1: return limit;
    case 2: return draw(limit < 100 ? limit + 1 : 100);
    default: return draw(limit + 1);
    }
}

static inline void shape_network(struct pamzolit_network *net)
{
    uint32_t n = 1 + up_to(PAMZOLIT_NODES - 1);
    net->nodes = n;
    net->links = n == 1 ? 0 : up_to(PAMZOLIT_LINKS);
    for (size_t k = 0; k < net->links; k++) {
        net->a[k] = (uint8_t)draw(n);
        net->b[k] = (uint8_t)((net->a[k] + 1 + draw(n - 1)) % n);
        net->capacity[k] = up_to(8000000);
    }
}

/* nodes in a random order, each below one before it: the one just before it, node 0, or any */
static inline void shape_tree(struct pamzolit_tree *tree, uint32_t nodes)
{
    uint8_t order[PAMZOLIT_NODES] = {0};
    uint32_t kind = draw(3);
    for (uint32_t i = 1; i < nodes; i++) {
        uint32_t at = 1 + draw(i);
        order[i] = order[at];
        order[at] = (uint8_t)i;
    }
    for (uint32_t i = 1; i < nodes; i++) {
        tree->parent[order[i]] = order[kind == 0 ? i - 1 : kind == 1 ? 0 : draw(i)];
        tree->weight[order[i]] = up_to(2048000000);
    }
}

static inline void shape_steps(struct pamzolit_steps *steps, uint32_t nodes)
{
    for (uint32_t s = 1; s < nodes; s++) {
        uint32_t pivot = (s + 1 + draw(nodes - 1)) % nodes;
        uint64_t side = noise() >> (64 - nodes);
        steps->pivot[s] = (uint8_t)pivot;
        steps->side[s] = (side | (uint64_t)1 << s) & ~((uint64_t)1 << pivot);
        steps->value[s] = up_to(2048000000);
    }
}

static inline void shape_stack(struct pamzolit_stack *stack, uint32_t links)
{
    stack->depth = links == 0 ? 0 : up_to(PAMZOLIT_CHANGES);
    for (size_t i = 0; i < stack->depth; i++) {
        stack->link[i] = (uint16_t)draw(links);
        stack->capacity[i] = up_to(8000000);
    }
}

/* each edge in turn, from node 1 on: a lighter one takes the place of the one before */
static inline struct pamzolit_edge lightest_edge(const struct pamzolit_tree *tree, uint32_t nodes)
{
    struct pamzolit_edge edge = {0, 0};
    for (uint32_t i = 1; i < nodes; i++)
        if (i == 1 || tree->weight[i] < edge.weight)
            edge.node = i, edge.weight = tree->weight[i];
    return edge;
}

static inline struct pamzolit_plan random_shape(void)
{
    struct pamzolit_plan plan = {0};
    shape_network(&plan.network);
    shape_tree(&plan.tree, (uint32_t)plan.network.nodes);
    shape_steps(&plan.steps, (uint32_t)plan.network.nodes);
    shape_stack(&plan.stack, (uint32_t)plan.network.links);
    plan.lightest = lightest_edge(&plan.tree, (uint32_t)plan.network.nodes);
    return plan;
}

#endif
