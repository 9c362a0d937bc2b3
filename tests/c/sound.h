/* Whether a plan is sound, from the paper's sentence: "all limits above hold, also for the stack's links and
 * capacities, unused places are 0, house 0 has parent and weight 0, every house reaches house 0 by at most 63 parents,
 * each weight and step cost is at most 256,000,000, each X holds its s, not its pivot, and no bit of n or above, and
 * each pivot is below n. House 0's step is all 0. Parents are below n." From document 02, section 2: "The plan shall
 * hold it: the house from 1 up with the lightest weight, lowest number among equals, and that weight; both 0 with one
 * house. [..] a plan in which it isn't true counts as not sound." And from its section 6: "A capacity may be up to
 * 8,000,000 tenths. [..] weights and step costs reach 2,048,000,000." */
#ifndef SOUND_H
#define SOUND_H

#include "../../include/pamzolit.h"
#include <stdbool.h>

static inline bool sound_network(const struct pamzolit_network *net)
{
    if (net->nodes < 1 || net->nodes > 64 || net->links > 256)
        return false;
    for (size_t k = 0; k < 256; k++) {
        bool fits = net->a[k] < net->nodes && net->b[k] < net->nodes && net->a[k] != net->b[k]
                    && net->capacity[k] <= 8000000;
        bool blank = net->a[k] == 0 && net->b[k] == 0 && net->capacity[k] == 0;
        if (k < net->links ? !fits : !blank)
            return false;
    }
    return true;
}

static inline bool reaches_node_0(const uint8_t *parent, size_t node)
{
    for (int parents = 0; parents < 63 && node != 0; parents++)
        node = parent[node];
    return node == 0;
}

static inline bool sound_tree(const struct pamzolit_tree *tree, size_t nodes)
{
    if (tree->parent[0] != 0 || tree->weight[0] != 0)
        return false;
    /* all parents before any climb, which would else leave the array */
    for (size_t i = 0; i < 64; i++)
        if (i < nodes ? tree->parent[i] >= nodes : tree->parent[i] != 0)
            return false;
    for (size_t i = 0; i < 64; i++) {
        bool fits = tree->weight[i] <= 2048000000 && reaches_node_0(tree->parent, i);
        if (i < nodes ? !fits : tree->weight[i] != 0)
            return false;
    }
    return true;
}

static inline bool holds(uint64_t side, size_t node)
{
    return side >> node & 1;
}

static inline bool sound_step(const struct pamzolit_steps *steps, size_t s, size_t nodes)
{
    uint64_t side = steps->side[s];
    if (steps->pivot[s] >= nodes || steps->value[s] > 2048000000)
        return false;
    for (size_t i = nodes; i < 64; i++)
        if (holds(side, i))
            return false;
    return holds(side, s) && !holds(side, steps->pivot[s]);
}

static inline bool sound_steps(const struct pamzolit_steps *steps, size_t nodes)
{
    for (size_t s = 0; s < 64; s++) {
        bool blank = steps->pivot[s] == 0 && steps->side[s] == 0 && steps->value[s] == 0;
        if (s == 0 || s >= nodes ? !blank : !sound_step(steps, s, nodes))
            return false;
    }
    return true;
}

static inline bool sound_stack(const struct pamzolit_stack *stack, size_t links)
{
    if (stack->depth > 64)
        return false;
    for (size_t i = 0; i < 64; i++) {
        bool fits = stack->link[i] < links && stack->capacity[i] <= 8000000;
        bool blank = stack->link[i] == 0 && stack->capacity[i] == 0;
        if (i < stack->depth ? !fits : !blank)
            return false;
    }
    return true;
}

/* an edge of the tree with its weight: none is lighter, and those of lower nodes are heavier */
static inline bool sound_lightest(const struct pamzolit_edge *edge, const struct pamzolit_tree *tree, size_t nodes)
{
    if (nodes == 1)
        return edge->node == 0 && edge->weight == 0;
    if (edge->node == 0 || edge->node >= nodes || edge->weight != tree->weight[edge->node])
        return false;
    for (size_t i = 1; i < nodes; i++)
        if (tree->weight[i] < edge->weight || (tree->weight[i] == edge->weight && i < edge->node))
            return false;
    return true;
}

static inline bool sound(const struct pamzolit_plan *plan)
{
    return sound_network(&plan->network) && sound_tree(&plan->tree, plan->network.nodes)
           && sound_steps(&plan->steps, plan->network.nodes) && sound_stack(&plan->stack, plan->network.links)
           && sound_lightest(&plan->lightest, &plan->tree, plan->network.nodes);
}

#endif
