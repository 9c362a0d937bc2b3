/* Pairs and headrooms, from the tree that a plan holds, be it its network's or not. */
#ifndef PAIRS_H
#define PAIRS_H

#include "../../include/pamzolit.h"
#include "check.h"
#include <stdbool.h>
#include <string.h>

/* the nodes from `node` up to node 0, both in it */
struct climb {
    size_t length;
    size_t node[PAMZOLIT_NODES];
};

static inline struct climb climb_from(const struct pamzolit_tree *tree, size_t node)
{
    struct climb up = {1, {node}};
    for (; node != 0; up.node[up.length++] = node)
        node = tree->parent[node];
    return up;
}

static inline bool among(const struct climb *up, size_t node)
{
    for (size_t i = 0; i < up->length; i++)
        if (up->node[i] == node)
            return true;
    return false;
}

/* An edge is on the path between s and t if one of the two is below it and the other is not. Of these the lightest, the
 * one with the lowest node among equals: nodes are tried in rising order, and only a lighter edge replaces one. */
static inline size_t lightest(const struct pamzolit_tree *tree, size_t s, size_t t)
{
    struct climb from_s = climb_from(tree, s), from_t = climb_from(tree, t);
    size_t best = 0;
    for (size_t node = 1; node < PAMZOLIT_NODES; node++) {
        bool on_path = among(&from_s, node) != among(&from_t, node);
        if (on_path && (best == 0 || tree->weight[node] < tree->weight[best]))
            best = node;
    }
    return best;
}

/* once the edge above `node` is cut: the nodes that lie as s does */
static inline struct pamzolit_pair_reply pair_of(const struct pamzolit_plan *plan, size_t s, size_t t)
{
    size_t node = lightest(&plan->tree, s, t);
    struct pamzolit_pair_reply reply = {.weight = plan->tree.weight[node], .node = node};
    struct climb from_s = climb_from(&plan->tree, s);
    for (size_t i = 0; i < plan->network.nodes; i++) {
        struct climb up = climb_from(&plan->tree, i);
        if (among(&up, node) == among(&from_s, node))
            reply.side |= (uint64_t)1 << i, reply.size++;
    }
    return reply;
}

static inline struct pamzolit_headroom_reply headroom_of(uint32_t weight, uint32_t demand)
{
    struct pamzolit_headroom_reply reply = {.value = (int32_t)weight - (int32_t)demand};
    const char *sign = reply.value < 0 ? "-" : "";
    char digits[24], text[24];
    snprintf(digits, sizeof digits, "%s%d.%d", sign, abs(reply.value / 10), abs(reply.value % 10));
    MUST(snprintf(text, sizeof text, "%12s", digits) == 12);
    memcpy(reply.text, text, sizeof reply.text);
    return reply;
}

#endif
