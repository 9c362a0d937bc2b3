/* Flows by what they must satisfy: which of the largest flows a call gives is its own choice. */
#ifndef FLOWS_H
#define FLOWS_H

#include "../../include/pamzolit.h"
#include <stdbool.h>

/* what leaves a node less what enters it */
static inline int64_t leaves(const struct pamzolit_network *net, const int32_t *flow, size_t node)
{
    int64_t sum = 0;
    for (size_t k = 0; k < net->links; k++) {
        sum += net->a[k] == node ? flow[k] : 0;
        sum -= net->b[k] == node ? flow[k] : 0;
    }
    return sum;
}

/* no link above its capacity, and at every node but s and t what comes in goes out */
static inline bool lawful(const struct pamzolit_network *net, const int32_t *flow, size_t s, size_t t)
{
    for (size_t k = 0; k < net->links; k++)
        if (flow[k] > (int64_t)net->capacity[k] || -(int64_t)flow[k] > (int64_t)net->capacity[k])
            return false;
    for (size_t i = 0; i < net->nodes; i++)
        if (i != s && i != t && leaves(net, flow, i) != 0)
            return false;
    return true;
}

/* the nodes of `from` and those that a link with room to spare leads to from one of them */
static inline uint64_t one_further(const struct pamzolit_network *net, const int32_t *flow, uint64_t from)
{
    uint64_t reached = from;
    for (size_t k = 0; k < net->links; k++) {
        uint64_t a = (uint64_t)1 << net->a[k], b = (uint64_t)1 << net->b[k];
        if (from & a && flow[k] < (int64_t)net->capacity[k])
            reached |= b;
        if (from & b && -(int64_t)flow[k] < (int64_t)net->capacity[k])
            reached |= a;
    }
    return reached;
}

/* whether no lawful flow has a larger total: no way with room to spare leads from s to t */
static inline bool largest(const struct pamzolit_network *net, const int32_t *flow, size_t s, size_t t)
{
    uint64_t reached = 0, further = (uint64_t)1 << s;
    while (reached != further) {
        reached = further;
        further = one_further(net, flow, reached);
    }
    return !(reached >> t & 1);
}

#endif
