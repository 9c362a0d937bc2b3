/* Networks of several kinds. Each is drawn from a seed of its own, and so is all that is asked of it. */
#ifndef KINDS_H
#define KINDS_H

#include "../../include/pamzolit.h"
#include "check.h"
#include <stdbool.h>

enum kind { DENSE, SPARSE, LAYERED, ZERO, UNCONNECTED, PARALLEL, EQUAL, SMALL, KINDS };
static const char *const kind_names[KINDS] = {
    "dense", "sparse", "layered", "zero", "unconnected", "parallel", "equal", "small",
};

/* ---- numbers from the network's seed: not those of check.h, which also cover replies with noise */

static uint64_t picked;

static inline void seed_network(uint64_t seed, size_t number)
{
    picked = seed + (number + 1) * 0xd1342543de82ef95;
}

/* A number below `below`, which is not 0. No two are drawn where C leaves open which comes first, as among the
 * arguments of one call. */
static inline uint32_t pick(uint32_t below)
{
    uint64_t z = picked += 0x9e3779b97f4a7c15;
    z = (z ^ z >> 30) * 0xbf58476d1ce4e5b9;
    z = (z ^ z >> 27) * 0x94d049bb133111eb;
    return (uint32_t)((z >> 32) % below);
}

static inline uint32_t between(uint32_t low, uint32_t high)
{
    return low + pick(high - low + 1);
}

static inline bool once_in(uint32_t times)
{
    return pick(times) == 0;
}

/* ---- links, without their capacities */

/* either end comes first */
static inline void add_link(struct pamzolit_network *net, uint32_t u, uint32_t v)
{
    bool turned = once_in(2);
    MUST(net->links < PAMZOLIT_LINKS && u != v);
    net->a[net->links] = (uint8_t)(turned ? v : u);
    net->b[net->links] = (uint8_t)(turned ? u : v);
    net->links++;
}

static inline void add_anywhere(struct pamzolit_network *net, uint32_t count)
{
    uint32_t n = (uint32_t)net->nodes;
    for (; count > 0; count--) {
        uint32_t u = pick(n);
        add_link(net, u, (u + 1 + pick(n - 1)) % n);
    }
}

/* a spanning tree: at times a row of all nodes, the longest way that there is */
static inline void add_tree(struct pamzolit_network *net)
{
    bool row = once_in(4);
    for (uint32_t v = 1; v < net->nodes; v++)
        add_link(net, row ? v - 1 : pick(v), v);
}

static inline void add_grid(struct pamzolit_network *net, uint32_t columns)
{
    for (uint32_t v = 1; v < net->nodes; v++) {
        if (v % columns != 0)
            add_link(net, v - 1, v);
        if (v >= columns)
            add_link(net, v - columns, v);
    }
}

/* each node to some of the layer before its own, as far as there is room for links */
static inline void add_layers(struct pamzolit_network *net, uint32_t width, uint32_t each)
{
    for (uint32_t v = width; v < net->nodes; v++)
        for (uint32_t i = 0; i < each && net->links < PAMZOLIT_LINKS; i++)
            add_link(net, (v / width - 1) * width + pick(width), v);
}

/* links within the parts; the nodes of part 0 have none */
static inline void add_within_parts(struct pamzolit_network *net, uint32_t parts, uint32_t tries)
{
    uint32_t part[PAMZOLIT_NODES], n = (uint32_t)net->nodes;
    for (uint32_t v = 0; v < n; v++)
        part[v] = pick(parts);
    for (; tries > 0 && net->links < PAMZOLIT_LINKS; tries--) {
        uint32_t u = pick(n), v = pick(n);
        if (u != v && part[u] == part[v] && part[u] != 0)
            add_link(net, u, v);
    }
}

/* many links between few pairs of nodes */
static inline void add_parallel(struct pamzolit_network *net, uint32_t pairs, uint32_t count)
{
    uint32_t u[8], v[8], n = (uint32_t)net->nodes;
    for (uint32_t i = 0; i < pairs; i++) {
        u[i] = pick(n);
        v[i] = (u[i] + 1 + pick(n - 1)) % n;
    }
    for (; count > 0; count--) {
        uint32_t i = pick(pairs);
        add_link(net, u[i], v[i]);
    }
}

/* ---- capacities */

static const uint32_t ranges[][2] = {{0, 1}, {0, 9}, {1, 9}, {1, 1000}, {1, 1000000}, {999990, 1000000}};
enum { RANGES = sizeof ranges / sizeof ranges[0] };

static inline void set_capacities(struct pamzolit_network *net, uint32_t low, uint32_t high)
{
    for (size_t k = 0; k < net->links; k++)
        net->capacity[k] = between(low, high);
}

static inline void draw_capacities(struct pamzolit_network *net)
{
    const uint32_t *range = ranges[pick(RANGES)];
    set_capacities(net, range[0], range[1]);
}

/* all capacities become 0, or about half of them, or all but an eighth */
static inline void draw_zeros(struct pamzolit_network *net)
{
    static const uint32_t kept_of_8[] = {0, 1, 4};
    uint32_t kept = kept_of_8[pick(3)];
    for (size_t k = 0; k < net->links; k++)
        if (pick(8) >= kept)
            net->capacity[k] = 0;
}

/* ---- the kinds */

static inline struct pamzolit_network dense_network(void)
{
    bool full = once_in(4);
    struct pamzolit_network net = {.nodes = full ? PAMZOLIT_NODES : between(2, PAMZOLIT_NODES)};
    add_anywhere(&net, full ? PAMZOLIT_LINKS : pick(PAMZOLIT_LINKS + 1));
    draw_capacities(&net);
    return net;
}

static inline struct pamzolit_network sparse_network(void)
{
    struct pamzolit_network net = {.nodes = once_in(4) ? PAMZOLIT_NODES : between(2, PAMZOLIT_NODES)};
    add_tree(&net);
    add_anywhere(&net, pick(31));
    draw_capacities(&net);
    return net;
}

/* from one end to the other flow is sent in many phases: arcs are shut, and opened again by what is sent back */
static inline struct pamzolit_network layered_network(void)
{
    struct pamzolit_network net = {.nodes = once_in(4) ? between(2, PAMZOLIT_NODES) : PAMZOLIT_NODES};
    uint32_t width = between(2, 3), more = pick(31);
    add_layers(&net, width, between(3, 4));
    add_anywhere(&net, more < PAMZOLIT_LINKS - net.links ? more : (uint32_t)(PAMZOLIT_LINKS - net.links));
    if (once_in(2))
        set_capacities(&net, 1, 9);
    else
        draw_capacities(&net);
    return net;
}

static inline struct pamzolit_network zero_network(void)
{
    struct pamzolit_network net = once_in(2) ? dense_network() : sparse_network();
    draw_zeros(&net);
    return net;
}

static inline struct pamzolit_network unconnected_network(void)
{
    struct pamzolit_network net = {.nodes = between(3, PAMZOLIT_NODES)};
    uint32_t parts = between(2, 5);
    add_within_parts(&net, parts, pick(4 * PAMZOLIT_LINKS));
    draw_capacities(&net);
    return net;
}

static inline struct pamzolit_network parallel_network(void)
{
    struct pamzolit_network net = {.nodes = between(2, 8)};
    uint32_t count = once_in(4) ? PAMZOLIT_LINKS : between(2, PAMZOLIT_LINKS);
    if (once_in(2))
        add_anywhere(&net, count);
    else
        add_parallel(&net, between(1, 8), count);
    draw_capacities(&net);
    return net;
}

/* all capacities the same small number, so that there are many equal cuts */
static inline struct pamzolit_network equal_network(void)
{
    struct pamzolit_network net = {.nodes = between(2, PAMZOLIT_NODES)};
    uint32_t capacity = between(1, 4);
    switch (pick(3)) {
    case 0: add_anywhere(&net, pick(PAMZOLIT_LINKS + 1)); break;
    case 1: add_tree(&net), add_anywhere(&net, pick(64)); break;
    default: add_grid(&net, between(2, 8)), add_anywhere(&net, pick(4));
    }
    set_capacities(&net, capacity, capacity);
    return net;
}

static inline struct pamzolit_network few_nodes(uint32_t nodes, uint32_t links)
{
    struct pamzolit_network net = {.nodes = nodes};
    add_anywhere(&net, links);
    draw_capacities(&net);
    return net;
}

static inline struct pamzolit_network small_network(size_t number)
{
    uint32_t nodes = between(3, 6);
    static const struct pamzolit_network resort_a_network = {
        .nodes = 4, .links = 5, .a = {0, 1, 2, 0, 0}, .b = {1, 2, 3, 3, 2}, .capacity = {5, 3, 4, 2, 1},
    };
    switch (number % 4) {
    case 0: return resort_a_network;
    case 1: return few_nodes(1, 0);
    case 2: return few_nodes(2, once_in(2) ? pick(4) : pick(PAMZOLIT_LINKS + 1));
    default: return few_nodes(nodes, pick(16));
    }
}

/* the network of that number, whose kind is the number's remainder */
static inline struct pamzolit_network network_of_kind(size_t number)
{
    switch ((enum kind)(number % KINDS)) {
    case DENSE: return dense_network();
    case SPARSE: return sparse_network();
    case LAYERED: return layered_network();
    case ZERO: return zero_network();
    case UNCONNECTED: return unconnected_network();
    case PARALLEL: return parallel_network();
    case EQUAL: return equal_network();
    default: return small_network(number / KINDS);
    }
}

#endif
