// Whether the twin takes the library's way: equal networks, trees and steps after each call, and equal flows; and the
// plan's lightest edge is that of the twin's tree.
#pragma once
#include "held.h"
#include "twin.h"
#include <algorithm>

using Twin64 = Twin<1>;
using Counter = Twin<1, true>;

struct Checked { size_t trees = 0, changes = 0, flows = 0, found = 0; };

inline void expect(bool same, const char *what, const Net &net)
{
    if (same) return;
    fail(std::string("the twin differs from ") + what + ", for a network of " + std::to_string(net.n) +
         " nodes and " + std::to_string(net.links.size()) + " links");
}

// the least weight on the tree's path between two nodes
template <class Node> uint32_t path_weight(const Node *parent, const uint32_t *weight, size_t n, size_t s, size_t t)
{
    std::vector<uint32_t> least(n, 0);
    std::vector<bool> above(n, false);
    uint32_t low = UINT32_MAX;
    for (size_t i = s;; low = std::min(low, weight[i]), i = parent[i]) {
        above[i] = true, least[i] = low;
        if (i == 0) break;
    }
    low = UINT32_MAX;
    for (; !above[t]; t = parent[t]) low = std::min(low, weight[t]);
    return std::min(low, least[t]);
}

// of two nodes or more, the one from 1 up with the least weight, the lowest one among equals, and that weight
inline pamzolit_edge lightest(const uint32_t *weight, size_t n)
{
    const uint32_t *least = std::min_element(weight + 1, weight + n);
    return {(uint32_t)(least - weight), *least};
}

// Networks and trees are laid out alike in both, unused places too, so that their bytes can be compared.
static_assert(sizeof(Counter::Network) == sizeof(pamzolit_network) && sizeof(Counter::Tree) == sizeof(pamzolit_tree));

inline bool same_side(uint64_t side, const Counter::Set &own) { return side == own.word[0]; }

inline bool same_steps(const pamzolit_steps &steps, const Counter::Steps &own, size_t n)
{
    return std::equal(steps.pivot, steps.pivot + n, own.pivot) &&
           std::equal(steps.side, steps.side + n, own.side, same_side) &&
           std::equal(steps.value, steps.value + n, own.value);
}

// A plan of the library and what the twin has for it: each call is made on both, and its results are compared.
struct Both {
    const Net &net;
    Checked &checked;
    Plan plan;
    Counter::Network now;
    Counter::Built built;
    std::vector<Args> before; // for each change that stands its link, and the capacity that it had

    Both(const Net &net, Checked &checked)
        : net(net), checked(checked), plan(opened(net)), now(Counter::network_of(net))
    {
        Counter::build(now, built);
        expect_same();
        Twin64::Built timed;
        Twin64::build(Twin64::network_of(net), timed);
        expect(!memcmp(&timed.tree, &built.tree, sizeof timed.tree), "itself without counts", net);
        checked.trees++;
    }

    void expect_same() const
    {
        expect(!memcmp(&plan.network, &now, sizeof now), "the library's network", net);
        expect(!memcmp(&plan.tree, &built.tree, sizeof built.tree), "the library's tree", net);
        expect(same_steps(plan.steps, built.steps, now.nodes), "the library's steps", net);
        pamzolit_edge edge = lightest(built.tree.weight, now.nodes);
        expect(!memcmp(&plan.lightest, &edge, sizeof edge), "the library's lightest edge", net);
    }

    // a call after which link a.first has capacity a.second
    void alter(Call *made, Args a)
    {
        Counter::Steps steps = built.steps;
        Counter::rebuild(now, steps, a.first, a.second, built);
        bool accepted = made(plan, a) == PAMZOLIT_ACCEPTED;
        expect(accepted && stored.count == built.count, "the library's count of steps not kept", net);
        expect_same();
    }

    void change(Args a)
    {
        before.push_back({a.first, now.capacity[a.first]});
        alter(call::change, a);
        checked.changes++;
    }

    void undo()
    {
        alter(call::undo, before.back());
        before.pop_back();
    }

    // the flow of a pair, its limit and the tree's
    void pair(Args a)
    {
        int64_t flow[PAMZOLIT_LINKS];
        uint64_t found = Counter::counts.found;
        auto cut = Counter::lawful_flow(now, a.first, a.second, flow);
        bool accepted = call::flow(plan, a) == PAMZOLIT_ACCEPTED;
        expect(accepted && std::equal(flow, flow + now.links, stored.flow), "the library's flow of a pair", net);
        accepted = call::pair(plan, a) == PAMZOLIT_ACCEPTED;
        expect(accepted && stored.pair.weight == cut.value, "the library's limit of a pair", net);
        uint32_t limit = path_weight(built.tree.parent, built.tree.weight, net.n, a.first, a.second);
        expect(cut.value == limit, "its own limit of a pair", net);
        checked.flows++, checked.found += Counter::counts.found > found;
    }
};

// a link and its new capacity, often one that leaves no room or little
inline Args tight_capacity(const Net &net)
{
    Args a = new_capacity(net);
    return draw(2) ? a : Args{a.first, draw(4)};
}

// Pairs of the network as it is, and of what changes make of it, which are then undone.
inline void check_network(const Net &net, int pairs, int changes, int later_pairs, Checked &checked)
{
    Both both(net, checked);
    const Plan first = both.plan;
    for (auto a : drawn(net, pairs, ends)) both.pair(a);
    for (auto a : drawn(net, net.links.empty() ? 0 : changes, tight_capacity)) both.change(a);
    for (auto a : drawn(net, later_pairs, ends)) both.pair(a);
    while (!both.before.empty()) both.undo();
    if (memcmp(&first, &both.plan, sizeof first)) fail("changes undone leave another plan");
}

// The networks that are timed; many with equal cuts and links without room; and many with more parallel links than
// there are phases before a search.
inline std::string check_twin(const std::vector<std::vector<Net>> &sets)
{
    Checked checked;
    for (auto &nets : sets)
        for (auto &net : nets) check_network(net, 100, 50, 20, checked);
    for (int i = 0; i < 1000; i++) {
        bool few = i % 2;
        Net net = few ? tight(2 + draw(63), draw(257), i % 4 == 1 ? 4 : 1000) : dense(2 + draw(7), 160 + draw(97));
        check_network(net, 20, 10, 10, checked);
    }
    char text[240];
    snprintf(text, sizeof text,
             "The twin's %zu trees and their steps, those after %zu changes and their undos, and %zu flows, link by "
             "link, are the library's; in %zu of these flows a search found a way.",
             checked.trees, checked.changes, checked.flows, checked.found);
    return text;
}
