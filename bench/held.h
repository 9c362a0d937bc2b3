// Plans of the library held in memory, the calls on them, and what the calls are made with.
#pragma once
#include "../include/pamzolit.h"
#include "nets.h"
#include <cstdio>
#include <cstdlib>
#include <string>

using Plan = pamzolit_plan;

[[noreturn]] inline void fail(const std::string &what)
{
    fprintf(stderr, "bench: %s\n", what.c_str());
    exit(1);
}

// ---- arguments: two nodes, or a link and its capacity
struct Args { uint32_t first, second; };
using Drawer = Args(const Net &);

inline Args nothing(const Net &) { return {0, 0}; }

inline Args ends(const Net &net)
{
    uint32_t s = draw(net.n);
    return {s, (s + 1 + draw(net.n - 1)) % net.n};
}

inline Args new_capacity(const Net &net)
{
    uint32_t k = draw(net.links.size());
    return {k, 1 + draw(1000)};
}

inline Args no_such_link(const Net &net) { return {(uint32_t)net.links.size(), 1}; }

inline std::vector<Args> drawn(const Net &net, int count, Drawer one)
{
    std::vector<Args> list;
    for (int i = 0; i < count; i++) list.push_back(one(net));
    return list;
}

// ---- calls: each gives its refusal number
// What they store beside the plan. It is not on the stack, since that is measured too.
struct Stored {
    size_t place, used;
    uint32_t count;
    pamzolit_pair_reply pair;
    pamzolit_headroom_reply headroom;
    pamzolit_window window;
    pamzolit_window_reply shown;
    int32_t flow[PAMZOLIT_LINKS];
    uint8_t file[PAMZOLIT_FILE_MAX];
};
inline Stored stored;

using Call = uint32_t(Plan &, Args);

namespace call {
inline uint32_t open(Plan &plan, const Net &net)
{
    return pamzolit_open(net.file.data(), net.file.size(), &plan, &stored.place);
}

inline uint32_t change(Plan &plan, Args a) { return pamzolit_change(&plan, a.first, a.second, &stored.count); }

inline uint32_t undo(Plan &plan, Args) { return pamzolit_undo(&plan, &stored.count); }

// two calls; 0 if both are accepted
inline uint32_t change_and_undo(Plan &plan, Args a)
{
    uint32_t number = change(plan, a);
    return number + undo(plan, a);
}

inline uint32_t pair(Plan &plan, Args a) { return pamzolit_pair(&plan, a.first, a.second, &stored.pair); }

// of nodes 0 and 1
inline uint32_t preview(Plan &plan, Args a)
{
    return pamzolit_preview(&plan, a.first, a.second, 0, 1, &stored.pair, &stored.count);
}

inline uint32_t headroom(Plan &plan, Args a)
{
    return pamzolit_headroom(&plan, a.first, a.second, 500, &stored.headroom);
}

// as that headroom; the record has to be reset before a million of them
inline uint32_t reading(Plan &plan, Args a)
{
    return pamzolit_reading(&stored.window, &plan, a.first, a.second, 500, &stored.shown);
}

inline uint32_t flow(Plan &plan, Args a)
{
    return pamzolit_flow(&plan, a.first, a.second, stored.flow, plan.network.links);
}

inline uint32_t write(Plan &plan, Args)
{
    return pamzolit_write(&plan, stored.file, sizeof stored.file, &stored.used);
}
}

// Makes a call with each of these, and gives how many were not answered by `number`.
inline uint64_t make_calls(Plan &plan, Call *made, const std::vector<Args> &list, uint32_t number)
{
    uint64_t others = 0;
    for (auto a : list) others += made(plan, a) != number;
    return others;
}

inline Plan opened(const Net &net)
{
    Plan plan;
    if (call::open(plan, net) != PAMZOLIT_ACCEPTED) fail("the library refuses a network");
    return plan;
}
