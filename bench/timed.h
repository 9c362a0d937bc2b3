// What is timed of a set of networks: the library's calls, its cuts alone, their twin in C++, the peers' trees.
#pragma once
#include "check.h"
#include "meter.h"
#include "peers.h"

extern "C" uint32_t pamzolit_timing(const uint8_t *file, size_t file_length, uint32_t rounds);

// ---- work on files
inline uint64_t open_all(const std::vector<Net> &nets)
{
    Plan plan;
    uint64_t sum = 0;
    for (auto &net : nets) sum += call::open(plan, net);
    return sum;
}

// each file is read, and its tree worked out so many times
inline uint64_t work_out_all(const std::vector<Net> &nets, uint32_t rounds)
{
    uint64_t sum = 0;
    for (auto &net : nets) sum += pamzolit_timing(net.file.data(), net.file.size(), rounds);
    return sum;
}

// ---- calls on held plans
// On each plan `made` is used `count` times, which is `calls` calls each time, answered by `number`. Before the time is
// taken the plan is opened, the arguments are drawn, and `first`, if there is one, is made with them.
struct Kind {
    const char *name;
    Call *made;
    int calls, count;
    Drawer *args;
    uint32_t number = PAMZOLIT_ACCEPTED;
    Call *first = nullptr;
};

// 50 changes of a plan: 64 can be undone
const Kind kinds[] = {
    {"change", call::change, 1, 50, new_capacity},
    {"undo", call::undo, 1, 50, new_capacity, PAMZOLIT_ACCEPTED, call::change},
    {"change or undo, in turn", call::change_and_undo, 2, 50, new_capacity},
    {"preview", call::preview, 1, 50, new_capacity},
    {"pair", call::pair, 1, 500, ends},
    {"headroom", call::headroom, 1, 500, ends},
    {"gate reading", call::reading, 1, 500, ends},
    {"flow", call::flow, 1, 500, ends},
    {"write", call::write, 1, 500, nothing},
    {"change, refused with 10", call::change, 1, 500, no_such_link, PAMZOLIT_NO_SUCH_LINK},
};

struct Held { Plan plan; std::vector<Args> list; };

// Each plan is copied first and the record reset, so that every round finds them as they were. That is timed too: about
// 0.04 us, for 50 calls or more.
inline uint64_t call_all(const std::vector<Held> &held, const Kind &kind)
{
    uint64_t others = 0;
    for (auto &h : held) {
        Plan plan = h.plan;
        pamzolit_reset(&stored.window);
        others += make_calls(plan, kind.made, h.list, kind.number);
    }
    return others;
}

inline std::vector<Held> held_for(const std::vector<Net> &nets, const Kind &kind)
{
    std::vector<Held> held;
    for (auto &net : nets) {
        held.push_back({opened(net), drawn(net, kind.count, kind.args)});
        if (kind.first) make_calls(held.back().plan, kind.first, held.back().list, PAMZOLIT_ACCEPTED);
    }
    return held;
}

// ---- a set of networks
enum Work { OPENING, LEMON, IGRAPH, READ_AND_CUT, READ, TWIN, WORKS };

struct Timed {
    const char *name;
    std::vector<Net> nets;
    std::vector<Twin64::Network> networks;
    Meter meters[WORKS];
    std::vector<Meter> calls; // one for each kind, or none

    Timed(const char *name, std::vector<Net> given) : name(name), nets(std::move(given))
    {
        for (auto &net : nets) networks.push_back(Twin64::network_of(net));
        meters[OPENING].work = [this] { return open_all(nets); };
#ifdef HAVE_LEMON
        meters[LEMON].work = [this] { return lemon_trees(nets); };
#endif
#ifdef HAVE_IGRAPH
        meters[IGRAPH].work = [this] { return igraph_trees(nets); };
#endif
    }
    Timed(const Timed &) = delete;

    void add_cuts()
    {
        meters[READ_AND_CUT].work = [this] { return work_out_all(nets, 1); };
        meters[READ].work = [this] { return work_out_all(nets, 0); };
        meters[TWIN].work = [this] {
            uint64_t sum = 0;
            Twin64::Built built;
            for (auto &net : networks) Twin64::build(net, built), sum += built.tree.weight[1];
            return sum;
        };
    }

    void add_calls()
    {
        for (auto &kind : kinds) {
            auto held = held_for(nets, kind);
            if (call_all(held, kind)) fail(std::string("another answer than is to be timed: ") + kind.name);
            calls.push_back({[held, &kind] { return call_all(held, kind); }});
        }
    }

    std::vector<Meter *> group()
    {
        std::vector<Meter *> all;
        for (auto &meter : meters) all.push_back(&meter);
        for (auto &meter : calls) all.push_back(&meter);
        return all;
    }

    // microseconds: of a network; of the cuts, beside the reading; of a call
    double each(Work what) const { return meters[what].best / nets.size(); }
    double cuts() const { return each(READ_AND_CUT) - each(READ); }
    double call(size_t i) const { return calls[i].best / (nets.size() * kinds[i].count * kinds[i].calls); }
};
