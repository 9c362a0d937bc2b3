// The memory that calls take: a plan's bytes, and stack. A thread's stack is painted, and what was painted over counts.
#pragma once
#include "held.h"
#include <algorithm>
#include <functional>
#include <pthread.h>

// bytes from a stack's top down to the lowest that a thread wrote
inline size_t thread_stack(std::function<void()> body)
{
    constexpr uint8_t PAINT = 0xab;
    alignas(4096) static uint8_t stack[1 << 20];
    std::fill(std::begin(stack), std::end(stack), PAINT);
    pthread_attr_t with;
    pthread_t thread;
    pthread_attr_init(&with);
    pthread_attr_setstack(&with, stack, sizeof stack);
    auto run = [](void *given) -> void * { return (*(std::function<void()> *)given)(), nullptr; };
    if (pthread_create(&thread, &with, run, &body) || pthread_join(thread, nullptr)) fail("a thread does not run");
    pthread_attr_destroy(&with);
    auto written = [](uint8_t byte) { return byte != PAINT; };
    return std::end(stack) - std::find_if(std::begin(stack), std::end(stack), written);
}

inline std::vector<Args> all_ends(const Net &net)
{
    std::vector<Args> list;
    for (uint32_t s = 0; s < (uint32_t)net.n; s++)
        for (uint32_t t = 0; t < (uint32_t)net.n; t++)
            if (s != t) list.push_back({s, t});
    return list;
}

struct Use { const char *name; size_t bytes; };

// The stack that calls of each kind use at most, beside that of a thread that does nothing, to within a hundred bytes
// (who makes the call has a frame too): of 60 changes and their undos, 60 previews, and all pairs of nodes.
inline std::vector<Use> stacks(const Net &net)
{
    struct { const char *name; Call *made; std::vector<Args> list; } all[] = {
        {"change", call::change, drawn(net, 60, new_capacity)},
        {"undo", call::undo, drawn(net, 60, nothing)},
        {"preview", call::preview, drawn(net, 60, new_capacity)},
        {"pair", call::pair, all_ends(net)},
        {"headroom", call::headroom, all_ends(net)},
        {"gate reading", call::reading, all_ends(net)},
        {"flow", call::flow, all_ends(net)},
        {"write", call::write, drawn(net, 1, nothing)},
    };
    Plan plan;
    uint64_t refused = 0;
    pamzolit_reset(&stored.window);
    size_t none = thread_stack([] {});
    std::vector<Use> uses{{"open", thread_stack([&] { refused += call::open(plan, net); }) - none}};
    for (auto &a : all) {
        auto body = [&] { refused += make_calls(plan, a.made, a.list, PAMZOLIT_ACCEPTED); };
        uses.push_back({a.name, thread_stack(body) - none});
    }
    if (refused) fail("a call is refused whose stack is measured");
    return uses;
}

// Flow is sent by a function that calls itself for each link of the way, deepest on a line. The seed starts anew, so
// that the networks are the same whatever was done before.
inline void memory()
{
    seed = FIRST_SEED;
    auto full = stacks(dense(64, 256)), longest = stacks(line(64));
    printf("\n| bytes | dense, 256 links | a line of 64 nodes |\n|---|---|---|\n");
    printf("| a plan | %zu | %zu |\n", sizeof(Plan), sizeof(Plan));
    for (size_t i = 0; i < full.size(); i++)
        printf("| stack: %s | %zu | %zu |\n", full[i].name, full[i].bytes, longest[i].bytes);
}
