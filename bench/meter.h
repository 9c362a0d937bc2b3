// Times of several kinds of work, taken in turns, so that a disturbance hits all of them.
#pragma once
#include <algorithm>
#include <chrono>
#include <cstdint>
#include <functional>
#include <vector>

inline volatile uint64_t sink;

// `best` is the least time of the work so far, in microseconds; 0 where there is no such work
struct Meter {
    std::function<uint64_t()> work;
    double best = 0;

    void turn(int repeats)
    {
        for (int r = 0; work && r < repeats; r++) {
            auto from = std::chrono::steady_clock::now();
            sink = sink + work();
            std::chrono::duration<double, std::micro> took = std::chrono::steady_clock::now() - from;
            best = best > 0 ? std::min(best, took.count()) : took.count();
        }
    }
};

// The whole measurement is made three times; in each, the meters of a group have five turns of three runs.
inline void best_of_three(const std::vector<std::vector<Meter *>> &groups)
{
    for (int whole = 0; whole < 3; whole++)
        for (auto &group : groups)
            for (int i = 0; i < 5; i++)
                for (auto meter : group) meter->turn(3);
}
