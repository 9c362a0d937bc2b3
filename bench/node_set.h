// Sets of at most 64 W nodes as words (crates/node_set, whose W is 1).
#pragma once
#include <cstddef>
#include <cstdint>
#include <cstring>

template <int W> struct NodeSet {
    uint64_t word[W];

    uint64_t &of(size_t i) { return word[W == 1 ? 0 : i / 64]; }
    uint64_t of(size_t i) const { return word[W == 1 ? 0 : i / 64]; }
    bool contains(size_t i) const { return of(i) >> i % 64 & 1; }
    void add(size_t i) { of(i) |= 1ull << i % 64; }
    void remove(size_t i) { of(i) &= ~(1ull << i % 64); }
    void clear() { memset(word, 0, sizeof word); }
    bool empty() const
    {
        for (int k = 0; k < W; k++) if (word[k]) return false;
        return true;
    }
    bool meets(const NodeSet &y) const
    {
        for (int k = 0; k < W; k++) if (word[k] & y.word[k]) return true;
        return false;
    }
    // union and difference, in place
    void join(const NodeSet &y) { for (int k = 0; k < W; k++) word[k] |= y.word[k]; }
    void leave_out(const NodeSet &y) { for (int k = 0; k < W; k++) word[k] &= ~y.word[k]; }
    size_t lowest() const
    {
        int k = 0;
        while (k < W - 1 && !word[k]) k++;
        return 64 * k + __builtin_ctzll(word[k]);
    }
    void drop_lowest()
    {
        int k = 0;
        while (k < W - 1 && !word[k]) k++;
        word[k] &= word[k] - 1;
    }
};

template <int W> NodeSet<W> single(size_t i)
{
    NodeSet<W> x;
    x.clear(), x.add(i);
    return x;
}

template <int W> NodeSet<W> added(NodeSet<W> x, size_t i)
{
    x.add(i);
    return x;
}

template <int W> NodeSet<W> intersection(const NodeSet<W> &x, const NodeSet<W> &y)
{
    NodeSet<W> z;
    for (int k = 0; k < W; k++) z.word[k] = x.word[k] & y.word[k];
    return z;
}
