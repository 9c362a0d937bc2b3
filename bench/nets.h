// Networks from a seed, and their files.
#pragma once
#include <cstddef>
#include <cstdint>
#include <vector>

struct Link { int a, b; uint32_t c; };
struct Net { int n; std::vector<Link> links; std::vector<uint8_t> file; };

constexpr uint64_t FIRST_SEED = 20250101;
inline uint64_t seed = FIRST_SEED;

// a number below `below`, the next of the seed's
inline uint32_t draw(uint32_t below)
{
    seed ^= seed << 13, seed ^= seed >> 7, seed ^= seed << 17;
    return (uint32_t)((seed >> 11) % below);
}

// a number of the file: groups of seven bits, the lowest first
inline void put(std::vector<uint8_t> &out, uint32_t v)
{
    for (; v >= 128; v /= 128) out.push_back(v % 128 + 128);
    out.push_back(v);
}

inline Net finish(int n, std::vector<Link> links)
{
    Net net{n, links, {}};
    put(net.file, n), put(net.file, links.size());
    for (auto &l : links) put(net.file, l.a), put(net.file, l.b), put(net.file, l.c);
    return net;
}

inline Link between(int n)
{
    int a = draw(n), b = (a + 1 + draw(n - 1)) % n;
    return {a, b, 1 + draw(1000)};
}

// m links anywhere
inline Net dense(int n, int m)
{
    std::vector<Link> links;
    for (int k = 0; k < m; k++) links.push_back(between(n));
    return finish(n, links);
}

// m links anywhere, of capacities up to the highest
inline Net high(int n, int m)
{
    std::vector<Link> links;
    for (int k = 0; k < m; k++) links.push_back(between(n)), links.back().c = 1 + draw(8000000);
    return finish(n, links);
}

// a spanning tree and some links more
inline Net sparse(int n, int more)
{
    std::vector<Link> links;
    for (int v = 1; v < n; v++) links.push_back({(int)draw(v), v, 1 + draw(1000)});
    for (int k = 0; k < more; k++) links.push_back(between(n));
    return finish(n, links);
}

// from node 0 by all the others to node 1: no way can be longer
inline Net line(int n)
{
    std::vector<Link> links;
    for (int v = 2; v <= n; v++) links.push_back({v > 2 ? v - 1 : 0, v < n ? v : 1, 1 + draw(1000)});
    return finish(n, links);
}

// m links anywhere with capacities below `top`: many equal cuts, links without room
inline Net tight(int n, int m, uint32_t top)
{
    std::vector<Link> links;
    for (int k = 0; k < m; k++) links.push_back(between(n)), links.back().c = draw(top);
    return finish(n, links);
}

// the longest file with a byte behind it: it is read to its end and refused there
inline Net longest_refused()
{
    std::vector<Link> links;
    for (int k = 0; k < 256; k++) links.push_back({k % 63, 63, 8000000u - k});
    Net net = finish(64, links);
    net.file.push_back(0);
    return net;
}

inline std::vector<Net> several(int count, Net make(int, int), int n, int links)
{
    std::vector<Net> nets;
    for (int i = 0; i < count; i++) nets.push_back(make(n, links));
    return nets;
}
