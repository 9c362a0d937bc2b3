// The twin with wider node sets beside LEMON, beyond the library's limits: a simulation, none of it proved.
#pragma once
#include "check.h"
#include "meter.h"
#include "peers.h"

// what a tree is worked out with: nearly all of it the table of arcs by their ends, and the hints
template <int W> double megabytes()
{
    return (sizeof(typename Twin<W>::Shared) + sizeof(typename Twin<W>::Scratch)) / 1e6;
}

template <class T> uint64_t trees(const std::vector<typename T::Network> &networks, typename T::Built &built)
{
    uint64_t sum = 0;
    for (auto &network : networks) T::build(network, built), sum += built.tree.weight[1];
    return sum;
}

template <class T> std::vector<typename T::Network> networks_of(const std::vector<Net> &nets)
{
    std::vector<typename T::Network> networks;
    for (auto &net : nets) networks.push_back(T::network_of(net));
    return networks;
}

template <int W> void print_counts(const std::vector<Net> &nets)
{
    using Wide = Twin<W, true>;
    auto built = std::make_unique<typename Wide::Built>();
    Wide::counts = {};
    trees<Wide>(networks_of<Wide>(nets), *built);
    auto &c = Wide::counts;
    double cuts = c.cuts;
    printf(" %.2f | %.2f | %.1f |", c.searches / cuts, c.sweeps / cuts, c.swept / cuts);
}

// the limits of some pairs of each network are LEMON's
template <int W> void check_beyond(const std::vector<Net> &nets)
{
    (void)nets;
#ifdef HAVE_LEMON
    auto built = std::make_unique<typename Twin<W>::Built>();
    for (auto &net : nets) {
        LemonTree peer(net);
        Twin<W>::build(Twin<W>::network_of(net), *built);
        for (int i = 0; i < 2000; i++) {
            auto [s, t] = ends(net);
            uint32_t limit = path_weight(built->tree.parent, built->tree.weight, net.n, s, t);
            expect(limit == peer.min_cut(s, t), "LEMON's limit of a pair", net);
        }
    }
#endif
}

// times per network, the twin and LEMON in turn
template <int W> void beyond_row(const char *kind, const std::vector<Net> &nets, int turns, int repeats)
{
    check_beyond<W>(nets);
    auto networks = networks_of<Twin<W>>(nets);
    auto built = std::make_unique<typename Twin<W>::Built>();
    Meter ours{[&] { return trees<Twin<W>>(networks, *built); }}, peer;
#ifdef HAVE_LEMON
    peer.work = [&] { return lemon_trees(nets); };
#endif
    for (int i = 0; i < turns; i++) ours.turn(repeats), peer.turn(repeats);
    double ms = 1000.0 * nets.size();
    printf("| %d nodes, %zu links (%s) | %.3f |", nets[0].n, nets[0].links.size(), kind, ours.best / ms);
    if (peer.best > 0) printf(" %.3f | %.3f |", peer.best / ms, ours.best / peer.best);
    else printf(" - | - |");
    print_counts<W>(nets);
    printf(" %.2f |\n", megabytes<W>());
    fflush(stdout);
}

template <int W> void beyond_rows(int count, int turns, int repeats)
{
    int n = 64 * W;
    beyond_row<W>("sparse", several(count, sparse, n, n / 2), turns, repeats);
    beyond_row<W>("dense", several(count, dense, n, 4 * n), turns, repeats);
}

inline void beyond()
{
    printf("%s\n\n", check_twin({}).c_str());
    printf("| | twin, ms | LEMON's tree, ms | ratio | searches per cut | sweeps | nodes swept | MB |\n");
    printf("|---|---|---|---|---|---|---|---|\n");
    beyond_rows<1>(10, 15, 3);
    beyond_rows<4>(5, 9, 3);
    beyond_rows<16>(2, 3, 2);
    beyond_rows<64>(1, 1, 1);
}
