// The library's algorithm in C++ for networks of up to 64 W nodes, with counts of what it does.
//
// Function by function after the library's source: same names, same order of everything (arcs, rings, pushes).
// Two things differ, as C++ is written: arrays are lent where the library hands them over by value, and places that are
// never read are not set. What is too large for the stack beyond 64 nodes is made once for a network.
#pragma once
#include "nets.h"
#include "node_set.h"
#include <memory>
#include <type_traits>

// what was done since the counts were cleared
struct Counts { uint64_t cuts, searches, found, sweeps, swept; };

template <int W, bool Counting = false> struct Twin {
    static constexpr size_t MAX_NODES = 64 * W, MAX_LINKS = 256 * W, MAX_ARCS = 2 * MAX_LINKS;
    static constexpr size_t INTO = MAX_NODES, RING = 2 * MAX_NODES, HINTS = 3 * MAX_NODES;
    static constexpr size_t CHAIN = MAX_NODES * MAX_NODES, TABLE = CHAIN + MAX_ARCS;
    static constexpr uint32_t UNLIMITED = 4294967295;
    static constexpr uint16_t NO_NODE = 65535;

    using Set = NodeSet<W>;
    using SetIn = std::conditional_t<W == 1, Set, const Set &>;
    using Node = std::conditional_t<W <= 4, uint8_t, uint16_t>;
    using First = uint16_t[MAX_NODES];
    using Next = uint16_t[MAX_ARCS];
    using To = Node[MAX_ARCS];
    using Table = uint16_t[TABLE];
    using Hints = Set[HINTS];
    using Residual = uint32_t[MAX_LINKS][2];

    struct Network { size_t nodes, links; Node a[MAX_LINKS], b[MAX_LINKS]; uint32_t capacity[MAX_LINKS]; };
    struct SearchTree {
        size_t count;
        Set reached;
        Node node[MAX_NODES];
        uint16_t arc[MAX_NODES];
        Node from[MAX_NODES];
        uint32_t bottleneck[MAX_NODES];
    };
    struct Cut { Set side; uint32_t value; };
    struct StepCut { Set side; uint32_t value, anew; };
    struct Tree { Node parent[MAX_NODES]; uint32_t weight[MAX_NODES]; };
    struct Steps { uint16_t pivot[MAX_NODES]; Set side[MAX_NODES]; uint32_t value[MAX_NODES]; };
    struct Built { Tree tree; Steps steps; uint32_t count; };
    struct Change { size_t a, b; uint32_t old, now; };
    struct OldStep { size_t pivot; const Set &side; uint32_t value; };

    // what the cuts of a network share, and what each works on
    struct Shared { First first; Next next; To to; Table table; Hints start; Residual full; };
    struct Scratch { Hints hints; Residual residual; SearchTree tree; };

    static inline Counts counts;

    static Network network_of(const Net &net)
    {
        Network r{};
        r.nodes = net.n, r.links = net.links.size();
        for (size_t k = 0; k < r.links; k++)
            r.a[k] = net.links[k].a, r.b[k] = net.links[k].b, r.capacity[k] = net.links[k].c;
        return r;
    }

    // ---- crates/network: incidence
    static void add_arc(First &first, Next &next, To &to, size_t e, size_t u, size_t v)
    {
        next[e] = first[u];
        first[u] = e + 1;
        to[e] = v;
    }

    static void incidence_of(const Network &net, First &first, Next &next, To &to)
    {
        for (size_t k = 0; k < net.links; k++) {
            size_t a = net.a[k], b = net.b[k], e = 2 * k;
            add_arc(first, next, to, e, a, b);
            add_arc(first, next, to, e + 1, b, a);
        }
    }

    // ---- crates/flow_hints
    static void note_way(Hints &hints, size_t u, size_t x)
    {
        hints[x].add(u);
        hints[INTO + u].add(x);
    }

    static void note_shut(Hints &hints, size_t u, size_t x)
    {
        hints[u].remove(x);
        hints[INTO + x].remove(u);
    }

    static void start_hints(const Network &net, Hints &hints)
    {
        for (size_t k = 0; k < net.links; k++) {
            size_t u = net.a[k], v = net.b[k];
            note_way(hints, u, v);
            note_way(hints, v, u);
        }
    }

    static void put_arc(Table &table, size_t u, size_t x, size_t j)
    {
        size_t i = MAX_NODES * u + x;
        table[CHAIN + j] = table[i];
        table[i] = j + 1;
    }

    static void fill_table(const Network &net, Table &table)
    {
        for (size_t k = 0; k < net.links; k++) {
            size_t u = net.a[k], v = net.b[k];
            put_arc(table, u, v, 2 * k);
            put_arc(table, v, u, 2 * k + 1);
        }
    }

    // the nodes from which an arc leads to one of `ring`
    static Set leading_to(const Hints &hints, const Set &ring)
    {
        Set all;
        all.clear();
        for (Set rest = ring; !rest.empty(); rest.drop_lowest()) {
            all.join(hints[INTO + rest.lowest()]);
            if (Counting) counts.swept++;
        }
        return all;
    }

    static size_t sweep(Hints &hints, size_t s, size_t t)
    {
        if (Counting) counts.sweeps++;
        if (hints[s].empty()) return 0;
        Set seen = single<W>(t), ring = seen;
        for (size_t l = 0; l < MAX_NODES; l++) {
            hints[RING + l] = ring;
            if (hints[s].meets(ring)) return l + 1;
            ring = leading_to(hints, ring);
            ring.leave_out(seen);
            if (ring.empty()) return 0;
            seen.join(ring);
        }
        return 0;
    }

    static Set leads(const Hints &hints, size_t u, size_t l) { return intersection(hints[u], hints[RING + l]); }

    static bool has_room(const Residual &residual, size_t j) { return residual[j / 2][j % 2] > 0; }

    static size_t arc_of(size_t x) { return (x + (MAX_ARCS - 1)) % MAX_ARCS; }

    static size_t arc_by(const Table &table, const Residual &residual, size_t u, size_t x, size_t last_node,
                         size_t last_arc)
    {
        if (x == last_node) return spare(table, residual, last_arc);
        size_t j = arc_of(table[MAX_NODES * u + x]);
        if (has_room(residual, j)) return j;
        return spare(table, residual, j);
    }

    static size_t spare(const Table &table, const Residual &residual, size_t j)
    {
        for (size_t k = 0; k < MAX_LINKS; k++) {
            if (table[CHAIN + j] == 0) return j;
            j = arc_of(table[CHAIN + j]);
            if (has_room(residual, j)) return j;
        }
        return j;
    }

    static void note_sent(Hints &hints, const Table &table, size_t u, size_t x, size_t j, uint32_t room, uint32_t d)
    {
        if (d == 0) return;
        note_way(hints, u, x);
        if (d != room) return;
        if (table[CHAIN + j] == 0) note_shut(hints, u, x);
    }

    static void note_short(Hints &hints, size_t x, size_t l, uint32_t want, uint32_t d)
    {
        if (d < want) hints[RING + l].remove(x);
    }

    // ---- crates/max_flow: residual
    static void full_residual(const Network &net, Residual &residual)
    {
        for (size_t k = 0; k < net.links; k++) residual[k][0] = residual[k][1] = net.capacity[k];
    }

    static uint32_t lesser(uint32_t a, uint32_t b) { return a <= b ? a : b; }

    static void along(Residual &residual, size_t j, uint32_t d)
    {
        residual[j / 2][j % 2] -= d;
        residual[j / 2][1 - j % 2] += d;
    }

    // ---- crates/max_flow: search
    static void seed(SearchTree &tree, size_t s)
    {
        tree.count = 1;
        tree.reached = single<W>(s);
        tree.node[0] = s;
        tree.bottleneck[0] = UNLIMITED;
    }

    // breadth first, each node's arcs by its chain
    static void search(const First &first, const Next &next, const To &to, const Residual &residual, size_t s,
                       size_t t, SearchTree &tree)
    {
        if (Counting) counts.searches++;
        seed(tree, s);
        for (size_t i = 0; i < tree.count; i++)
            for (size_t e = first[tree.node[i]]; e > 0;) {
                size_t j = e - 1, x = to[j];
                e = next[j];
                if (tree.reached.contains(x)) continue;
                uint32_t d = residual[j / 2][j % 2];
                if (d == 0) continue;
                size_t n = tree.count++;
                tree.reached.add(x);
                tree.node[n] = x;
                tree.arc[n] = j;
                tree.from[n] = i;
                tree.bottleneck[n] = lesser(d, tree.bottleneck[i]);
                if (x == t) return;
            }
    }

    // ---- crates/max_flow: send
    static uint32_t allowed(const To &to, const Residual &residual, SetIn on, size_t u, size_t x, size_t j)
    {
        if (to[j] != x) return 0;
        if (to[j ^ 1] != u) return 0;
        if (on.contains(x)) return 0;
        return residual[j / 2][j % 2];
    }

    static uint32_t send_by(const To &to, const Table &table, Hints &hints, Residual &residual, size_t t, size_t u,
                            size_t x, size_t j, size_t l, SetIn on, uint32_t limit)
    {
        uint32_t room = allowed(to, residual, on, u, x, j);
        uint32_t want = lesser(room, limit);
        if (want == 0) {
            note_shut(hints, u, x);
            return 0;
        }
        uint32_t d = send_from(to, table, hints, residual, t, x, l, on, want);
        along(residual, j, d);
        note_sent(hints, table, u, x, j, room, d);
        note_short(hints, x, l, want, d);
        return d;
    }

    // `on` is without x here: it is added where flow is sent on
    static uint32_t send_from(const To &to, const Table &table, Hints &hints, Residual &residual, size_t t, size_t x,
                              size_t l, SetIn on, uint32_t limit)
    {
        if (x == t) return limit;
        if (l == 0) return 0;
        return send(to, table, hints, residual, t, x, l - 1, added<W>(on, x), limit);
    }

    static uint32_t send(const To &to, const Table &table, Hints &hints, Residual &residual, size_t t, size_t u,
                         size_t l, SetIn on, uint32_t limit)
    {
        uint32_t sent = 0;
        size_t x = u, j = 0;
        for (size_t k = 0; k < MAX_ARCS; k++) {
            Set rest = leads(hints, u, l);
            if (rest.empty()) return sent;
            size_t y = rest.lowest();
            j = arc_by(table, residual, u, y, x, j);
            x = y;
            sent += send_by(to, table, hints, residual, t, u, x, j, l, on, limit - sent);
            if (sent == limit) return sent;
        }
        return sent;
    }

    static uint32_t send_all(const To &to, const Table &table, Hints &hints, Residual &residual, size_t s, size_t t,
                             uint32_t total)
    {
        uint32_t raised = total;
        for (size_t k = 0; k < MAX_NODES; k++) {
            size_t level = sweep(hints, s, t);
            if (level == 0) return raised;
            raised += send(to, table, hints, residual, t, s, level - 1, single<W>(s), UNLIMITED);
        }
        return raised;
    }

    // ---- crates/max_flow: augment
    static void push(const SearchTree &tree, uint32_t d, Hints &hints, Residual &residual)
    {
        size_t i = tree.count - 1;
        while (i > 0) {
            size_t f = tree.from[i];
            along(residual, tree.arc[i], d);
            note_way(hints, tree.node[f], tree.node[i]);
            i = f;
        }
    }

    static Cut augment(const Shared &of, Scratch &on, size_t s, size_t t)
    {
        memcpy(on.hints, of.start, RING * sizeof(Set));
        uint32_t total = 0;
        for (;;) {
            total = send_all(of.to, of.table, on.hints, on.residual, s, t, total);
            search(of.first, of.next, of.to, on.residual, s, t, on.tree);
            if (!on.tree.reached.contains(t)) return {on.tree.reached, total};
            if (Counting) counts.found++;
            uint32_t d = on.tree.bottleneck[on.tree.count - 1];
            push(on.tree, d, on.hints, on.residual);
            total += d;
        }
    }

    // ---- crates/max_flow
    static Cut least_cut_by(const Shared &of, Scratch &on, size_t links, size_t s, size_t t)
    {
        if (Counting) counts.cuts++;
        memcpy(on.residual, of.full, links * sizeof *of.full);
        return augment(of, on, s, t);
    }

    static std::unique_ptr<Shared> shared_by(const Network &net)
    {
        auto of = std::make_unique<Shared>();
        incidence_of(net, of->first, of->next, of->to);
        start_hints(net, of->start);
        fill_table(net, of->table);
        full_residual(net, of->full);
        return of;
    }

    // the flow of each link to `out`; and the least minimum cut
    static Cut lawful_flow(const Network &net, size_t s, size_t t, int64_t *out)
    {
        auto of = shared_by(net);
        auto on = std::make_unique<Scratch>();
        Cut cut = least_cut_by(*of, *on, net.links, s, t);
        for (size_t k = 0; k < net.links; k++) out[k] = (int64_t)net.capacity[k] - on->residual[k][0];
        return cut;
    }

    // ---- crates/cut_tree: rule
    static void move_nodes(Node *parent, const Set &x, size_t s, size_t t)
    {
        for (Set rest = x; !rest.empty(); rest.drop_lowest()) {
            size_t i = rest.lowest();
            if (parent[i] == t) parent[i] = s;
        }
    }

    static void place(Node *parent, uint32_t *weight, size_t s, size_t t, const Set &x, uint32_t w)
    {
        size_t q = parent[t];
        move_nodes(parent, x, s, t);
        if (x.contains(q)) {
            parent[s] = q, parent[t] = s;
            weight[s] = weight[t], weight[t] = w;
            return;
        }
        parent[s] = t, weight[s] = w;
    }

    // ---- crates/cut_tree: keep
    static bool crosses(const Change &h, const OldStep &o) { return o.side.contains(h.a) != o.side.contains(h.b); }

    static bool survives(const Change &h, const OldStep &o)
    {
        if (h.old == h.now) return true;
        bool crossed = crosses(h, o);
        if (h.old < h.now) return !crossed;
        return crossed && h.old - h.now <= o.value;
    }

    static bool keeps(const Change &h, const OldStep &o, size_t t) { return o.pivot == t && survives(h, o); }

    static StepCut kept_cut(const Change &h, const OldStep &o)
    {
        return {o.side, h.old <= h.now ? o.value : o.value - (h.old - h.now), 0};
    }

    static StepCut take(const Shared &of, Scratch &on, size_t links, const Change &h, const OldStep &o, size_t s,
                        size_t t)
    {
        if (keeps(h, o, t)) return kept_cut(h, o);
        Cut cut = least_cut_by(of, on, links, s, t);
        return {cut.side, cut.value, 1};
    }

    // ---- crates/cut_tree: trees
    static void worked_out(const Network &net, const Steps &steps, const Change &h, Built &made)
    {
        auto of = shared_by(net);
        auto on = std::make_unique<Scratch>();
        memset(&made.tree, 0, sizeof made.tree);
        made.steps.pivot[0] = made.steps.value[0] = made.count = 0;
        made.steps.side[0].clear();
        for (size_t s = 1; s < net.nodes; s++) {
            size_t t = made.tree.parent[s];
            OldStep o{steps.pivot[s], steps.side[s], steps.value[s]};
            StepCut x = take(*of, *on, net.links, h, o, s, t);
            place(made.tree.parent, made.tree.weight, s, t, x.side, x.value);
            made.steps.pivot[s] = t;
            made.steps.side[s] = x.side;
            made.steps.value[s] = x.value;
            made.count += x.anew;
        }
    }

    // link k of `net` goes to capacity d
    static void rebuild(Network &net, const Steps &steps, size_t k, uint32_t d, Built &made)
    {
        Change h{net.a[k], net.b[k], net.capacity[k], d};
        net.capacity[k] = d;
        worked_out(net, steps, h, made);
    }

    static void build(const Network &net, Built &made)
    {
        auto none = std::make_unique<Steps>();
        for (auto &p : none->pivot) p = NO_NODE;
        worked_out(net, *none, {0, 0, 0, 0}, made);
    }
};
