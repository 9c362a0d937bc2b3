// The cut trees of LEMON and of igraph, each where it is installed.
#pragma once
#include "nets.h"
#if __has_include(<lemon/gomory_hu.h>)
#define HAVE_LEMON 1
#include <lemon/gomory_hu.h>
#include <lemon/list_graph.h>
#endif
#ifdef HAVE_IGRAPH
#include <igraph.h>
#endif

#ifdef HAVE_LEMON
// LEMON's tree of a network, from a graph in memory
struct LemonTree {
    lemon::ListGraph graph;
    std::vector<lemon::ListGraph::Node> nodes;
    lemon::ListGraph::EdgeMap<int> capacity;
    lemon::GomoryHu<lemon::ListGraph, lemon::ListGraph::EdgeMap<int>> tree;

    explicit LemonTree(const Net &net) : capacity(graph), tree(filled(net), capacity) { tree.run(); }

    uint64_t weight(int i) const { return tree.predValue(nodes[i]); }

    uint64_t min_cut(int s, int t) const { return tree.minCutValue(nodes[s], nodes[t]); }

private:
    const lemon::ListGraph &filled(const Net &net)
    {
        for (int i = 0; i < net.n; i++) nodes.push_back(graph.addNode());
        for (auto &l : net.links) capacity[graph.addEdge(nodes[l.a], nodes[l.b])] = l.c;
        return graph;
    }
};

inline uint64_t lemon_trees(const std::vector<Net> &nets)
{
    uint64_t sum = 0;
    for (auto &net : nets) sum += LemonTree(net).weight(net.n - 1);
    return sum;
}
#endif

#ifdef HAVE_IGRAPH
inline uint64_t igraph_tree(const Net &net)
{
    igraph_vector_int_t edges;
    igraph_vector_t capacity, flows;
    igraph_t graph, tree;
    igraph_vector_int_init(&edges, 0), igraph_vector_init(&capacity, 0), igraph_vector_init(&flows, 0);
    for (auto &l : net.links) {
        igraph_vector_int_push_back(&edges, l.a), igraph_vector_int_push_back(&edges, l.b);
        igraph_vector_push_back(&capacity, l.c);
    }
    igraph_create(&graph, &edges, net.n, IGRAPH_UNDIRECTED);
    igraph_gomory_hu_tree(&graph, &tree, &flows, &capacity);
    uint64_t first = (uint64_t)VECTOR(flows)[0];
    igraph_destroy(&graph), igraph_destroy(&tree);
    igraph_vector_int_destroy(&edges), igraph_vector_destroy(&capacity), igraph_vector_destroy(&flows);
    return first;
}

inline uint64_t igraph_trees(const std::vector<Net> &nets)
{
    uint64_t sum = 0;
    for (auto &net : nets) sum += igraph_tree(net);
    return sum;
}
#endif
