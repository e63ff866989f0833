// The peer LEMON: its `GomoryHu`, which is Gusfield's method (1990) over its push-relabel method, which
// stops at the cut.
//
// usage: lemon_tree < SESSION
//
// In its favour, links that join the same two routers are merged and those from a router to itself are
// left out.
#include "session_text.hpp"

#include <lemon/gomory_hu.h>
#include <lemon/smart_graph.h>

using Graph = lemon::SmartGraph;
using Capacities = Graph::EdgeMap<int64_t>;

// The tree's root is the node that was added last, so the first router is.
Tree grow(const Network &network) {
    Network simple = simplified(network);
    uint32_t routers = network.routers();
    Graph graph;
    graph.reserveNode(routers);
    graph.reserveEdge(simple.links.size());
    for (uint32_t router = 0; router < routers; router++) {
        graph.addNode();
    }
    auto node_of = [&](uint32_t router) { return graph.nodeFromId(routers - 1 - router); };
    Capacities capacity(graph);
    for (const Link &link : simple.links) {
        capacity[graph.addEdge(node_of(link.a), node_of(link.b))] = link.capacity;
    }
    lemon::GomoryHu<Graph, Capacities> method(graph, capacity);
    method.run();
    Tree tree(routers);
    for (uint32_t router = 1; router < routers; router++) {
        tree.up[router] = routers - 1 - graph.id(method.predNode(node_of(router)));
        tree.width[router] = method.predValue(node_of(router));
    }
    return tree;
}

int main() {
    answer_session(grow);
}
