// The peer igraph: its `igraph_gomory_hu_tree`, which is Gusfield's method (1990) over its push-relabel
// method.
//
// usage: igraph_tree < SESSION
//
// In its favour, links that join the same two routers are merged and those from a router to itself are
// left out.
#include "session_text.hpp"

#include <igraph/igraph.h>

// The edges of the tree with their widths, as a tree that hangs from the first router.
Tree hung_from_first(const igraph_t &edges, const igraph_vector_t &widths) {
    Tree tree(igraph_vcount(&edges));
    std::vector<std::vector<std::pair<uint32_t, uint64_t>>> beside(tree.up.size());
    for (igraph_integer_t edge = 0; edge < igraph_ecount(&edges); edge++) {
        uint32_t from = IGRAPH_FROM(&edges, edge);
        uint32_t to = IGRAPH_TO(&edges, edge);
        uint64_t width = VECTOR(widths)[edge];
        beside[from].emplace_back(to, width);
        beside[to].emplace_back(from, width);
    }
    std::vector<uint32_t> found = {0};
    for (size_t i = 0; i < found.size(); i++) {
        for (auto [below, width] : beside[found[i]]) {
            if (below != tree.up[found[i]]) {
                tree.up[below] = found[i];
                tree.width[below] = width;
                found.push_back(below);
            }
        }
    }
    return tree;
}

Tree grow(const Network &network) {
    Network simple = simplified(network);
    igraph_vector_int_t ends;
    igraph_vector_t capacity, widths;
    igraph_vector_int_init(&ends, 2 * simple.links.size());
    igraph_vector_init(&capacity, simple.links.size());
    igraph_vector_init(&widths, 0);
    for (size_t i = 0; i < simple.links.size(); i++) {
        VECTOR(ends)[2 * i] = simple.links[i].a;
        VECTOR(ends)[2 * i + 1] = simple.links[i].b;
        VECTOR(capacity)[i] = simple.links[i].capacity;
    }
    igraph_t graph, edges;
    igraph_create(&graph, &ends, network.routers(), IGRAPH_UNDIRECTED);
    igraph_gomory_hu_tree(&graph, &edges, &widths, &capacity);
    Tree tree = hung_from_first(edges, widths);
    igraph_destroy(&edges);
    igraph_destroy(&graph);
    igraph_vector_destroy(&widths);
    igraph_vector_destroy(&capacity);
    igraph_vector_int_destroy(&ends);
    return tree;
}

int main() {
    answer_session(grow);
}
