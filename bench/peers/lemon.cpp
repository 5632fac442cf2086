// LEMON's Dijkstra over its static digraph: distances and some parent link of each node.
#include "peer.h"
#include <lemon/dijkstra.h>
#include <lemon/static_graph.h>
#include <memory>

using lemon::StaticDigraph;
using Costs = StaticDigraph::ArcMap<std::uint32_t>;
using Search = lemon::Dijkstra<StaticDigraph, Costs>;

// A digraph and its maps can't be moved, so they stand behind a pointer.
struct Standing {
    StaticDigraph digraph;
    std::unique_ptr<Costs> costs;
    std::unique_ptr<Search> search;

    explicit Standing(const Network &net) {
        digraph.build(net.nodes, net.ends.begin(), net.ends.end());
        costs = std::make_unique<Costs>(digraph);
        for (std::size_t k = 0; k < net.links.size(); k++) {
            (*costs)[digraph.arc(k)] = net.links[k].cost;
        }
        search = std::make_unique<Search>(digraph, *costs);
    }
};

struct Graph {
    std::unique_ptr<Standing> standing;

    explicit Graph(const Columns &columns) : standing(std::make_unique<Standing>(columns.usable())) {}

    std::uint64_t search(int root) {
        Search &search = *standing->search;
        search.run(standing->digraph.node(root));
        std::uint64_t sum = 0;
        for (int v = 0; v < standing->digraph.nodeNum(); v++) {
            auto node = standing->digraph.node(v);
            sum += search.reached(node) ? search.dist(node) : 0;
        }
        return sum;
    }
};

int main(int argc, char **argv) { return serve<Graph>(argc, argv); }
