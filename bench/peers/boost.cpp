// Boost's Dijkstra over its compressed sparse rows: distances and some parent of each node.
#include "peer.h"
#include <boost/graph/compressed_sparse_row_graph.hpp>
#include <boost/graph/dijkstra_shortest_paths.hpp>

using Rows = boost::compressed_sparse_row_graph<boost::directedS, boost::no_property, Link, boost::no_property,
                                                std::uint32_t, std::uint32_t>;

struct Graph {
    Rows rows;
    std::vector<std::uint32_t> distances, parents;

    explicit Graph(const Columns &columns) : Graph(columns.usable()) {}
    explicit Graph(const Network &net)
        : rows(boost::edges_are_sorted, net.ends.begin(), net.ends.end(), net.links.begin(), net.nodes),
          distances(net.nodes), parents(net.nodes) {}

    std::uint64_t search(int root) {
        boost::dijkstra_shortest_paths(
            rows, root,
            boost::weight_map(boost::get(&Link::cost, rows))
                .distance_map(boost::make_iterator_property_map(distances.begin(), boost::get(boost::vertex_index, rows)))
                .predecessor_map(
                    boost::make_iterator_property_map(parents.begin(), boost::get(boost::vertex_index, rows))));
        std::uint64_t sum = 0;
        for (std::uint32_t distance : distances) {
            sum += distance == UINT32_MAX ? 0 : distance;
        }
        return sum;
    }
};

int main(int argc, char **argv) { return serve<Graph>(argc, argv); }
