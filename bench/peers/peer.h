// What the peers in C++ share: the networks from a file, and the turns. See ../src/peers.rs for what is asked and told.
#pragma once
#include <algorithm>
#include <chrono>
#include <cstdint>
#include <fstream>
#include <iostream>
#include <string>
#include <utility>
#include <vector>

struct Link {
    std::uint32_t cost;
};

// The usable links of a network, in rising order of their starts: start and end of each, and its cost.
struct Network {
    int nodes;
    std::vector<std::pair<int, int>> ends;
    std::vector<Link> links;
};

// The columns as they are lent, a link of cost 0 being down, and one that no link which is up leads back from no link.
struct Columns {
    int nodes;
    int root;
    std::vector<std::uint16_t> starts, ends, costs;

    Network usable() const {
        Network net{nodes, {}, {}};
        std::vector<char> joined(nodes * nodes, 0);
        for (std::size_t k = 0; k < starts.size(); k++) {
            joined[starts[k] * nodes + ends[k]] |= costs[k] != 0;
        }
        net.ends.reserve(starts.size());
        net.links.reserve(starts.size());
        for (std::size_t k = 0; k < starts.size(); k++) {
            if (costs[k] != 0 && joined[ends[k] * nodes + starts[k]]) {
                net.ends.emplace_back(starts[k], ends[k]);
                net.links.push_back({costs[k]});
            }
        }
        return net;
    }
};

inline std::vector<Columns> read_columns(const char *path) {
    std::ifstream file(path);
    std::vector<Columns> all;
    std::size_t links;
    for (Columns one; file >> one.nodes >> one.root >> links; all.push_back(one)) {
        one.starts.resize(links);
        one.ends.resize(links);
        one.costs.resize(links);
        for (std::size_t k = 0; k < links; k++) {
            file >> one.starts[k] >> one.ends[k] >> one.costs[k];
        }
    }
    return all;
}

template <class Work> std::uint64_t nanoseconds(Work work) {
    auto began = std::chrono::steady_clock::now();
    work();
    return std::chrono::duration_cast<std::chrono::nanoseconds>(std::chrono::steady_clock::now() - began).count();
}

// Graph: made of Columns; `std::uint64_t search(int root)` runs Dijkstra and hands back the sum of the distances.
template <class Graph> int serve(int argc, char **argv) {
    if (argc != 2) {
        std::cerr << "usage: " << argv[0] << " NETWORKS\n";
        return 2;
    }
    const std::vector<Columns> all = read_columns(argv[1]);
    std::vector<Graph> standing(all.begin(), all.end());
    std::string line;
    while (std::getline(std::cin, line)) {
        std::vector<std::uint64_t> stood(all.size(), UINT64_MAX), made(all.size(), UINT64_MAX), sums(all.size());
        for (int go = 0; go < 2; go++) {
            for (std::size_t i = 0; i < all.size(); i++) {
                stood[i] = std::min(stood[i], nanoseconds([&] { sums[i] = standing[i].search(all[i].root); }));
            }
            for (std::size_t i = 0; i < all.size(); i++) {
                made[i] = std::min(made[i], nanoseconds([&] { sums[i] = Graph(all[i]).search(all[i].root); }));
            }
        }
        for (std::size_t i = 0; i < all.size(); i++) {
            std::cout << stood[i] << ' ' << made[i] << ' ' << sums[i] << ' ';
        }
        std::cout << std::endl;
    }
    return 0;
}
