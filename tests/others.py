#!/usr/bin/env python3
"""Has networkx judge the product's trees: a calculation by other hands.

    target/rust/release/compare networks | tests/others.py

networkx finds the distances. From these alone follow the parent links that a fresh build and an update must choose and the
first links that they lead to. It reads lines as rust/compare/src/others.rs prints them.
"""
import sys

import networkx

MARK, NONE = 16_777_215, 65_535


def usable_links(nodes, ends, costs):
    """A graph by networkx, its edges named by the links. Parallel links are parallel edges. A link of cost 0 is none; of the
    others those go that no edge leads back from."""
    graph = networkx.MultiDiGraph()
    graph.add_nodes_from(range(nodes))
    graph.add_edges_from((s, e, k, {"weight": costs[k]}) for k, (s, e) in enumerate(ends) if costs[k] != 0)
    one_way = [(s, e, k) for s, e, k in graph.edges(keys=True) if not graph.has_edge(e, s)]
    graph.remove_edges_from(one_way)
    return graph


def due_tree(nodes, root, ends, costs, old_parents):
    """A row for each node: its distance, its old parent link where that is tight and else its smallest, its first link."""
    graph = usable_links(nodes, ends, costs)
    dist = networkx.single_source_dijkstra_path_length(graph, root)
    tight = {v: [] for v in range(nodes)}
    for s, e, k in graph.edges(keys=True):
        if s in dist and dist[s] + costs[k] == dist[e]:
            tight[e].append(k)
    rows = {root: (0, NONE, NONE)}
    for v in sorted(dist, key=dist.get):
        if v != root:
            parent = old_parents[v] if old_parents[v] in tight[v] else min(tight[v])
            start = ends[parent][0]
            rows[v] = (dist[v], parent, parent if start == root else rows[start][2])
    return [rows.get(v, (MARK, NONE, NONE)) for v in range(nodes)]


def triples(numbers):
    return list(zip(numbers[::3], numbers[1::3], numbers[2::3]))


def main():
    networks = trees = 0
    word = None
    for line in sys.stdin:
        word, *numbers = line.split()
        numbers = [int(number) for number in numbers]
        if word == "network":
            nodes, root = numbers
            parents = [NONE] * nodes
            networks += 1
        elif word == "links":
            ends = list(zip(numbers[::2], numbers[1::2]))
        elif word == "costs":
            costs = numbers
        elif word == "tree":
            due, told = due_tree(nodes, root, ends, costs, parents), triples(numbers)
            if told != due:
                node = next(v for v in range(nodes) if told[v] != due[v])
                sys.exit(f"DIFFERS in network {networks - 1}, node {node}: {told[node]}, due is {due[node]}")
            parents = [row[1] for row in told]
            trees += 1
    if word != "end" or trees == 0:
        sys.exit("the networks were cut short")
    print(f"{networks} networks, {trees} trees judged by networkx {networkx.__version__}: none differ")


if __name__ == "__main__":
    main()
