#!/usr/bin/env python3
"""What `cases judging` must print, worked out from the words of the scope and from nothing of the product.

    tests/judging.py > tests/judging.out

Whole numbers, lists and the rules as they are written, one node and one link at a time.
"""
MARK, NONE, TOP = 16_777_215, 65_535, 4_294_967_295


def judge_links(nodes, root, starts, ends, costs):
    if nodes == 0 or nodes > 256:
        return 1, 0
    if root >= nodes:
        return 2, 0
    if not len(starts) == len(ends) == len(costs) or len(starts) > 4096:
        return 3, 0
    for k, (s, e) in enumerate(zip(starts, ends)):
        if s >= nodes or e >= nodes or s == e:
            return 4, k
    for k in range(1, len(starts)):
        if starts[k] < starts[k - 1]:
            return 5, k
    return 0, 0


def usable_links(starts, ends, costs):
    """Those whose cost isn't 0, where some link from their end to their start has a cost that isn't 0."""
    links_back = {(e, s) for s, e, cost in zip(starts, ends, costs) if cost != 0}
    return [k for k, (s, e) in enumerate(zip(starts, ends)) if costs[k] != 0 and (s, e) in links_back]


def breaks(v, nodes, root, starts, ends, costs, usable, tree):
    dist, parent, first = ([row[i] for row in tree] for i in range(3))
    reached = lambda u: dist[u] != MARK
    into = [k for k in usable if ends[k] == v and reached(starts[k])]
    if v == root:
        return (dist[v], parent[v], first[v]) != (0, NONE, NONE)
    if v >= nodes:
        return (dist[v], parent[v], first[v]) != (MARK, NONE, NONE)
    if not reached(v):
        return (parent[v], first[v]) != (NONE, NONE) or into != []
    if parent[v] not in into or dist[starts[parent[v]]] + costs[parent[v]] != dist[v]:
        return True
    if any(dist[starts[k]] + costs[k] < dist[v] for k in into):
        return True
    up = starts[parent[v]]
    return first[v] != (parent[v] if up == root else first[up])


def judge_tree(nodes, root, starts, ends, costs, tree):
    number, value = judge_links(nodes, root, starts, ends, costs)
    if number:
        return number, value
    usable = usable_links(starts, ends, costs)
    for v in range(256):
        if breaks(v, nodes, root, starts, ends, costs, usable, tree):
            return 6, v
    return 0, 0


def say(name, told):
    # only refusal 9 carries a second value
    print(name, *told, 0)


PIER = ([0, 0, 1, 1, 2, 2, 2, 3], [1, 2, 0, 2, 0, 1, 3, 2], [4, 7, 4, 2, 7, 2, 1, 1])
P1 = [(0, NONE, NONE), (4, 0, 0), (6, 3, 0), (7, 6, 0)]


def rows(known, *changed):
    tree = known + [(MARK, NONE, NONE)] * (256 - len(known))
    for v, *row in changed:
        tree[v] = tuple(row)
    return tree


def at_pier(name, *changed, costs=PIER[2]):
    say(name, judge_tree(4, 0, *PIER[:2], costs, rows(P1, *changed)))


def damaged_distances():
    at_pier("pier")
    at_pier("root at 1", (0, 1, NONE, NONE))
    at_pier("root unreached", (0, MARK, NONE, NONE))
    at_pier("node 1 nearer", (1, 3, 0, 0))
    at_pier("node 1 farther", (1, 5, 0, 0))
    at_pier("node 2 nearer", (2, 5, 3, 0))
    at_pier("node 2 farther", (2, 7, 3, 0))
    at_pier("node 3 nearer", (3, 6, 6, 0))
    at_pier("node 3 farther", (3, 8, 6, 0))
    at_pier("node 3 unreached with links", (3, MARK, 6, 0))
    at_pier("node 3 unreached without", (3, MARK, NONE, NONE))
    at_pier("node 4 reached", (4, 8, NONE, NONE))
    at_pier("node 255 reached", (255, 0, NONE, NONE))


def damaged_links():
    at_pier("root with a parent", (0, 0, 2, NONE))
    at_pier("root with a first", (0, 0, NONE, 0))
    at_pier("node 1 by link 5", (1, 4, 5, 0))
    at_pier("node 1 without a parent", (1, 4, NONE, 0))
    at_pier("node 2 by link 1", (2, 6, 1, 0))
    at_pier("node 2 by link 8", (2, 6, 8, 0))
    at_pier("node 3 by link 3", (3, 7, 3, 0))
    at_pier("node 1 first 1", (1, 4, 0, 1))
    at_pier("node 2 first 3", (2, 6, 3, 3))
    at_pier("node 3 first 6", (3, 7, 6, 6))
    at_pier("node 3 without a first", (3, 7, 6, NONE))
    at_pier("node 4 with a parent", (4, MARK, 6, NONE))
    at_pier("node 200 with a first", (200, MARK, NONE, 0))


def forged():
    at_pier("node 1 at the top", (1, TOP, 0, 0))
    at_pier("node 2 at the top", (2, TOP, 3, 0))
    at_pier("node 3 at the top", (3, TOP, 6, 0))
    at_pier("node 2 wraps to node 3", (2, TOP, 3, 0), (3, 0, 6, 0))
    at_pier("node 2 one less", (2, TOP - 1, 3, 0), (3, TOP, 6, 0))
    at_pier("node 2 below the mark", (2, MARK - 1, 3, 0), (3, MARK, 6, 0))
    at_pier("node 3 at the mark plus 1", (3, MARK + 1, 6, 0))


def entered():
    for name, dist in [("from the top", TOP), ("from below the mark", MARK - 1), ("from the mark", MARK), ("rightly", 7)]:
        say("entered " + name, judge_tree(3, 0, [0, 1, 2, 2], [2, 2, 0, 1], [7, 2, 7, 2],
            rows([(0, NONE, NONE), (MARK, NONE, NONE), (dist, 0, 0)])))


def parallel():
    for name, dist, by in [("by the first of two", 5, 0), ("by the second of two", 5, 1), ("by the dearer third", 6, 2)]:
        say(name, judge_tree(2, 0, [0, 0, 0, 1], [1, 1, 1, 0], [5, 5, 6, 9], rows([(0, NONE, NONE), (dist, by, by)])))


LOST_3 = (3, MARK, NONE, NONE)


def one_way():
    """Link 6 leads to node 3, and link 7 is its link back."""
    link_7_down = PIER[2][:7] + [0]
    at_pier("node 3 without its link back", costs=link_7_down)
    at_pier("node 3 unreached for that", LOST_3, costs=link_7_down)
    at_pier("node 3's link back dear", costs=PIER[2][:7] + [65_535])
    link_6_down = PIER[2][:6] + [0, 1]
    at_pier("node 3 by a link that is down", costs=link_6_down)
    at_pier("node 3 unreached, its own link up", LOST_3, costs=link_6_down)


def links_back():
    """Links 0 and 1 lead from 0 to 1, links 2 and 3 back: any of these will do."""
    for name, costs in [("both links back up", [5, 6, 5, 6]), ("the first link back down", [5, 6, 0, 6]),
                        ("the second link back down", [5, 6, 5, 0]), ("both links back down", [5, 6, 0, 0])]:
        for reached, row in [("reached", (5, 0, 0)), ("unreached", (MARK, NONE, NONE))]:
            say(f"{name}, {reached}", judge_tree(2, 0, [0, 0, 1, 1], [1, 1, 0, 0], costs, rows([(0, NONE, NONE), row])))


def round_trip():
    """A ring of one-way links has no link back: what comes round over others is none."""
    for name, known in [("followed", [(0, NONE, NONE), (1, 0, 0), (2, 1, 0)]), ("left alone", [(0, NONE, NONE)])]:
        say(f"a ring of one-way links, {name}", judge_tree(3, 0, [0, 1, 2], [1, 2, 0], [1, 1, 1], rows(known)))


def sizes():
    say("0 nodes", judge_links(0, 0, [], [], []))
    say("1 node", judge_links(1, 0, [], [], []))
    say("256 nodes", judge_links(256, 255, [], [], []))
    say("257 nodes", judge_links(257, 0, [], [], []))
    say("as many nodes as a word holds", judge_links(2**64 - 1, 0, [], [], []))
    say("root at the count", judge_links(4, 4, *PIER))
    say("unequal ends", judge_links(4, 0, PIER[0], [], PIER[2]))
    say("unequal costs", judge_links(4, 0, PIER[0], PIER[1], []))


def many_links():
    say("4096 links", judge_links(2, 0, [0] * 4096, [1] * 4096, [7] * 4096))
    say("4097 links", judge_links(2, 0, [0] * 4097, [1] * 4097, [7] * 4097))
    say("20000 starts", judge_links(2, 0, [0] * 20_000, [1] * 4097, [7] * 4097))


def wrong_links():
    say("a start too high", judge_links(2, 0, [0, 2], [1, 0], [1, 1]))
    say("an end too high", judge_links(2, 0, [0, 1], [1, 2], [1, 1]))
    say("a link to itself", judge_links(2, 0, [0, 1], [1, 1], [0, 0]))
    say("a start that falls", judge_links(3, 0, [0, 2, 1, 0], [1, 1, 0, 2], [1, 1, 1, 1]))
    say("equal starts", judge_links(3, 0, [1, 1, 1], [0, 2, 0], [1, 1, 1]))
    say("costs of any value", judge_links(2, 1, [0, 0, 1], [1, 1, 0], [0, 65_535, 1]))


def several():
    say("1 before 2 and 3", judge_links(0, 9, [0, 1], [1], [1]))
    say("1 before 4", judge_links(300, 0, [0, 400], [1, 1], [1, 1]))
    say("2 before 3", judge_links(2, 2, [0, 1], [1], [1]))
    say("3 before 4", judge_links(2, 0, [0, 7], [1, 1], [1]))
    say("4 behind 5", judge_links(3, 0, [2, 1, 0, 0], [0, 0, 1, 3], [1, 1, 1, 1]))
    say("4 and 5 at one link", judge_links(3, 0, [2, 1], [0, 1], [1, 1]))
    broken = rows(P1, (1, 9, 9, 9))
    say("5 before 6", judge_tree(3, 0, [2, 1], [0, 0], [1, 1], broken))
    say("1 before 6", judge_tree(0, 0, [2, 1], [0, 0], [1, 1], broken))
    say("3 before 6", judge_tree(3, 0, [2, 1], [0, 0], [1], broken))


def chain_links():
    """256 nodes in a row, with links both ways at the dearest cost: the link to node v from the one before it is 2v - 2."""
    ends = sorted([(v, v + 1) for v in range(255)] + [(v + 1, v) for v in range(255)])
    return [s for s, _ in ends], [e for _, e in ends], [65_535] * 510


def chains():
    for last in (16_711_425, 16_711_426, 16_776_961):
        tree = [(0, NONE, NONE)] + [(v * 65_535, 2 * v - 2, 0) for v in range(1, 256)]
        tree[255] = (last, 508, 0)
        say(f"chain to {last}", judge_tree(256, 0, *chain_links(), tree))


def main():
    damaged_distances()
    damaged_links()
    forged()
    entered()
    parallel()
    one_way()
    links_back()
    round_trip()
    sizes()
    many_links()
    wrong_links()
    several()
    chains()


if __name__ == "__main__":
    main()
