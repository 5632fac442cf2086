#!/usr/bin/env python3
"""What `cases changing` must print, worked out from the words of the scope and from nothing of the product.

    tests/changing.py > tests/changing.out

At every batch the distances are found from nothing, by relaxing every link until nothing moves; then the rules for
parents, first links, changed nodes and refusals are gone through as they are written, one node and one link at a time.
Judging a table and a tree is taken from tests/judging.py.
"""
from judging import MARK, NONE, PIER, TOP, chain_links, judge_links, judge_tree, rows, usable_links

EMPTY = (MARK, NONE, NONE)
ALL_EMPTY = [EMPTY] * 256


def least_sums(root, starts, ends, costs, usable):
    """A distance for each reached node."""
    dist = {root: 0}
    moved = True
    while moved:
        moved = False
        for k in usable:
            s, e, cost = starts[k], ends[k], costs[k]
            if s in dist and (e not in dist or dist[s] + cost < dist[e]):
                dist[e] = dist[s] + cost
                moved = True
    return dist


def hung(root, starts, ends, costs, old_parents):
    """The tree in which a node keeps its old parent link where that is tight, and else takes its first tight link."""
    usable = usable_links(starts, ends, costs)
    dist = least_sums(root, starts, ends, costs, usable)

    def is_tight(k, v):
        return ends[k] == v and starts[k] in dist and dist[starts[k]] + costs[k] == dist[v]

    parent = {}
    for v in dist:
        if v != root:
            tight = [k for k in usable if is_tight(k, v)]
            parent[v] = old_parents[v] if old_parents[v] in tight else min(tight)

    def trail(v):
        """The tree path to v, in travel order."""
        links = []
        while v != root:
            links.append(parent[v])
            v = starts[parent[v]]
        return links[::-1]

    tree = list(ALL_EMPTY)
    for v in dist:
        tree[v] = (0, NONE, NONE) if v == root else (dist[v], parent[v], trail(v)[0])
    return tree


def build(nodes, root, starts, ends, costs):
    number, value = judge_links(nodes, root, starts, ends, costs)
    if number:
        return (number, value), list(ALL_EMPTY)
    return (0, 0), hung(root, starts, ends, costs, [NONE] * 256)


def judge_rows(links, batch):
    named = {}
    for row, (link, _) in enumerate(batch):
        if link >= links:
            return 8, row, 0
        if link in named:
            return 9, row, named[link]
        named[link] = row
    return 0, 0, 0


def judge_update(tree, nodes, root, starts, ends, costs, batch, room):
    number, value = judge_tree(nodes, root, starts, ends, costs, tree)
    if number:
        return number, value
    if len(batch) > 256:
        return 7, 0
    told = judge_rows(len(starts), batch)
    if told[0]:
        return told
    return (12, 0) if room < nodes else (0, 0)


def with_front(front, lent):
    return front + lent[len(front):]


def update(tree, nodes, root, starts, ends, costs, batch, lent, room):
    """The answer, the count, and the tree, the cost column and the lent list as they stand then."""
    told = judge_update(tree, nodes, root, starts, ends, costs, batch, room)
    if told[0]:
        return told, 0, tree, costs, lent
    costs = [dict(batch).get(k, cost) for k, cost in enumerate(costs)]
    after = hung(root, starts, ends, costs, [row[1] for row in tree])
    changed = [v for v in range(256) if tree[v] != after[v]]
    return told, len(changed), after, costs, with_front(changed, lent)


def path(tree, nodes, root, starts, ends, costs, node, lent, room):
    """The answer, the count, and the lent list as it stands then."""
    told = judge_tree(nodes, root, starts, ends, costs, tree)
    if told[0]:
        return told, 0, lent
    if node >= nodes:
        return (10, 0), 0, lent
    if tree[node][0] == MARK:
        return (11, 0), 0, lent
    links = []
    while node != root:
        links.insert(0, tree[node][1])
        node = starts[links[0]]
    if room < len(links):
        return (12, 0), 0, lent
    return (0, 0), len(links), with_front(links, lent)


# How a line is laid out

LENT = [7001, 7002, 7003, 7004, 7005, 7006]
LONG_LENT = [7000] * 300


def said_row(v, row):
    return ",".join([f"{v}:{row[0]}"] + ["-" if link == NONE else str(link) for link in row[1:]])


def said_rows(tree):
    return [said_row(v, row) for v, row in enumerate(tree) if row != EMPTY]


def folded(numbers):
    total = 0
    for n in numbers:
        total = (total * 31 + n) % 1_000_003
    return total


def folded_rows(tree, shown):
    return [said_row(shown, tree[shown]), folded(n for row in tree for n in row)]


def line(name, *parts):
    print(f"{name}:" + " |".join("".join(f" {entry}" for entry in part) for part in parts))


def both(told):
    """The number and both values: only refusal 9 carries a second one."""
    return (*told, 0)[:3]


class Run:
    """One table, the costs and the tree that stand, and the jobs as calls, each of which prints its line."""

    def __init__(self, nodes, root, starts, ends, costs, tree=None, long=None):
        self.table = (nodes, root, list(starts), list(ends))
        self.costs = list(costs)
        self.tree = tree
        self.shown = long  # the node whose row a long line has

    def fresh(self, name, keep=True):
        told, tree = build(*self.table, self.costs)
        line(name, both(told), said_rows(tree) if self.shown is None else folded_rows(tree, self.shown))
        if keep:
            self.tree = tree
        return self

    def step(self, name, links, costs, room, tree=None, keep=True):
        lent = LENT if self.shown is None else LONG_LENT
        told, count, after, column, told_list = update(
            tree or self.tree, *self.table, self.costs, list(zip(links, costs)), lent, room)
        if self.shown is None:
            line(name, (*both(told), count), said_rows(after), column, told_list)
        else:
            line(name, (*both(told), count), folded_rows(after, self.shown), [folded(column)], [folded(told_list)])
        self.costs = column
        if keep:
            self.tree = after
        return self

    def ask(self, name, node, room, tree=None):
        told, count, told_list = path(tree or self.tree, *self.table, self.costs, node, LENT, room)
        line(name, (*both(told), count), told_list)
        return self

    def long_ask(self, name, room):
        told, count, told_list = path(self.tree, *self.table, self.costs, 255, LONG_LENT, room)
        line(name, (*both(told), count), told_list[254:256], [folded(told_list)])
        return self


STARTS, ENDS, COSTS = PIER
P1 = build(4, 0, *PIER)[1]


def at_pier():
    return Run(4, 0, *PIER, P1)


def from_p1(name, links, costs, room):
    at_pier().step(name, links, costs, room)


# The pier network


def pier_cases():
    run = Run(4, 0, *PIER).fresh("P1").step("P2", [3, 0], [5, 2], 4).fresh("P3", keep=False)
    run.step("P4", [3], [6], 4).step("P5", [3], [5], 4)
    from_p1("P6", [1], [6], 4)
    from_p1("P7", [1], [5], 4)
    from_p1("P8", [0], [0], 4)
    from_p1("P9", [6], [0], 4)
    from_p1("P10", [7], [0], 4)
    from_p1("P11", [3, 0, 3], [5, 2, 6], 4)


def lone_node():
    lone = Run(1, 0, [], [], []).fresh("P12").ask("P12 path", 0, 0)
    lone.step("P12 empty batch", [], [], 1)
    lone.step("P12 no room", [], [], 0)
    lone.step("P12 no such link", [0], [1], 1)


def quiet_batches():
    from_p1("empty batch", [], [], 6)
    from_p1("one unchanged cost", [3], [2], 6)
    from_p1("all costs unchanged", [7, 6, 5, 4, 3, 2, 1, 0], COSTS[::-1], 6)
    from_p1("into the root cheaper", [2, 4], [1, 1], 6)
    from_p1("into the root dear", [4, 2], [65_535, 65_535], 6)


def apart_and_together():
    run = at_pier()
    run.step("apart", [1, 0], [0, 0], 4)
    run.step("apart still", [3, 6], [9, 9], 4)
    run.step("together", [0, 1], [4, 7], 4)
    run.step("as before", [3, 6], [2, 1], 4)
    run.step("a pair cut off", [1, 3], [0, 0], 4)
    run.step("the pair by link 1", [1], [7], 4)
    run.step("and link 3 again", [3], [3], 4)
    run.step("all down", range(8), [0] * 8, 4)
    run.step("all up", range(8), [65_535] * 8, 4)


# Other networks


def parallel():
    run = Run(4, 0, [0, 0, 1, 1, 1, 2, 2, 3], [1, 1, 2, 2, 0, 3, 1, 2], [6, 5, 1, 1, 1, 1, 1, 1]).fresh("parallel")
    run.step("the first as cheap", [0], [5], 6)
    run.fresh("built then", keep=False)
    run.step("the first raised", [0], [9], 6)
    run.step("the first as cheap again", [0], [5], 6)
    run.step("the second raised", [1], [6], 6)
    run.step("the first of the other two raised", [2], [2], 6)
    run.step("the other two change places", [3, 2], [4, 3], 6)
    run.step("the other two down", [2, 3], [0, 0], 6)
    run.step("the second of them up", [3], [8], 6)
    run.step("the first of them as cheap", [2], [8], 6)


def fork():
    run = Run(5, 0, [0, 0, 0, 1, 1, 2, 2, 3, 3, 4, 4, 4], [1, 2, 3, 4, 0, 4, 0, 4, 0, 1, 2, 3], [2] * 12).fresh("fork")
    run.step("link 3 raised", [3], [3], 5)
    run.step("link 3 back", [3], [2], 5)
    run.step("link 1 cheaper, link 5 as much dearer", [1, 5], [1, 3], 5)
    run.step("link 2 cheaper", [2], [1], 5)
    run.step("link 0 cheaper too and link 5 again", [5, 0], [2, 1], 5)


def dear():
    dearest = 65_535
    run = Run(3, 0, [0, 0, 1, 1, 2, 2], [1, 2, 2, 0, 1, 0], [dearest, dearest, dearest, 1, 1, 1]).fresh("dear")
    run.step("link 1 down", [1], [0], 3)
    run.step("link 1 for link 0", [0, 1], [0, dearest], 3)
    run.step("link 4 dear", [4], [dearest], 3)


def root_3():
    run = Run(4, 3, *PIER).fresh("root 3").ask("root 3, path to 0", 0, 3).ask("root 3, path to 3", 3, 0)
    run.step("into root 3 dear", [6], [9], 6)
    run.step("link 2 as dear as link 4", [2], [5], 6)
    run.step("link 2 dearer", [2], [6], 6)
    run.ask("path to 0 by link 4", 0, 3)
    run.step("into root 3 down", [6], [0], 6)
    run.step("into root 3 up", [6], [1], 6)
    run.step("out of root 3 down", [7], [0], 6)
    run.ask("root 3, 0 unreached", 0, 6)
    run.table = (4, 0, STARTS, ENDS)
    run.step("another root than the tree's", [3], [5], 4)


# Links back


def link_back():
    run = at_pier()
    run.step("link 7 down", [7], [0], 4)
    run.step("link 7 down already", [7], [0], 4)
    run.step("link 6 dearer without it", [6], [3], 4)
    run.step("link 7 up and dear", [7], [65_535], 4)
    run.step("link 6 down, link 7 left", [6], [0], 4)
    run.step("link 7 down too", [7], [0], 4)
    run.step("link 6 up alone", [6], [1], 4)
    run.step("link 6 down for link 7", [6, 7], [0, 1], 4)
    run.step("link 6 up beside it", [6], [1], 4)
    run.step("both down", [7, 6], [0, 0], 4)
    run.step("both up", [6, 7], [1, 1], 4)


def off_the_tree():
    from_p1("into the root down", [4, 2], [0, 0], 6)
    from_p1("link 2 down", [2], [0], 6)
    from_p1("link 5 down", [5], [0], 6)
    from_p1("link 5 down, link 1 cheaper", [5, 1], [0, 3], 6)
    from_p1("link 5 down, link 3 cheaper", [5, 3], [0, 1], 6)
    run = at_pier().step("link 0 down", [0], [0], 6)
    run.step("link 3 down, which link 5 needs", [3], [0], 6)
    run.step("link 0 up", [0], [4], 6)
    run.step("link 3 up and dear", [3], [9], 6)
    run.step("link 2 down, so link 5 again", [2], [0], 6)


def links_back():
    run = Run(2, 0, [0, 0, 1, 1, 1], [1, 1, 0, 0, 0], [4, 6, 9, 0, 1]).fresh("links back")
    run.step("the dear one down", [2], [0], 2)
    run.step("another for the last", [3, 4], [8, 0], 2)
    run.step("none left", [3], [0], 2)
    run.step("the links cheaper", [0, 1], [1, 1], 2)
    run.step("all of them up", [4, 2, 3], [1, 1, 1], 2)
    run.step("link 0 down, link 4 down", [0, 4], [0, 0], 2)
    run.step("none left, link 0 up", [0, 2, 3], [1, 0, 0], 2)
    run.step("one of them, link 0 down", [0, 3], [0, 65_535], 2)


def round_trip():
    run = Run(3, 0, [0, 1, 2], [1, 2, 0], [1, 1, 1]).fresh("a ring of one-way links")
    run.step("each link cheaper or dearer", [0, 1, 2], [2, 3, 4], 3).ask("no path round it", 2, 6)


# Refused


def wrong_rows():
    from_p1("no such link", [3, 8], [5, 5], 6)
    from_p1("no link at all", [65_535], [5], 6)
    from_p1("a link again", [3, 3], [5, 5], 6)
    from_p1("8 before 9", [3, 8, 3], [5, 5, 6], 6)
    from_p1("9 before 8", [3, 3, 8], [5, 6, 5], 6)
    from_p1("no such link twice", [8, 8], [5, 6], 6)
    from_p1("a list too short", [3, 0], [5, 2], 3)
    from_p1("too short for no changes", [], [], 3)
    from_p1("a list long enough", [3, 0], [5, 2], 4)
    from_p1("a list with places to spare", [3, 0], [5, 2], 5)
    from_p1("8 before 12", [9], [5], 0)
    from_p1("9 before 12", [1, 1], [5, 5], 3)


def changed_rows(*changed):
    return rows(P1[:4], *changed)


def with_table(name, nodes, root, starts, ends):
    run = Run(nodes, root, starts, ends, COSTS).fresh(name)
    run.step(name, [3], [5], 6, P1)
    run.step(name, [3, 3], [5, 5], 0, changed_rows((1, 9, 9, 9)))
    run.ask(name, 3, 6, P1)
    run.ask(name, 300, 0, changed_rows((1, 9, 9, 9)))


def wrong_sizes():
    with_table("0 nodes", 0, 0, STARTS, ENDS)
    with_table("257 nodes", 257, 0, STARTS, ENDS)
    with_table("root at the count", 4, 4, STARTS, ENDS)
    with_table("a start too few", 4, 0, [0] * 7, ENDS)
    with_table("an end too few", 4, 0, STARTS, [0] * 7)
    with_table("a cost too many", 4, 0, [0] * 7, [0] * 7)
    with_table("3 nodes only", 3, 0, STARTS, ENDS)


def wrong_links():
    falling = [0, 0, 1, 0, 2, 2, 2, 3]
    to_itself = [1, 2, 0, 2, 2, 1, 3, 2]
    with_table("a start too high", 4, 0, [0, 0, 1, 1, 2, 2, 2, 4], ENDS)
    with_table("a start that falls", 4, 0, falling, ENDS)
    with_table("an end too high", 4, 0, STARTS, [1, 2, 4, 2, 0, 1, 3, 2])
    with_table("a link to itself", 4, 0, STARTS, to_itself)
    with_table("4 behind 5", 4, 0, falling, to_itself)


def with_tree(name, tree):
    run = at_pier()
    run.step(name, [3], [5], 6, tree)
    run.step(name, [8], [5], 0, tree)
    run.ask(name, 3, 6, tree)
    run.ask(name, 4, 0, tree)


def wrong_trees():
    with_tree("an empty tree", ALL_EMPTY)
    with_tree("P2's tree", changed_rows((1, 2, 0, 0), (2, 7, 3, 0), (3, 8, 6, 0)))
    with_tree("node 2 nearer", changed_rows((2, 5, 3, 0)))
    with_tree("node 3 with another first", changed_rows((3, 7, 6, 1)))
    with_tree("node 255 reached", changed_rows((255, 8, NONE, NONE)))
    with_tree("node 2 at the top", changed_rows((2, TOP, 3, 0), (3, 0, 6, 0)))


# Paths


def paths():
    run = at_pier()
    run.ask("path to the root", 0, 6)
    run.ask("path to the root, no list", 0, 0)
    run.ask("path to 1", 1, 6)
    run.ask("path to 2", 2, 6)
    run.ask("path to 3", 3, 6)
    run.ask("just long enough for 1", 1, 1)
    run.ask("too short for 1", 1, 0)
    run.ask("just long enough for 3", 3, 3)
    run.ask("too short for 3", 3, 2)
    run.ask("asked at the count", 4, 6)
    run.ask("asked past all rows", 256, 6)
    run.ask("asked as far as a word goes", 2**64 - 1, 6)
    run.ask("10 before 12", 4, 0)


def unreached():
    run = at_pier().step("link 6 down", [6], [0], 4)
    run.ask("path to 3", 3, 6)
    run.ask("11 before 12", 3, 0)
    run.ask("path to 2 still", 2, 6)


# Long batches, tables and paths


def beside(links):
    """So many links from 0 to 1, and one back."""
    return [0] * links + [1], [1] * links + [0], [7] * (links + 1)


def many_rows():
    run = Run(2, 0, *beside(300), long=1).fresh("300 links and one back")
    run.step("257 rows", range(257), [9] * 257, 2)
    run.step("6 before 7", range(257), [9] * 257, 2, tree=rows([(0, NONE, NONE), (8, 0, 0)]), keep=False)
    run.step("7 before 9 and 12", [*range(255), 0, 256], [9] * 257, 1)
    run.step("256 rows", range(256), [9] * 256, 2)
    run.step("8 in row 255", [*range(255), 301], [9] * 256, 2)
    run.step("9 in row 255", [*range(255), 0], [9] * 256, 2)
    run.step("link 299 named", [*range(255), 299], [5] * 256, 2)
    run.step("the one back down", [300], [0], 2)


def too_many_links():
    run = Run(2, 0, *beside(4096), long=1).fresh("4097 links")
    tree = rows([(0, NONE, NONE), (7, 0, 0)])
    run.step("4097 links", [0], [8], 2, tree).ask("4097 links", 1, 6, tree)


def along_chain():
    run = Run(256, 0, *chain_links(), long=255).fresh("chain")
    run.long_ask("chain's path", 255)
    run.long_ask("a list too short for it", 254)
    run.step("link 0 to 1", [0], [1], 256)
    run.step("link 0 dear", [0], [65_535], 256)
    run.step("link 0 down", [0], [0], 256)
    run.step("link 0 up", [0], [65_535], 256)
    run.step("the chain's middle without a link back", [255], [0], 256)


def main():
    pier_cases()
    lone_node()
    quiet_batches()
    apart_and_together()
    parallel()
    fork()
    dear()
    root_3()
    link_back()
    off_the_tree()
    links_back()
    round_trip()
    wrong_rows()
    wrong_sizes()
    wrong_links()
    wrong_trees()
    paths()
    unreached()
    many_rows()
    too_many_links()
    along_chain()


if __name__ == "__main__":
    main()
