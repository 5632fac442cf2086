//! The scope's rules, worked out from nothing at every call, in the plainest way: distances by relaxing every link again
//! and again until nothing moves, in 64-bit sums; parents and firsts by the words of the rules; refusals down the table.

pub const NODES: usize = 256;
pub const UNREACHED: u32 = 16_777_215;
pub const NONE: u16 = 65_535;

#[derive(Clone, Copy)]
pub struct Table<'a> {
    pub nodes: usize,
    pub root: usize,
    pub starts: &'a [u16],
    pub ends: &'a [u16],
    pub costs: &'a [u16],
}

#[derive(Clone, PartialEq)]
pub struct Tree {
    pub dist: [u32; NODES],
    pub parent: [u16; NODES],
    pub first: [u16; NODES],
}

pub const EMPTY: Tree = Tree { dist: [UNREACHED; NODES], parent: [NONE; NODES], first: [NONE; NODES] };

// A number of the table, 0 for acceptance, and the two values that it carries.
pub type Told = (u16, [u16; 2]);
pub const ACCEPTED: Told = (0, [0, 0]);

impl Table<'_> {
    fn links(&self) -> usize {
        self.starts.len()
    }
    fn start(&self, link: usize) -> usize {
        self.starts[link] as usize
    }
    fn end(&self, link: usize) -> usize {
        self.ends[link] as usize
    }
}

/// A table that judging accepts, and which of its links are usable: those that are up and that some link which is up leads
/// back from.
pub struct Usable<'a> {
    table: Table<'a>,
    links: Vec<bool>,
}

impl<'a> Usable<'a> {
    /// First every pair of nodes that a link which is up joins is noted, then each link asks for its own pair the other way
    /// round.
    pub fn of(table: &Table<'a>) -> Usable<'a> {
        let up = |link: &usize| table.costs[*link] != 0;
        let pair = |from: usize, to: usize| from * table.nodes + to;
        let mut joined = vec![false; table.nodes * table.nodes];
        for link in (0..table.links()).filter(up) {
            joined[pair(table.start(link), table.end(link))] = true;
        }
        let usable = |link: usize| up(&link) && joined[pair(table.end(link), table.start(link))];
        Usable { table: *table, links: (0..table.links()).map(usable).collect() }
    }
    pub fn has(&self, link: usize) -> bool {
        self.links[link]
    }
    // What a usable link from a reached node offers its end.
    fn offer(&self, dist: &[u32; NODES], link: usize) -> Option<u64> {
        let d = dist[self.table.start(link)];
        (self.has(link) && d != UNREACHED).then(|| d as u64 + self.table.costs[link] as u64)
    }
    pub fn tight(&self, dist: &[u32; NODES], link: usize) -> bool {
        self.offer(dist, link) == Some(dist[self.table.end(link)] as u64)
    }
}

pub fn judge_links(t: &Table) -> Told {
    if t.nodes == 0 || t.nodes > 256 {
        return (1, [0, 0]);
    }
    if t.root >= t.nodes {
        return (2, [0, 0]);
    }
    if t.starts.len() != t.ends.len() || t.starts.len() != t.costs.len() || t.starts.len() > 4_096 {
        return (3, [0, 0]);
    }
    for k in 0..t.links() {
        if t.start(k) >= t.nodes || t.end(k) >= t.nodes || t.start(k) == t.end(k) {
            return (4, [k as u16, 0]);
        }
    }
    for k in 1..t.links() {
        if t.starts[k] < t.starts[k - 1] {
            return (5, [k as u16, 0]);
        }
    }
    ACCEPTED
}

// Whether the node breaks a rule.
fn breaks(usable: &Usable, tree: &Tree, node: usize) -> bool {
    let t = &usable.table;
    let (d, p, f) = (tree.dist[node], tree.parent[node], tree.first[node]);
    if node == t.root {
        return (d, p, f) != (0, NONE, NONE);
    }
    if node >= t.nodes {
        return (d, p, f) != (UNREACHED, NONE, NONE);
    }
    let mut entering = (0..t.links()).filter(|k| t.end(*k) == node);
    if d == UNREACHED {
        return (p, f) != (NONE, NONE) || entering.any(|k| usable.offer(&tree.dist, k).is_some());
    }
    let link = p as usize;
    if link >= t.links() || t.end(link) != node || !usable.tight(&tree.dist, link) {
        return true;
    }
    let start = t.start(link);
    let rightful = if start == t.root { p } else { tree.first[start] };
    f != rightful || entering.any(|k| usable.offer(&tree.dist, k).is_some_and(|sum| sum < d as u64))
}

pub fn judge_tree(t: &Table, tree: &Tree) -> Told {
    let told = judge_links(t);
    if told != ACCEPTED {
        return told;
    }
    let usable = Usable::of(t);
    match (0..NODES).find(|node| breaks(&usable, tree, *node)) {
        Some(node) => (6, [node as u16, 0]),
        None => ACCEPTED,
    }
}

// The least sums.
fn least(usable: &Usable) -> [u32; NODES] {
    let t = &usable.table;
    let mut dist = [UNREACHED; NODES];
    dist[t.root] = 0;
    loop {
        let mut moved = false;
        for k in 0..t.links() {
            if let Some(sum) = usable.offer(&dist, k) {
                if sum < dist[t.end(k)] as u64 {
                    dist[t.end(k)] = sum as u32;
                    moved = true;
                }
            }
        }
        if !moved {
            return dist;
        }
    }
}

// The tree of the least sums: a node keeps its old parent link where that is tight, and any other takes its tight link of
// smallest number.
fn grown(t: &Table, old: &[u16; NODES]) -> Tree {
    let usable = Usable::of(t);
    let mut tree = EMPTY;
    tree.dist = least(&usable);
    for k in (0..t.links()).rev() {
        if t.end(k) != t.root && usable.tight(&tree.dist, k) {
            tree.parent[t.end(k)] = k as u16;
        }
    }
    for node in (0..t.nodes).filter(|v| *v != t.root) {
        let kept = old[node] as usize;
        if kept < t.links() && t.end(kept) == node && usable.tight(&tree.dist, kept) {
            tree.parent[node] = kept as u16;
        }
    }
    for node in (0..t.nodes).filter(|v| *v != t.root && tree.dist[*v] != UNREACHED) {
        let mut link = tree.parent[node];
        while t.start(link as usize) != t.root {
            link = tree.parent[t.start(link as usize)];
        }
        tree.first[node] = link;
    }
    tree
}

pub fn build(t: &Table) -> (Told, Tree) {
    let told = judge_links(t);
    if told != ACCEPTED {
        return (told, EMPTY);
    }
    (told, grown(t, &[NONE; NODES]))
}

pub struct Updated {
    pub told: Told,
    pub tree: Tree,
    pub costs: Vec<u16>,
    pub changed: Vec<u16>,
}

fn judge_update(t: &Table, tree: &Tree, batch: &[(u16, u16)], list: usize) -> Told {
    let told = judge_tree(t, tree);
    if told != ACCEPTED {
        return told;
    }
    if batch.len() > 256 {
        return (7, [0, 0]);
    }
    for (row, (link, _)) in batch.iter().enumerate() {
        if *link as usize >= t.links() {
            return (8, [row as u16, 0]);
        }
        if let Some(earlier) = batch[..row].iter().position(|earlier| earlier.0 == *link) {
            return (9, [row as u16, earlier as u16]);
        }
    }
    if list < t.nodes {
        return (12, [0, 0]);
    }
    ACCEPTED
}

pub fn update(t: &Table, old: &Tree, batch: &[(u16, u16)], list: usize) -> Updated {
    let told = judge_update(t, old, batch, list);
    let mut costs = t.costs.to_vec();
    if told != ACCEPTED {
        return Updated { told, tree: old.clone(), costs, changed: Vec::new() };
    }
    for (link, cost) in batch {
        costs[*link as usize] = *cost;
    }
    let tree = grown(&Table { costs: &costs, ..*t }, &old.parent);
    let row = |tree: &Tree, v: usize| (tree.dist[v], tree.parent[v], tree.first[v]);
    let changed = (0..NODES).filter(|v| row(old, *v) != row(&tree, *v)).map(|v| v as u16).collect();
    Updated { told, tree, costs, changed }
}

pub fn path(t: &Table, tree: &Tree, asked: usize, list: usize) -> (Told, Vec<u16>) {
    let told = judge_tree(t, tree);
    if told != ACCEPTED {
        return (told, Vec::new());
    }
    if asked >= t.nodes {
        return ((10, [0, 0]), Vec::new());
    }
    if tree.dist[asked] == UNREACHED {
        return ((11, [0, 0]), Vec::new());
    }
    let mut links = Vec::new();
    let mut node = asked;
    while node != t.root {
        links.insert(0, tree.parent[node]);
        node = t.start(tree.parent[node] as usize);
    }
    if list < links.len() {
        return ((12, [0, 0]), Vec::new());
    }
    (ACCEPTED, links)
}
