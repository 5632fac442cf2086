//! The programs that people would write: Dijkstra with the standard library's heap, from nothing at every batch. They take
//! the same columns as the product and hand back the same tree, but judge nothing: they're fed right input only.
use routes::{Change, Network, Tree, NODES, NO_LINK};
use std::cmp::Reverse;
use std::collections::BinaryHeap;

/// Where each node's links begin; they end where the next node's begin.
pub type Offsets = [usize; NODES + 1];

/// What the packed program keeps of a network from call to call: all that the links' starts and ends tell.
#[derive(Clone)]
pub struct Kept {
    offsets: Offsets,
    // For each link the first that leads from its end to its start, and the next that joins the same nodes the same way.
    back: Vec<u16>,
    beside: Vec<u16>,
}

impl Kept {
    fn of(net: &Network) -> Kept {
        let mut first = vec![NO_LINK; NODES * NODES];
        let mut beside = vec![NO_LINK; net.starts.len()];
        for link in (0..net.starts.len()).rev() {
            let joining = &mut first[net.starts[link] as usize * NODES + net.ends[link] as usize];
            beside[link] = std::mem::replace(joining, link as u16);
        }
        let back = net.starts.iter().zip(&net.ends).map(|(&start, &end)| first[end as usize * NODES + start as usize]);
        Kept { offsets: offsets(net), back: back.collect(), beside }
    }
}

// What tells where a node's links begin, and whether some link back of a link is up.
trait Index {
    fn offsets(&self) -> &Offsets;
    fn has_link_back(&self, net: &Network, link: usize) -> bool;
}

// The links that leave the link's end are searched.
impl Index for Offsets {
    fn offsets(&self) -> &Offsets {
        self
    }

    fn has_link_back(&self, net: &Network, link: usize) -> bool {
        let (start, end) = (net.starts[link], net.ends[link] as usize);
        let leaving = self[end]..self[end + 1];
        net.ends[leaving.clone()].iter().zip(&net.costs[leaving]).any(|(&end, &cost)| end == start && cost != 0)
    }
}

impl Index for Kept {
    fn offsets(&self) -> &Offsets {
        &self.offsets
    }

    fn has_link_back(&self, net: &Network, link: usize) -> bool {
        let mut back = self.back[link];
        while back != NO_LINK && net.costs[back as usize] == 0 {
            back = self.beside[back as usize];
        }
        back != NO_LINK
    }
}

fn offsets(net: &Network) -> Offsets {
    let mut offsets = [0; NODES + 1];
    for &start in &net.starts {
        offsets[start as usize + 1] += 1;
    }
    for node in 0..NODES {
        offsets[node + 1] += offsets[node];
    }
    offsets
}

// What stands in the heap: a node at the distance at which it waits. The least distance comes first.
trait Waiting: Ord + Copy {
    fn at(distance: u32, node: usize) -> Self;
    fn distance_and_node(self) -> (u32, usize);
}

impl Waiting for (u32, u16) {
    fn at(distance: u32, node: usize) -> Self {
        (distance, node as u16)
    }

    fn distance_and_node(self) -> (u32, usize) {
        (self.0, self.1 as usize)
    }
}

// Both in one number, which one comparison orders. Distances are below 2^24.
impl Waiting for u32 {
    fn at(distance: u32, node: usize) -> Self {
        distance * 256 + node as u32
    }

    fn distance_and_node(self) -> (u32, usize) {
        (self / 256, (self % 256) as usize)
    }
}

// Whether a link is usable and tight. Its start was settled before its end. What costs most is asked last.
fn is_tight(net: &Network, index: &impl Index, tree: &Tree, link: u16, end: usize) -> bool {
    let link = link as usize;
    let cost = net.costs[link] as u32;
    cost != 0
        && tree.distances[net.starts[link] as usize] + cost == tree.distances[end]
        && index.has_link_back(net, link)
}

// A node that is taken from the heap is settled: every tight link into it comes from a nearer node, so its parent and its
// first link can be told.
fn hang(net: &Network, index: &impl Index, tree: &mut Tree, old: Option<&Tree>, node: usize) {
    if let Some(old) = old.map(|tree| tree.parents[node]) {
        if old != NO_LINK && is_tight(net, index, tree, old, node) {
            tree.parents[node] = old;
        }
    }
    let parent = tree.parents[node];
    let start = net.starts[parent as usize] as usize;
    tree.firsts[node] = if start == net.root { parent } else { tree.firsts[start] };
}

// The tree from nothing. A node keeps its old parent link where that is tight; any other takes the smallest. A link is asked
// for its link back only where its sum matters.
fn grown<W: Waiting>(net: &Network, index: &impl Index, old: Option<&Tree>) -> Tree {
    let offsets = index.offsets();
    let mut tree = Tree::empty();
    let mut heap = BinaryHeap::with_capacity(NODES);
    tree.distances[net.root] = 0;
    heap.push(Reverse(W::at(0, net.root)));
    while let Some(Reverse(nearest)) = heap.pop() {
        let (distance, node) = nearest.distance_and_node();
        if distance > tree.distances[node] {
            continue;
        }
        if node != net.root {
            hang(net, index, &mut tree, old, node);
        }
        for link in offsets[node]..offsets[node + 1] {
            let (end, cost) = (net.ends[link] as usize, net.costs[link] as u32);
            if cost == 0 {
                continue;
            }
            let sum = distance + cost;
            let nearer = sum < tree.distances[end];
            let smaller = sum == tree.distances[end] && (link as u16) < tree.parents[end];
            if !(nearer || smaller) || !index.has_link_back(net, link) {
                continue;
            }
            tree.parents[end] = link as u16;
            if nearer {
                tree.distances[end] = sum;
                heap.push(Reverse(W::at(sum, end)));
            }
        }
    }
    tree
}

/// The two plain programs. They differ in what their heap holds, and in what they remember of a network.
#[derive(Clone)]
pub enum Plain {
    /// Pairs of a distance and a node in the heap; where each node's links begin is found anew at each call, and a link back
    /// is searched among them.
    Simple,
    /// One packed number in the heap; where each node's links begin, and which links lead back, is kept from call to call.
    Packed(Box<Kept>),
}

impl Plain {
    /// The packed program, for networks whose links start and end as those of this one.
    pub fn packed(net: &Network) -> Plain {
        Plain::Packed(Box::new(Kept::of(net)))
    }

    fn grown(&self, net: &Network, old: Option<&Tree>) -> Tree {
        match self {
            Plain::Simple => grown::<(u32, u16)>(net, &offsets(net), old),
            Plain::Packed(kept) => grown::<u32>(net, kept.as_ref(), old),
        }
    }

    /// The tree from nothing: each reached node but the root takes its tight link of smallest number.
    pub fn rebuild(&self, net: &Network) -> Tree {
        self.grown(net, None)
    }

    /// Writes a batch's costs, makes the tree from nothing, keeps the old parent links that are still tight, and lists
    /// the nodes whose row differs.
    pub fn update(&self, net: &mut Network, tree: &mut Tree, batch: &[Change]) -> Vec<u16> {
        for row in batch {
            net.costs[row.link as usize] = row.cost;
        }
        let next = self.grown(net, Some(tree));
        let old = std::mem::replace(tree, next);
        (0..net.nodes).filter(|&node| differs(&old, tree, node)).map(|node| node as u16).collect()
    }
}

fn differs(old: &Tree, new: &Tree, node: usize) -> bool {
    old.distances[node] != new.distances[node]
        || old.parents[node] != new.parents[node]
        || old.firsts[node] != new.firsts[node]
}
