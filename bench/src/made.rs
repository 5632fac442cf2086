//! Made networks and batches, the same at every run.
//!
//! A mesh of masts and boats: 64 masts stand on a jittered grid of eight by eight over a sea of 40 by 40 kilometres, and
//! 192 boats lie anywhere. A radio reaches its neighbours: the pairs that hold all nodes together at least total length
//! are joined, then each node's nearest, each node's second nearest and so on, till there are enough. A pair is two links,
//! one each way. Between masts a link costs 10 and 1 more for each hundred metres; a boat at either end doubles that; each
//! direction adds up to a fifth of its own. One in 32 of the pairs that nothing hangs on is down.
//!
//! Random ends: each pair joins any two nodes, and each of its two links costs 1 to 1,000. There is no near and far, so many
//! more nodes wait at once than in a mesh.
//!
//! Links back down, in two networks. Parallel: half of the links lead from the root to another node, and the other half back; these
//! are all down, so that each of the first is asked for its link back and none is found. Hub: every other node is joined to the root
//! both ways, and has one link to the hub; all other links lead from the hub back to them, and are down.
use routes::{Change, Network, Tree, NO_LINK};

/// Splitmix: the same numbers from the same seed, everywhere.
pub struct Dice(u64);

impl Dice {
    pub fn new(seed: u64) -> Dice {
        Dice(seed)
    }

    fn next(&mut self) -> u64 {
        self.0 = self.0.wrapping_add(0x9E37_79B9_7F4A_7C15);
        let mut z = self.0;
        z = (z ^ (z >> 30)).wrapping_mul(0xBF58_476D_1CE4_E5B9);
        z = (z ^ (z >> 27)).wrapping_mul(0x94D0_49BB_1331_11EB);
        z ^ (z >> 31)
    }

    /// Below n, which isn't 0.
    pub fn below(&mut self, n: usize) -> usize {
        (self.next() % n as u64) as usize
    }
}

const NODES: usize = 256;
const MASTS: usize = 64;
// The sea's side, and a cell of the masts' grid, in hundreds of metres.
const SIDE: usize = 400;
const CELL: usize = SIDE / 8;

type Spot = (usize, usize);

fn spots(dice: &mut Dice) -> Vec<Spot> {
    let mast = |node: usize, dice: &mut Dice| (node % 8 * CELL + dice.below(CELL), node / 8 * CELL + dice.below(CELL));
    (0..NODES).map(|node| if node < MASTS { mast(node, dice) } else { (dice.below(SIDE), dice.below(SIDE)) }).collect()
}

fn length(a: Spot, b: Spot) -> usize {
    let (x, y) = (a.0.abs_diff(b.0), a.1.abs_diff(b.1));
    ((x * x + y * y) as f64).sqrt() as usize
}

type Pair = (usize, usize);

// The group of a node, where each node points at another of its group.
fn group(of: &[usize], node: usize) -> usize {
    if of[node] == node {
        node
    } else {
        group(of, of[node])
    }
}

// The pairs that hold all nodes together at least total length.
fn holding(spots: &[Spot]) -> Vec<Pair> {
    let mut pairs: Vec<Pair> = (0..NODES).flat_map(|a| (a + 1..NODES).map(move |b| (a, b))).collect();
    pairs.sort_by_key(|&(a, b)| (length(spots[a], spots[b]), a, b));
    let mut of: Vec<usize> = (0..NODES).collect();
    pairs.retain(|&(a, b)| {
        let (a, b) = (group(&of, a), group(&of, b));
        of[a] = b;
        a != b
    });
    pairs
}

fn nearest_first(spots: &[Spot], node: usize) -> Vec<usize> {
    let mut others: Vec<usize> = (0..NODES).filter(|&other| other != node).collect();
    others.sort_by_key(|&other| (length(spots[node], spots[other]), other));
    others
}

// The pairs that hold the nodes together, then each node's nearest, each node's second nearest and so on.
fn pairs(spots: &[Spot], count: usize) -> Vec<Pair> {
    let near: Vec<Vec<usize>> = (0..NODES).map(|node| nearest_first(spots, node)).collect();
    let mut pairs = holding(spots);
    for rank in 0..NODES - 1 {
        for (a, others) in near.iter().enumerate() {
            let b = others[rank];
            let pair = (a.min(b), a.max(b));
            if pairs.len() < count && !pairs.contains(&pair) {
                pairs.push(pair);
            }
        }
    }
    pairs
}

fn cost(spots: &[Spot], a: usize, b: usize, dice: &mut Dice) -> u16 {
    let plain = 10 + length(spots[a], spots[b]);
    let boats = 1 + usize::from(a >= MASTS || b >= MASTS);
    let cost = plain * boats;
    (cost + dice.below(cost / 5 + 1)) as u16
}

fn mesh(links: usize, dice: &mut Dice) -> Vec<(u16, u16, u16)> {
    let spots = spots(dice);
    let mut table = Vec::with_capacity(links);
    for (place, (a, b)) in pairs(&spots, links / 2).into_iter().enumerate() {
        // The first pairs, one fewer than nodes, hold the mesh together.
        let down = place >= NODES - 1 && dice.below(32) == 0;
        for (start, end) in [(a, b), (b, a)] {
            let cost = if down { 0 } else { cost(&spots, start, end, dice) };
            table.push((start as u16, end as u16, cost));
        }
    }
    table
}

fn random_ends(links: usize, dice: &mut Dice) -> Vec<(u16, u16, u16)> {
    let pair = |place: usize| {
        let start = place % NODES;
        let end = (start + 1 + dice.below(NODES - 1)) % NODES;
        let (start, end) = (start as u16, end as u16);
        [(start, end, 1 + dice.below(1_000) as u16), (end, start, 1 + dice.below(1_000) as u16)]
    };
    (0..links / 2).flat_map(pair).collect()
}

fn parallel(links: usize) -> Network {
    let half = links / 2;
    let there = (0..half).map(|place| (0, 1, 1 + place as u16));
    Network::with_links(2, 0, there.chain((half..links).map(|_| (1, 0, 0))))
}

fn hub(links: usize) -> Network {
    let hub = NODES as u16 - 1;
    let joined = (1..hub).flat_map(|node| [(0, node, node), (node, 0, node), (node, hub, node)]);
    let mut table: Vec<(u16, u16, u16)> = joined.collect();
    table.extend((table.len()..links).map(|place| (hub, 1 + (place % (NODES - 2)) as u16, 0)));
    table.sort();
    Network::with_links(NODES, 0, table)
}

/// The networks on which the search for a link back takes longest: the one where links ask one by one, the other where each
/// node asks once.
pub fn links_back_down(links: usize) -> [Network; 2] {
    [parallel(links), hub(links)]
}

/// How a network is made.
#[derive(Debug, Clone, Copy, PartialEq, Eq)]
pub enum Shape {
    Mesh,
    RandomEnds,
}

/// A network of 256 nodes and so many links, from one of the first 64 nodes, which in a mesh are masts.
pub fn network(shape: Shape, links: usize, seed: u64) -> Network {
    let mut dice = Dice::new(seed);
    let mut table = match shape {
        Shape::Mesh => mesh(links, &mut dice),
        Shape::RandomEnds => random_ends(links, &mut dice),
    };
    table.sort();
    Network::with_links(NODES, dice.below(MASTS), table)
}

/// How a batch is made of a network and its tree.
#[derive(Debug, Clone, Copy, PartialEq, Eq)]
pub enum Kind {
    /// The parent link of one node costs twice as much.
    Raised,
    /// The parent link of one node costs half as much.
    Lowered,
    /// 32 links: of eight, three doubled, three halved, one taken down, and one put to the cost of another link, as is
    /// each that was down.
    Mixed,
}

fn tree_link(tree: &Tree, dice: &mut Dice) -> u16 {
    loop {
        let link = tree.parents[dice.below(NODES)];
        if link != NO_LINK {
            return link;
        }
    }
}

fn raised(cost: u16) -> u16 {
    cost.saturating_mul(2)
}

fn lowered(cost: u16) -> u16 {
    cost.div_ceil(2)
}

fn mixed(net: &Network, dice: &mut Dice) -> Vec<Change> {
    let mut batch: Vec<Change> = Vec::new();
    while batch.len() < 32 {
        let link = dice.below(net.costs.len());
        if batch.iter().any(|row| row.link == link as u16) {
            continue;
        }
        let cost = match (net.costs[link], batch.len() % 8) {
            (0, _) | (_, 6) => net.costs[dice.below(net.costs.len())],
            (cost, 0..=2) => raised(cost),
            (cost, 3..=5) => lowered(cost),
            _ => 0,
        };
        batch.push(Change { link: link as u16, cost });
    }
    batch
}

/// A batch for a network and the tree that stands.
pub fn batch(kind: Kind, net: &Network, tree: &Tree, dice: &mut Dice) -> Vec<Change> {
    let one = |cost: fn(u16) -> u16, dice: &mut Dice| {
        let link = tree_link(tree, dice);
        vec![Change { link, cost: cost(net.costs[link as usize]) }]
    };
    match kind {
        Kind::Raised => one(raised, dice),
        Kind::Lowered => one(lowered, dice),
        Kind::Mixed => mixed(net, dice),
    }
}
