// The pier network, trees made by hand, and the chain.
use routes::{Network, Tree, NO_LINK};

pub const STARTS: [u16; 8] = [0, 0, 1, 1, 2, 2, 2, 3];
pub const ENDS: [u16; 8] = [1, 2, 0, 2, 0, 1, 3, 2];
pub const COSTS: [u16; 8] = [4, 7, 4, 2, 7, 2, 1, 1];

// A node, its distance, its parent link and its first link.
pub type Row = (usize, u32, u16, u16);

pub fn net(nodes: usize, root: usize, starts: &[u16], ends: &[u16], costs: &[u16]) -> Network {
    Network { nodes, root, starts: starts.to_vec(), ends: ends.to_vec(), costs: costs.to_vec() }
}

pub fn pier() -> Network {
    net(4, 0, &STARTS, &ENDS, &COSTS)
}

pub fn with_rows(mut tree: Tree, rows: &[Row]) -> Tree {
    for &(node, distance, parent, first) in rows {
        (tree.distances[node], tree.parents[node], tree.firsts[node]) = (distance, parent, first);
    }
    tree
}

// P1's tree with other rows for these nodes.
pub fn p1_with(rows: &[Row]) -> Tree {
    let p1 = [(0, 0, NO_LINK, NO_LINK), (1, 4, 0, 0), (2, 6, 3, 0), (3, 7, 6, 0)];
    with_rows(with_rows(Tree::empty(), &p1), rows)
}

// 256 nodes in a row, with links both ways at the dearest cost: the link to a node from the one before it is 2 * node - 2.
pub fn chain() -> Network {
    Network::with_pairs(256, 0, (0..255).map(|node| (node, node + 1, 65_535, 65_535)))
}
