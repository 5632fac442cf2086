use crate::{NODES, NO_LINK, UNREACHED};
use std::fmt;

/// A tree of shortest routes: for each of 256 nodes a distance, a parent link and a first link. Any numbers may stand in
/// it: every job judges it, against the network that it is given.
#[derive(Clone, PartialEq, Eq)]
pub struct Tree {
    /// The sum of the costs from the root, or [`UNREACHED`].
    pub distances: [u32; NODES],
    /// The last link of each node's route, or [`NO_LINK`].
    pub parents: [u16; NODES],
    /// The first link of each node's route, or [`NO_LINK`].
    pub firsts: [u16; NODES],
}

impl Tree {
    /// Every node unreached, and no links.
    pub fn empty() -> Tree {
        Tree { distances: [UNREACHED; NODES], parents: [NO_LINK; NODES], firsts: [NO_LINK; NODES] }
    }

    /// A node's distance from the root, if the tree reaches it.
    pub fn distance(&self, node: usize) -> Option<u32> {
        self.distances.get(node).copied().filter(|distance| *distance != UNREACHED)
    }

    /// The last link of a node's route: none for the root and for a node that isn't reached.
    pub fn parent(&self, node: usize) -> Option<u16> {
        self.parents.get(node).copied().filter(|link| *link != NO_LINK)
    }

    /// The first link of a node's route: none for the root and for a node that isn't reached.
    pub fn first(&self, node: usize) -> Option<u16> {
        self.firsts.get(node).copied().filter(|link| *link != NO_LINK)
    }
}

/// Tells the rows that aren't empty.
impl fmt::Debug for Tree {
    fn fmt(&self, f: &mut fmt::Formatter<'_>) -> fmt::Result {
        let rows = (0..NODES).map(|v| (v, (self.distances[v], self.parents[v], self.firsts[v])));
        f.debug_map().entries(rows.filter(|row| row.1 != (UNREACHED, NO_LINK, NO_LINK))).finish()
    }
}
