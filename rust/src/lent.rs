//! The jobs over a network and a tree, with everything that they write lent by the caller, the list too. [`Tree`]'s methods
//! stand on these. They tell the answer as it comes, so that what is tested and measured is the C functions themselves.
use crate::ffi::{self, Batch, Net, Reply, Rows, RowsMut};
use crate::{Network, Tree};

impl Network {
    fn lent(&self) -> (Net<'_>, &[u16]) {
        let Network { nodes, root, starts, ends, costs } = self;
        (Net { nodes: *nodes, root: *root, starts, ends }, costs)
    }

    fn lent_mut(&mut self) -> (Net<'_>, &mut [u16]) {
        let Network { nodes, root, starts, ends, costs } = self;
        (Net { nodes: *nodes, root: *root, starts, ends }, costs)
    }
}

impl Tree {
    fn rows(&self) -> Rows<'_> {
        Rows { dist: &self.distances, parent: &self.parents, first: &self.firsts }
    }

    fn rows_mut(&mut self) -> RowsMut<'_> {
        RowsMut { dist: &mut self.distances, parent: &mut self.parents, first: &mut self.firsts }
    }
}

/// Judges a table of links: refusals 1 to 5.
#[inline]
pub fn judge_links(net: &Network) -> Reply {
    let (net, costs) = net.lent();
    ffi::judge_links(net, costs)
}

/// Judges a tree: refusals 1 to 6.
#[inline]
pub fn judge_tree(net: &Network, tree: &Tree) -> Reply {
    let (net, costs) = net.lent();
    ffi::judge_tree(net, costs, tree.rows())
}

/// Fresh build: refusals 1 to 5. The tree is written whatever it answers.
#[inline]
pub fn build(net: &Network, tree: &mut Tree) -> Reply {
    let (net, costs) = net.lent();
    ffi::build(net, costs, tree.rows_mut())
}

/// Update: refusals 1 to 9 and 12.
#[inline]
pub fn update(net: &mut Network, tree: &mut Tree, batch: Batch, list: &mut [u16]) -> Reply {
    let (net, costs) = net.lent_mut();
    ffi::update(net, costs, batch, tree.rows_mut(), list)
}

/// Path: refusals 1 to 6 and 10 to 12.
#[inline]
pub fn path(net: &Network, tree: &Tree, node: usize, list: &mut [u16]) -> Reply {
    let (net, costs) = net.lent();
    ffi::path(net, costs, tree.rows(), node, list)
}
