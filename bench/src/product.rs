//! The product's jobs through the C functions, over memory that is lent again and again, as a unit aboard would lend it.
//! Every made input is acceptable.
use routes::ffi::{Batch, Reply};
use routes::{lent, Change, Network, Tree, NODES};

fn accepted(told: Reply) -> usize {
    assert_eq!(told.number, 0, "a made input is acceptable");
    told.count
}

pub fn judge_links(net: &Network) {
    accepted(lent::judge_links(net));
}

pub fn judge_tree(net: &Network, tree: &Tree) {
    accepted(lent::judge_tree(net, tree));
}

pub fn build(net: &Network, tree: &mut Tree) {
    accepted(lent::build(net, tree));
}

pub fn path(net: &Network, tree: &Tree, node: usize, list: &mut [u16]) -> usize {
    accepted(lent::path(net, tree, node, list))
}

/// A batch as the C functions take it.
pub struct Columns {
    links: Vec<u16>,
    costs: Vec<u16>,
}

impl Columns {
    pub fn of(batch: &[Change]) -> Columns {
        let (links, costs) = batch.iter().map(|row| (row.link, row.cost)).unzip();
        Columns { links, costs }
    }
}

pub fn update(net: &mut Network, tree: &mut Tree, batch: &Columns, list: &mut [u16; NODES]) -> usize {
    accepted(lent::update(net, tree, Batch { links: &batch.links, costs: &batch.costs }, list))
}
