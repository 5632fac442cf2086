// The product, through the C functions, and through the safe interface that stands on them.
use reckon::rules::{Table, Told, Tree, ACCEPTED};
use reckon::stream::Record;
use routes::ffi::{self, Batch, Net, Rows, RowsMut};
use routes::{Change, Network, Records, Refusal};

// The number, the two values and the count.
pub type Answer = (u16, [u16; 2], usize);

pub trait Product {
    fn judge_links(&self, t: &Table) -> Told;
    fn judge_tree(&self, t: &Table, tree: &Tree) -> Told;
    fn build(&self, t: &Table, tree: RowsMut) -> Told;
    // `t.costs` is what stands in `costs` before the call.
    fn update(&self, t: &Table, costs: &mut [u16], batch: Batch, tree: RowsMut, list: &mut [u16]) -> Answer;
    fn path(&self, t: &Table, tree: &Tree, asked: usize, list: &mut [u16]) -> Answer;
}

// The archive's functions.
pub struct Archive;

fn lent<'a>(t: &Table<'a>) -> Net<'a> {
    Net { nodes: t.nodes, root: t.root, starts: t.starts, ends: t.ends }
}

fn rows(tree: &Tree) -> Rows<'_> {
    Rows { dist: &tree.dist, parent: &tree.parent, first: &tree.first }
}

pub fn rows_mut(tree: &mut Tree) -> RowsMut<'_> {
    RowsMut { dist: &mut tree.dist, parent: &mut tree.parent, first: &mut tree.first }
}

impl Product for Archive {
    fn judge_links(&self, t: &Table) -> Told {
        let told = ffi::judge_links(lent(t), t.costs);
        (told.number, told.values)
    }

    fn judge_tree(&self, t: &Table, tree: &Tree) -> Told {
        let told = ffi::judge_tree(lent(t), t.costs, rows(tree));
        (told.number, told.values)
    }

    fn build(&self, t: &Table, tree: RowsMut) -> Told {
        let told = ffi::build(lent(t), t.costs, tree);
        (told.number, told.values)
    }

    fn update(&self, t: &Table, costs: &mut [u16], batch: Batch, tree: RowsMut, list: &mut [u16]) -> Answer {
        let told = ffi::update(lent(t), costs, batch, tree, list);
        (told.number, told.values, told.count)
    }

    fn path(&self, t: &Table, tree: &Tree, asked: usize, list: &mut [u16]) -> Answer {
        let told = ffi::path(lent(t), t.costs, rows(tree), asked, list);
        (told.number, told.values, told.count)
    }
}

// The safe interface. A list that it hands back is copied to the lent one; where that is too short, which the interface
// has no words for, the archive is asked instead.
pub struct Safe;

fn net(t: &Table, costs: &[u16]) -> Network {
    Network { nodes: t.nodes, root: t.root, starts: t.starts.to_vec(), ends: t.ends.to_vec(), costs: costs.to_vec() }
}

fn value(tree: &Tree) -> routes::Tree {
    routes::Tree { distances: tree.dist, parents: tree.parent, firsts: tree.first }
}

fn write(tree: RowsMut, made: &routes::Tree) {
    (*tree.dist, *tree.parent, *tree.first) = (made.distances, made.parents, made.firsts);
}

fn told<T>(answer: Result<T, Refusal>) -> (Told, Option<T>) {
    match answer {
        Ok(good) => (ACCEPTED, Some(good)),
        Err(refusal) => ((refusal.number(), [refusal.value(), refusal.second()]), None),
    }
}

impl Product for Safe {
    fn judge_links(&self, t: &Table) -> Told {
        told(net(t, t.costs).judge()).0
    }

    fn judge_tree(&self, t: &Table, tree: &Tree) -> Told {
        told(value(tree).judge(&net(t, t.costs))).0
    }

    fn build(&self, t: &Table, tree: RowsMut) -> Told {
        let (told, built) = told(routes::Tree::build(&net(t, t.costs)));
        write(tree, &built.unwrap_or_else(routes::Tree::empty));
        told
    }

    fn update(&self, t: &Table, costs: &mut [u16], batch: Batch, tree: RowsMut, list: &mut [u16]) -> Answer {
        if list.len() < t.nodes {
            return Archive.update(t, costs, batch, tree, list);
        }
        let rows = batch.links.iter().zip(batch.costs);
        let rows: Vec<Change> = rows.map(|(link, cost)| Change { link: *link, cost: *cost }).collect();
        let mut moving = routes::Tree { distances: *tree.dist, parents: *tree.parent, firsts: *tree.first };
        let mut net = net(t, costs);
        let (told, changed) = told(moving.update(&mut net, &rows));
        let changed = changed.unwrap_or_default();
        write(tree, &moving);
        costs.copy_from_slice(&net.costs);
        list[..changed.len()].copy_from_slice(&changed);
        (told.0, told.1, changed.len())
    }

    fn path(&self, t: &Table, tree: &Tree, asked: usize, list: &mut [u16]) -> Answer {
        let (told, links) = told(value(tree).path(&net(t, t.costs), asked));
        let links = links.unwrap_or_default();
        if list.len() < links.len() {
            return Archive.path(t, tree, asked, list);
        }
        list[..links.len()].copy_from_slice(&links);
        (told.0, told.1, links.len())
    }
}

// What the reader hands back: the refusal's number, the kind, three numbers and the next place.
pub type Reading = (u16, u8, [u32; 3], usize);

// The archive's reader.
pub fn reading(stream: &[u8], place: usize) -> Reading {
    let told = ffi::read(stream, place);
    (told.number, told.kind, told.numbers, told.next)
}

// The records that the safe interface hands out, and at last the refusal's number and place.
pub fn records(stream: &[u8]) -> Vec<Result<Record, (u16, usize)>> {
    let own = |record| match record {
        routes::Record::Network { nodes, root } => Record::Network { nodes, root },
        routes::Record::Link { start, end, cost } => Record::Link { start, end, cost },
        routes::Record::Change(Change { link, cost }) => Record::Change { link, cost },
        routes::Record::Apply => Record::Apply,
        routes::Record::Ask { node } => Record::Ask { node },
        other => panic!("{other:?} is a record that the scope doesn't know"),
    };
    Records::new(stream).map(|read| read.map(own).map_err(|refusal| (refusal.number(), refusal.place()))).collect()
}
