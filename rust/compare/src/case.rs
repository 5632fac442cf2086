// A case, and what it means for the product to agree on it.
use crate::guard::{listed, Guarded, GuardedTree};
use crate::product::{Answer, Product};
use reckon::rules::{self, Table, Told, Tree, Updated, NODES};
use routes::ffi::Batch as Columns;

#[derive(Clone, Copy, Debug, PartialEq)]
pub enum Entry {
    Dist,
    Parent,
    First,
}

// An entry of the built tree that is overwritten before the tree is judged.
#[derive(Clone, Copy, Debug)]
pub struct Edit {
    pub node: usize,
    pub entry: Entry,
    pub value: u32,
}

#[derive(Clone, Debug, Default)]
pub struct Batch {
    pub links: Vec<u16>,
    pub costs: Vec<u16>,
    pub list: usize,
}

#[derive(Clone, Debug, Default)]
pub struct Ask {
    pub node: usize,
    pub list: usize,
}

// A table is judged and built on; the tree is edited and judged; then the batches run one after the other, the product's
// own tree carried on; then paths are asked for.
#[derive(Clone, Debug, Default)]
pub struct Case {
    pub nodes: usize,
    pub root: usize,
    pub starts: Vec<u16>,
    pub ends: Vec<u16>,
    pub costs: Vec<u16>,
    pub edits: Vec<Edit>,
    pub batches: Vec<Batch>,
    pub asks: Vec<Ask>,
}

impl Case {
    pub fn table(&self) -> Table<'_> {
        Table { nodes: self.nodes, root: self.root, starts: &self.starts, ends: &self.ends, costs: &self.costs }
    }
}

// The jobs, and what each can answer.
pub const JOBS: [(&str, &[usize]); 5] = [
    ("judge links", &[0, 1, 2, 3, 4, 5]),
    ("judge tree", &[0, 1, 2, 3, 4, 5, 6]),
    ("build", &[0, 1, 2, 3, 4, 5]),
    ("update", &[0, 1, 2, 3, 4, 5, 6, 7, 8, 9, 12]),
    ("path", &[0, 1, 2, 3, 4, 5, 6, 10, 11, 12]),
];
const JUDGE_LINKS: usize = 0;
const JUDGE_TREE: usize = 1;
const BUILD: usize = 2;
const UPDATE: usize = 3;
const PATH: usize = 4;

// How many calls were compared, by job and by the number answered.
pub type Tally = [[u64; 13]; 5];

pub fn edited(mut tree: Tree, edits: &[Edit]) -> Tree {
    for edit in edits {
        match edit.entry {
            Entry::Dist => tree.dist[edit.node] = edit.value,
            Entry::Parent => tree.parent[edit.node] = edit.value as u16,
            Entry::First => tree.first[edit.node] = edit.value as u16,
        }
    }
    tree
}

struct Checker<'a> {
    tally: &'a mut Tally,
}

impl Checker<'_> {
    // The numbers agree: answered are the number, the values and the count.
    fn told(&mut self, job: usize, got: Answer, (told, count): (Told, usize)) -> Result<(), String> {
        let due = (told.0, told.1, count);
        self.tally[job][due.0 as usize] += 1;
        if got == due {
            return Ok(());
        }
        Err(format!("{}: (number, values, count) {got:?}, due is {due:?}", JOBS[job].0))
    }

    fn judged(&mut self, job: usize, got: Told, due: Told) -> Result<(), String> {
        self.told(job, (got.0, got.1, 0), (due, 0))
    }

    // A batch from a tree and costs: the tree and the costs that it leads to.
    fn update(&mut self, product: &dyn Product, t: &Table, tree: &Tree, batch: &Batch) -> Result<Updated, String> {
        let rows: Vec<(u16, u16)> = batch.links.iter().copied().zip(batch.costs.iter().copied()).collect();
        let due = rules::update(t, tree, &rows, batch.list);
        let (mut column, mut list) = (Guarded::of(t.costs), Guarded::of(&listed(&[], batch.list)));
        let mut moved = GuardedTree::of(tree);
        let columns = Columns { links: &batch.links, costs: &batch.costs };
        let got = product.update(t, column.lent(), columns, moved.lent(), list.lent());
        self.told(UPDATE, got, (due.told, due.changed.len()))?;
        moved.is("update", &due.tree)?;
        column.is("update", "the cost column", &due.costs)?;
        list.is("update", "the list", &listed(&due.changed, batch.list))?;
        Ok(due)
    }

    fn path(&mut self, product: &dyn Product, t: &Table, tree: &Tree, ask: &Ask) -> Result<(), String> {
        let mut list = Guarded::of(&listed(&[], ask.list));
        let got = product.path(t, tree, ask.node, list.lent());
        let (due, links) = rules::path(t, tree, ask.node, ask.list);
        self.told(PATH, got, (due, links.len()))?;
        list.is("path", "the list", &listed(&links, ask.list))
    }
}

// Runs the case through the product and through the reckoning, and tells the first difference.
pub fn check(product: &dyn Product, case: &Case, tally: &mut Tally) -> Result<(), String> {
    let mut say = Checker { tally };
    let table = case.table();
    say.judged(JUDGE_LINKS, product.judge_links(&table), rules::judge_links(&table))?;

    let mut built = GuardedTree::of(&Tree { dist: [7; NODES], parent: [7; NODES], first: [7; NODES] });
    let got = product.build(&table, built.lent());
    let (due, fresh) = rules::build(&table);
    say.judged(BUILD, got, due)?;
    built.is("build", &fresh)?;

    let mut tree = edited(fresh, &case.edits);
    say.judged(JUDGE_TREE, product.judge_tree(&table, &tree), rules::judge_tree(&table, &tree))?;

    let mut costs = case.costs.clone();
    for batch in &case.batches {
        let next = say.update(product, &Table { costs: &costs, ..table }, &tree, batch)?;
        (tree, costs) = (next.tree, next.costs);
    }
    let table = Table { costs: &costs, ..table };
    case.asks.iter().try_for_each(|ask| say.path(product, &table, &tree, ask))
}

// The first difference of a case by itself.
pub fn differs(product: &dyn Product, case: &Case) -> Option<String> {
    check(product, case, &mut Tally::default()).err()
}

// Each job has given each of its refusals, and acceptance, and nothing else.
pub fn all_came_up(tally: &Tally) {
    for ((job, numbers), counts) in JOBS.iter().zip(tally) {
        for (number, count) in counts.iter().enumerate() {
            assert!((*count > 0) == numbers.contains(&number), "{job}: {count} calls were answered with {number}");
        }
    }
}
