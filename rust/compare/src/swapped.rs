// Batches without a common link that arrive the other way round, in any order, and as one batch. Whatever the order, each
// is accepted, and costs, distances and reached nodes are the same at the end; a node's parent may differ only where at
// least two usable links into it are tight.
use crate::case::{edited, Batch, Case};
use crate::make::{self, Dice};
use crate::product::{rows_mut, Archive, Product};
use crate::shrink;
use crate::wrong;
use reckon::rules::{self, Table, Tree, Usable, ACCEPTED, NODES};
use routes::ffi::Batch as Columns;
use std::collections::HashSet;
use std::time::Instant;

const MOST_ROWS: usize = 256;

// What came up: parents that differ, and batches that have too many rows as one.
#[derive(Default)]
struct Seen {
    differ: usize,
    too_many: usize,
}

// What stands: the costs and the tree.
#[derive(Clone)]
struct State {
    costs: Vec<u16>,
    tree: Tree,
}

impl State {
    // Gives a batch to the product; the number that it answers.
    fn take(&mut self, product: &dyn Product, case: &Case, batch: &Batch) -> u16 {
        let before = self.costs.clone();
        let t = Table { costs: &before, ..case.table() };
        let columns = Columns { links: &batch.links, costs: &batch.costs };
        product.update(&t, &mut self.costs, columns, rows_mut(&mut self.tree), &mut [0; NODES]).0
    }

    // Gives batches to the product one after another.
    fn arrive(&self, product: &dyn Product, case: &Case, batches: &[&Batch]) -> Result<State, String> {
        let mut state = self.clone();
        for batch in batches {
            let number = state.take(product, case, batch);
            if number != 0 {
                return Err(format!("a batch that is acceptable at first is refused with {number} after others"));
            }
        }
        Ok(state)
    }

    // What two orders leave is alike; how many nodes have another parent.
    fn like(&self, other: &State, case: &Case) -> Result<usize, String> {
        if self.costs != other.costs {
            return Err("costs differ".to_string());
        }
        if let Some(node) = (0..NODES).find(|v| self.tree.dist[*v] != other.tree.dist[*v]) {
            return Err(format!("node {node}: distances {} and {}", self.tree.dist[node], other.tree.dist[node]));
        }
        let t = Table { costs: &self.costs, ..case.table() };
        let usable = Usable::of(&t);
        let tight = |node: usize| {
            (0..t.starts.len()).filter(|k| t.ends[*k] as usize == node && usable.tight(&self.tree.dist, *k)).count()
        };
        let moved: Vec<usize> = (0..NODES).filter(|v| self.tree.parent[*v] != other.tree.parent[*v]).collect();
        match moved.iter().find(|node| tight(**node) < 2) {
            Some(node) => Err(format!("node {node}: parents differ, though {} links are tight", tight(*node))),
            None => Ok(moved.len()),
        }
    }
}

fn joined(batches: &[Batch]) -> Batch {
    Batch {
        links: batches.iter().flat_map(|batch| batch.links.clone()).collect(),
        costs: batches.iter().flat_map(|batch| batch.costs.clone()).collect(),
        list: NODES,
    }
}

// Each batch is acceptable as things stand at first: by what is reckoned.
fn acceptable(case: &Case, state: &State) -> bool {
    case.batches.iter().all(|batch| {
        let rows: Vec<(u16, u16)> = batch.links.iter().copied().zip(batch.costs.iter().copied()).collect();
        rules::update(&case.table(), &state.tree, &rows, NODES).told == ACCEPTED
    })
}

// The case's batches in four orders and as one.
fn check(product: &dyn Product, case: &Case, seen: &mut Seen) -> Result<(), String> {
    let tree = edited(rules::build(&case.table()).1, &case.edits);
    let state = State { costs: case.costs.clone(), tree };
    if !acceptable(case, &state) {
        return Ok(());
    }
    let mut order: Vec<&Batch> = case.batches.iter().collect();
    let first = state.arrive(product, case, &order)?;
    order.reverse();
    let mut dice = Dice::new(case.batches.len() as u64);
    for _ in 0..3 {
        seen.differ += first.like(&state.arrive(product, case, &order)?, case)?;
        make::shuffle(&mut dice, &mut order);
    }
    let one = joined(&case.batches);
    if one.links.len() <= MOST_ROWS {
        seen.differ += first.like(&state.arrive(product, case, &[&one])?, case)?;
        return Ok(());
    }
    seen.too_many += 1;
    match state.clone().take(product, case, &one) {
        7 => Ok(()),
        number => Err(format!("as one batch they have {} rows, and the answer is {number}", one.links.len())),
    }
}

// A network with a tree that fits, and batches of which each leaves out the links that one before it names.
fn made(seed: u64, shape: usize) -> Case {
    let mut case = make::from_another(seed, shape, 2 + seed as usize % 4);
    let mut named = HashSet::new();
    for batch in &mut case.batches {
        let rows: Vec<(u16, u16)> = batch.links.iter().copied().zip(batch.costs.iter().copied()).collect();
        (batch.links, batch.costs) = rows.into_iter().filter(|row| named.insert(row.0)).unzip();
    }
    case
}

fn fails(product: &dyn Product, case: &Case) -> Option<String> {
    check(product, case, &mut Seen::default()).err()
}

pub fn compare(from: u64) {
    let (began, mut cases, mut seen) = (Instant::now(), 0u64, Seen::default());
    for (shape, many) in [16_000, 200, 200, 200, 200, 8_000, 2_000, 60].into_iter().enumerate() {
        for seed in from..from + many {
            cases += 1;
            let case = made(seed, shape);
            if check(&Archive, &case, &mut seen).is_err() {
                let (case, why) = shrink::smallest(|case| fails(&Archive, case), &case);
                println!("DIFFERS in batches the other way round, seed {seed}: {why}");
                println!("the smallest case found: {case:?}");
                std::process::exit(1);
            }
        }
    }
    let name = "batches the other way round, and as one";
    println!("{name:<44} {cases:>8} cases {:>21.1} s", began.elapsed().as_secs_f32());
    println!("    parents differed at {} nodes, each with two tight links or more", seen.differ);
    assert!(seen.differ > 0 && seen.too_many > 0, "no parent differed, or no batches had over 256 rows as one");
}

// What isn't alike is found: products that take a wrong turn, and batches that do have a common link.
pub fn tried() {
    let seeds = || (0..4_000).map(|seed| made(seed, 0));
    for name in ["takes the first row alone", "hands its tree back", "tells a link by its end nodes"] {
        assert!(seeds().any(|case| fails(wrong::named(name), &case).is_some()), "a product that {name} went unseen");
    }
    let mut shared = seeds().map(|mut case| {
        case.batches.extend(case.batches.first().cloned());
        case.batches.iter_mut().skip(1).for_each(|batch| batch.costs.iter_mut().for_each(|cost| *cost ^= 1));
        case
    });
    assert!(shared.any(|case| fails(&Archive, &case).is_some()), "batches with a common link went unseen");
}
