// Compares the product, row by row, with an independent calculation: the crate `reckon` works out each answer from nothing,
// by the scope's words alone. What is compared: the number and value answered, the whole tree, the cost column, the lent list
// with the places that must stay, the memory beside them, and the count. Batches without a common link are given to it in
// several orders and as one, and what they leave is compared (`swapped`).
//
// It does the same for the program `routes`, stream by stream.
//
//     make compare
//
// Seeds are fixed, so each run compares the same cases. On a difference it tells the seed and the smallest case found.
// With a number behind it (`make compare FROM=100000000`) it takes the seeds from there on, and so compares other cases.
// With `jobs` or `streams` before that it compares only these. With `networks` it compares nothing: it prints networks with
// the product's trees, for others to judge.
#![forbid(unsafe_code)]

mod astray;
mod back;
mod case;
mod guard;
mod listen;
mod make;
mod others;
mod pier;
mod product;
mod reader;
mod shorten;
mod shrink;
mod stated;
mod streams;
mod swapped;
mod wrong;

use case::{all_came_up, check, differs, Ask, Batch, Case, Edit, Entry, Tally, JOBS};
use make::{Dice, SHAPES};
use product::{Archive, Product, Safe};
use reckon::rules;
use std::time::Instant;

struct Comparison {
    tally: Tally,
    cases: u64,
    began: Instant,
}

impl Comparison {
    // One case; the end of the program if the product disagrees.
    fn one(&mut self, product: &dyn Product, name: &str, seed: u64, case: &Case) {
        self.cases += 1;
        if check(product, case, &mut self.tally).is_ok() {
            return;
        }
        let (case, why) = shrink::smallest(|case| differs(product, case), case);
        println!("DIFFERS in {name}, seed {seed}: {why}");
        println!("the smallest case found: {case:?}");
        std::process::exit(1);
    }

    fn family(&mut self, name: &str, cases: impl FnOnce(&mut Comparison)) {
        let (before, calls, began) = (self.cases, self.calls(), Instant::now());
        cases(self);
        println!(
            "{name:<44} {:>8} cases {:>9} calls {:>5.1} s",
            self.cases - before,
            self.calls() - calls,
            began.elapsed().as_secs_f32()
        );
    }

    fn calls(&self) -> u64 {
        self.tally.iter().flatten().sum()
    }
}

type Ends = (u16, u16);

// Every table of three nodes with so many links. All orders of links count.
fn tables(links: u32) -> Vec<Vec<Ends>> {
    let pairs: [Ends; 6] = [(0, 1), (0, 2), (1, 0), (1, 2), (2, 0), (2, 1)];
    let table = |code: usize| (0..links).map(|k| pairs[code / 6usize.pow(k) % 6]).collect::<Vec<Ends>>();
    let in_order = |table: &Vec<Ends>| table.windows(2).all(|two| two[0].0 <= two[1].0);
    (0..6usize.pow(links)).map(table).filter(in_order).collect()
}

// Every table of three nodes with so many pairs of links both ways.
fn tables_both_ways(pairs: u32) -> Vec<Vec<Ends>> {
    let joined: [Ends; 3] = [(0, 1), (0, 2), (1, 2)];
    let chosen = |code: usize| (0..pairs).map(|k| code / 3usize.pow(k) % 3).collect::<Vec<usize>>();
    let in_order = |chosen: &Vec<usize>| chosen.windows(2).all(|two| two[0] <= two[1]);
    let table = |chosen: Vec<usize>| {
        let mut table: Vec<Ends> = chosen.into_iter().map(|k| joined[k]).flat_map(|(a, b)| [(a, b), (b, a)]).collect();
        table.sort();
        table
    };
    (0..3usize.pow(pairs)).map(chosen).filter(in_order).map(table).collect()
}

// Each of the tables at every column of these costs, from every root.
fn tiny(tables: &[Vec<Ends>], prices: &[u16], mut each: impl FnMut(Case)) {
    for table in tables {
        for column in 0..prices.len().pow(table.len() as u32) {
            for root in 0..3 {
                each(Case {
                    nodes: 3,
                    root,
                    starts: table.iter().map(|ends| ends.0).collect(),
                    ends: table.iter().map(|ends| ends.1).collect(),
                    costs: (0..table.len())
                        .map(|k| prices[column / prices.len().pow(k as u32) % prices.len()])
                        .collect(),
                    ..Case::default()
                });
            }
        }
    }
}

fn row(link: usize, cost: u16) -> Batch {
    Batch { links: vec![link as u16], costs: vec![cost], list: 3 }
}

fn tiny_singles(c: &mut Comparison, tables: &[Vec<Ends>], prices: &[u16]) {
    tiny(tables, prices, |mut case| {
        case.asks = (0..3).map(|node| Ask { node, list: 2 }).collect();
        c.one(&Archive, "every tiny network", 0, &case);
        case.asks.clear();
        for link in 0..case.starts.len() {
            for cost in prices {
                case.batches = vec![row(link, *cost)];
                c.one(&Archive, "every single change of every tiny network", 0, &case);
            }
        }
    });
}

// Every two rows, as two batches in turn and, where they name two links, as one.
fn tiny_twos(c: &mut Comparison, tables: &[Vec<Ends>]) {
    let prices = [0, 1, 2];
    tiny(tables, &prices, |case| {
        let rows = 3 * case.starts.len();
        for code in 0..rows * rows {
            let (one, other) = ((code % rows / 3, prices[code % 3]), (code / rows / 3, prices[code / rows % 3]));
            let in_turn = vec![row(one.0, one.1), row(other.0, other.1)];
            c.one(&Archive, "every two changes in turn", code as u64, &Case { batches: in_turn, ..case.clone() });
            if one.0 < other.0 {
                let links = vec![one.0 as u16, other.0 as u16];
                let at_once = vec![Batch { links, costs: vec![one.1, other.1], list: 3 }];
                c.one(&Archive, "every two changes at once", code as u64, &Case { batches: at_once, ..case.clone() });
            }
        }
    });
}

fn every_damage(c: &mut Comparison, from: u64) {
    for seed in from..from + 40 {
        let mut dice = Dice::new(seed);
        let shape = [0, 0, 5, 6][seed as usize % 4];
        let whole = make::run(seed, shape, 0, 0);
        let (_, tree) = rules::build(&whole.table());
        for node in 0..rules::NODES {
            for entry in [Entry::Dist, Entry::Parent, Entry::First] {
                for value in make::damages(&mut dice, &whole, &tree, node, entry) {
                    let case = Case { edits: vec![Edit { node, entry, value }], ..whole.clone() };
                    c.one(&Archive, "each single entry damaged", seed, &case);
                }
            }
        }
    }
}

// The sizes' ends.
fn sizes(c: &mut Comparison) {
    // Links both ways: from each node to the one before it, then to the one behind it.
    let chain = |nodes: usize| Case {
        nodes,
        starts: (1..511).map(|k| k / 2).collect(),
        ends: (0..510).map(|k| if k % 2 == 0 { k / 2 + 1 } else { k / 2 }).collect(),
        costs: vec![65_535; 510],
        asks: vec![Ask { node: 255, list: 255 }, Ask { node: 255, list: 254 }, Ask { node: 256, list: 256 }],
        ..Case::default()
    };
    // The last link, if there are two or more, leads back.
    let stack = |links: usize, rows: usize| Case {
        nodes: 2,
        starts: (0..links).map(|k| u16::from(k > 0 && k + 1 == links)).collect(),
        ends: (0..links).map(|k| u16::from(k == 0 || k + 1 < links)).collect(),
        costs: (0..links).map(|k| 65_535 - k as u16 % 7).collect(),
        batches: vec![
            Batch { links: (0..rows as u16).collect(), costs: vec![65_534; rows], list: 2 },
            Batch { links: (0..rows as u16).rev().collect(), costs: vec![1; rows], list: 1 },
        ],
        ..Case::default()
    };
    for nodes in [0, 1, 255, 256, 257] {
        c.one(&Archive, "sizes", nodes as u64, &chain(nodes));
        c.one(&Archive, "sizes", nodes as u64, &Case { nodes, ..Case::default() });
    }
    for links in [0, 1, 4_095, 4_096, 4_097, 70_000] {
        for rows in [0, 1, 255, 256, 257] {
            c.one(&Archive, "sizes", links as u64, &stack(links, rows));
        }
    }
}

// What needs no seed.
fn fixed(c: &mut Comparison) {
    c.family("the pier network, P1 to P12", |c| {
        pier::cases().iter().zip(0..).for_each(|(case, at)| c.one(&Archive, "the pier network", at, case))
    });
    c.family("3 nodes, up to 3 links: every single change", |c| {
        (0..=3).for_each(|links| tiny_singles(c, &tables(links), &[0, 1, 2, 65_534, 65_535]))
    });
    c.family("3 nodes, 4 links: every single change", |c| tiny_singles(c, &tables(4), &[0, 1, 2]));
    c.family("3 nodes, 6 both ways: every single change", |c| tiny_singles(c, &tables_both_ways(3), &[0, 1, 2]));
    c.family("3 nodes, 3 links: every two changes", |c| tiny_twos(c, &tables(3)));
    c.family("3 nodes, 4 both ways: every two changes", |c| tiny_twos(c, &tables_both_ways(2)));
    c.family("the sizes' ends", sizes);
}

// Batches in turn, from fresh trees and from others that fit.
fn runs(c: &mut Comparison, from: u64) {
    for (shape, name) in SHAPES.iter().enumerate() {
        let many = [20_000, 1_000, 600, 600, 400, 8_000, 3_000, 120][shape];
        c.family(&format!("{name}: runs of 8 batches"), |c| {
            (from..from + many).for_each(|seed| c.one(&Archive, name, seed, &make::run(seed, shape, 8, 4)))
        });
    }
    for (shape, name) in SHAPES.iter().enumerate() {
        let many = [120, 12, 9, 12, 12, 80, 60, 4][shape];
        c.family(&format!("{name}: runs of 300 batches"), |c| {
            let from = from + 1_000_000;
            (from..from + many).for_each(|seed| c.one(&Archive, name, seed, &make::run(seed, shape, 300, 4)))
        });
    }
    c.family("from any tree that fits", |c| {
        for seed in from..from + 6_000 {
            let shape = [0, 5, 6, 0, 5, 1][seed as usize % 6];
            c.one(&Archive, "from any tree that fits", seed, &make::from_another(seed, shape, 4));
        }
    });
}

fn wrong_input(c: &mut Comparison, from: u64) {
    c.family("each single entry damaged", |c| every_damage(c, from));
    c.family("several entries damaged", |c| {
        for seed in from..from + 30_000 {
            let shape = [0, 5, 6, 0][seed as usize % 4];
            c.one(&Archive, "several entries damaged", seed, &make::damaged(seed, shape));
        }
        for seed in from + 30_000..from + 31_000 {
            let shape = [1, 2, 3, 4][seed as usize % 4];
            c.one(&Archive, "several entries damaged", seed, &make::damaged(seed, shape));
        }
    });
    c.family("malformed tables, batches and asks", |c| {
        (from..from + 60_000).for_each(|seed| c.one(&Archive, "malformed", seed, &make::malformed(seed)))
    });
}

fn safe_interface(c: &mut Comparison, from: u64) {
    for seed in from..from + 4_000 {
        c.one(&Safe, "the safe interface, runs", seed, &make::run(seed, [0, 5, 6][seed as usize % 3], 8, 4));
        c.one(&Safe, "the safe interface, damaged", seed, &make::damaged(seed, 0));
        c.one(&Safe, "the safe interface, malformed", seed, &make::malformed(seed));
    }
}

fn jobs(from: u64) {
    let mut c = Comparison { tally: Tally::default(), cases: 0, began: Instant::now() };
    fixed(&mut c);
    runs(&mut c, from);
    wrong_input(&mut c, from);
    c.family("the safe interface", |c| safe_interface(c, from + 2_000_000));
    swapped::compare(from + 3_000_000);
    println!("\ncalls by answer {}", (0..13).map(|n| format!("{n:>9}")).collect::<String>());
    for ((job, _), counts) in JOBS.iter().zip(c.tally) {
        println!("{job:<16}{}", counts.map(|n| format!("{n:>9}")).concat());
    }
    all_came_up(&c.tally);
    guard::tried();
    swapped::tried();
    back::came_up(from);
    wrong::all_found();
    println!("{} cases, {} calls compared in {:.1} s: 0 differ", c.cases, c.calls(), c.began.elapsed().as_secs_f32());
}

fn main() {
    let mut words: Vec<String> = std::env::args().skip(1).collect();
    let part =
        if words.first().is_some_and(|word| word.parse::<u64>().is_err()) { words.remove(0) } else { String::new() };
    let from = words.first().map_or(0, |word| word.parse().expect("the first seed, a number"));
    match part.as_str() {
        "" => {
            listen::compare(from);
            println!();
            jobs(from);
        }
        "jobs" => jobs(from),
        "streams" => listen::compare(from),
        "networks" => others::print(from).expect("standard output takes the networks"),
        _ => panic!("{part} is none of jobs, streams and networks"),
    }
}
