// The pier network's table, P1 to P12 and P2's rows in two batches, by the scope's own numbers: what is reckoned must give them, and the product too.
use crate::case::{Ask, Batch, Case};
use reckon::rules::{self, Table, Tree, EMPTY, NONE};

const STARTS: [u16; 8] = [0, 0, 1, 1, 2, 2, 2, 3];
const ENDS: [u16; 8] = [1, 2, 0, 2, 0, 1, 3, 2];
const COSTS: [u16; 8] = [4, 7, 4, 2, 7, 2, 1, 1];
const __: u16 = NONE;

type Rows = ([u32; 4], [u16; 4], [u16; 4]);

const P1: Rows = ([0, 4, 6, 7], [__, 0, 3, 6], [__, 0, 0, 0]);
const P2: Rows = ([0, 2, 7, 8], [__, 0, 3, 6], [__, 0, 0, 0]);
const P4: Rows = ([0, 2, 7, 8], [__, 0, 1, 6], [__, 0, 1, 1]);
const P7: Rows = ([0, 4, 5, 6], [__, 0, 1, 6], [__, 0, 1, 1]);
const P8: Rows = ([0, 9, 7, 8], [__, 5, 1, 6], [__, 1, 1, 1]);
const P9: Rows = ([0, 4, 6, 16_777_215], [__, 0, 3, __], [__, 0, 0, __]);

// Batches from a fresh build, the rows that the last one leads to, and the nodes that it changes.
type Point = (&'static str, &'static [&'static [(u16, u16)]], Rows, &'static [u16]);
const POINTS: [Point; 10] = [
    ("P2", &[&[(3, 5), (0, 2)]], P2, &[1, 2, 3]),
    ("P4", &[&[(3, 5), (0, 2)], &[(3, 6)]], P4, &[2, 3]),
    ("P5", &[&[(3, 5), (0, 2)], &[(3, 6)], &[(3, 5)]], P4, &[]),
    ("P6", &[&[(1, 6)]], P1, &[]),
    ("P7", &[&[(1, 5)]], P7, &[2, 3]),
    ("P8", &[&[(0, 0)]], P8, &[1, 2, 3]),
    ("P9", &[&[(6, 0)]], P9, &[3]),
    ("P10", &[&[(7, 0)]], P9, &[3]),
    // P2's rows in two batches end with another parent, as P5 does, or with P2's own.
    ("P2's two rows, one after the other,", &[&[(3, 5)], &[(0, 2)]], P4, &[1]),
    ("P2's two rows, the other way round,", &[&[(0, 2)], &[(3, 5)]], P2, &[2, 3]),
];

fn whole(rows: Rows) -> Tree {
    let mut tree = EMPTY;
    tree.dist[..4].copy_from_slice(&rows.0);
    tree.parent[..4].copy_from_slice(&rows.1);
    tree.first[..4].copy_from_slice(&rows.2);
    tree
}

fn hold(name: &str, right: bool) {
    assert!(right, "{name} of the pier network isn't what is reckoned");
}

// Holds what is reckoned to the table, and hands back the cases for the product.
pub fn cases() -> Vec<Case> {
    let pier = Table { nodes: 4, root: 0, starts: &STARTS, ends: &ENDS, costs: &COSTS };
    let mut fresh = Case { nodes: 4, starts: STARTS.into(), ends: ENDS.into(), costs: COSTS.into(), ..Case::default() };
    fresh.asks = (0..5).flat_map(|node| (0..5).map(move |list| Ask { node, list })).collect();
    let p1 = rules::build(&pier).1;
    hold("P1", p1 == whole(P1));
    let p3 = rules::build(&Table { costs: &[2, 7, 4, 5, 7, 2, 1, 1], ..pier }).1;
    hold("P3", (p3.parent[2], p3.first[2]) == (1, 1));
    let p11 = rules::update(&pier, &p1, &[(3, 1), (0, 1), (3, 1)], 4);
    hold("P11", p11.told == (9, [2, 0]) && p11.tree == p1 && p11.costs == COSTS && p11.changed.is_empty());
    let alone = Table { nodes: 1, root: 0, starts: &[], ends: &[], costs: &[] };
    let p12 = rules::build(&alone).1;
    hold("P12", p12.dist[0] == 0 && rules::path(&alone, &p12, 0, 0) == ((0, [0, 0]), vec![]));

    let asked = vec![Ask { node: 0, list: 0 }];
    let mut cases = vec![fresh.clone(), Case { nodes: 1, asks: asked, ..Case::default() }];
    for (name, batches, rows, changed) in POINTS {
        let (mut tree, mut costs, mut last) = (p1.clone(), COSTS.to_vec(), Vec::new());
        for batch in batches {
            let next = rules::update(&Table { costs: &costs, ..pier }, &tree, batch, 4);
            (tree, costs, last) = (next.tree, next.costs, next.changed);
        }
        hold(name, tree == whole(rows) && last == changed);
        let columns = |batch: &&[(u16, u16)]| Batch {
            links: batch.iter().map(|row| row.0).collect(),
            costs: batch.iter().map(|row| row.1).collect(),
            list: 5,
        };
        cases.push(Case { batches: batches.iter().map(columns).collect(), ..fresh.clone() });
    }
    let again = Batch { links: vec![3, 0, 3], costs: vec![1, 1, 1], list: 4 };
    cases.push(Case { batches: vec![again], ..fresh });
    cases
}
