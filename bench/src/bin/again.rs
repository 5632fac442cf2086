//! Runs one job over and over for some seconds, on meshes that take turns, for a profiler to look at:
//!
//!     perf record -e cpu-clock:u target/rust/release/again build 1024
#![forbid(unsafe_code)]

use bench::made::{self, Dice, Kind, Shape};
use bench::plain::Plain;
use bench::product::{self, Columns};
use routes::{Network, Tree, NODES};
use std::hint::black_box;
use std::time::{Duration, Instant};

const USAGE: &str = "usage: again simple|packed|build|judge|raised|lowered|mixed LINKS";
const MESHES: u64 = 64;
const BATCHES: usize = 8;

struct Given {
    net: Network,
    packed: Plain,
    tree: Tree,
    batches: Vec<Columns>,
}

fn given(kind: Kind, links: usize, seed: u64) -> Given {
    let net = made::network(Shape::Mesh, links, seed);
    let tree = Plain::Simple.rebuild(&net);
    let mut dice = Dice::new(seed);
    let batches = (0..BATCHES).map(|_| Columns::of(&made::batch(kind, &net, &tree, &mut dice))).collect();
    Given { packed: Plain::packed(&net), net, tree, batches }
}

fn update(given: &Given, place: usize) {
    let (mut net, mut tree, mut list) = (given.net.clone(), given.tree.clone(), [0; NODES]);
    product::update(&mut net, &mut tree, &given.batches[place], &mut list);
    black_box(tree);
}

fn main() {
    let words: Vec<String> = std::env::args().skip(1).collect();
    let [job, links] = &words[..] else { panic!("{USAGE}") };
    let kind = match job.as_str() {
        "lowered" => Kind::Lowered,
        "mixed" => Kind::Mixed,
        _ => Kind::Raised,
    };
    let links = links.parse().expect(USAGE);
    let meshes: Vec<Given> = (1..=MESHES).map(|seed| given(kind, links, seed)).collect();
    let mut tree = Tree::empty();
    let began = Instant::now();
    while began.elapsed() < Duration::from_secs(10) {
        for place in 0..BATCHES {
            for given in &meshes {
                match job.as_str() {
                    "simple" => drop(black_box(Plain::Simple.rebuild(&given.net))),
                    "packed" => drop(black_box(given.packed.rebuild(&given.net))),
                    "build" => product::build(&given.net, &mut tree),
                    "judge" => product::judge_tree(&given.net, &given.tree),
                    "raised" | "lowered" | "mixed" => update(given, place),
                    _ => panic!("{USAGE}"),
                }
            }
        }
    }
}
