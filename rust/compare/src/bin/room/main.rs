// How much of the stack each job takes, on the compiled archive: what a call writes, measured, and what it reserves, read
// off the disassembly. What is written may be less than what is reserved, where a function doesn't use all of its room; it
// may be more, since it has in it what `memcpy` takes and what the caller pushes for the call.
//
//     make room
//
// The networks are the ones that go deepest: the chain of 256 nodes, and a dense network of 4,096 links, both with links
// both ways and a batch of 256 rows. What the C functions take for a tree by value is counted in.
mod frames;
mod paint;

use frames::Frames;
use routes::ffi::{Batch, Reply};
use routes::{lent, Network, Tree, NODES, ROWS};
use std::path::Path;

// The jobs in the order in which they run: each finds the tree of the one before it.
const JOBS: [(&str, &str); 5] = [
    ("judging the table", "routes_judge_links"),
    ("fresh build", "routes_build"),
    ("judging table and tree", "routes_judge_tree"),
    ("path", "routes_path"),
    ("update, 256 rows", "routes_update"),
];

struct Given {
    net: Network,
    tree: Tree,
    links: Vec<u16>,
    costs: Vec<u16>,
    list: [u16; NODES],
}

fn given(pairs: impl Iterator<Item = (u16, u16, u16, u16)>) -> Given {
    let net = Network::with_pairs(NODES, 0, pairs);
    let apart = net.starts.len() / ROWS;
    let links = (0..ROWS).map(|row| (row * apart) as u16).collect();
    let costs = (0..ROWS).map(|row| (row % 3 * 20_000 + 1) as u16).collect();
    Given { net, tree: Tree::empty(), links, costs, list: [0; NODES] }
}

fn chain() -> Given {
    given((0..255).map(|node| (node, node + 1, 65_535, 65_535)))
}

fn dense() -> Given {
    let cost = |k: u32| (1 + k * 7919 % 1000) as u16;
    let end = |k: u32| ((k / 8 + 1 + k * 37 % 255) % 256) as u16;
    given((0..2048).map(|k| ((k / 8) as u16, end(k), cost(k), cost(k + 2048))))
}

fn call(function: &str, given: &mut Given) -> Reply {
    let Given { net, tree, links, costs, list } = given;
    match function {
        "routes_judge_links" => lent::judge_links(net),
        "routes_build" => lent::build(net, tree),
        "routes_judge_tree" => lent::judge_tree(net, tree),
        "routes_path" => lent::path(net, tree, 255, list),
        _ => lent::update(net, tree, Batch { links, costs }, list),
    }
}

fn written(function: &str, given: &mut Given) -> usize {
    let (bytes, reply) = paint::written(|| call(function, given));
    assert_eq!(reply.number, 0, "{function} was refused");
    bytes
}

fn main() {
    let archive = Path::new(env!("CARGO_MANIFEST_DIR")).join("../../target/lib/libroutes.a");
    let frames = Frames::of(&archive);
    let (mut chain, mut dense) = (chain(), dense());
    println!("bytes of the stack: written on the chain, written on the dense network, reserved");
    for (job, function) in JOBS {
        let (on_chain, on_dense) = (written(function, &mut chain), written(function, &mut dense));
        println!("{job:<24} {on_chain:>6} {on_dense:>6} {:>6}", frames.reserved(function));
    }
}
