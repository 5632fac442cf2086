// petgraph's Dijkstra over its graph type: distances alone, in a hash map. See ../../../src/peers.rs for what is asked
// and told.
use petgraph::algo::dijkstra;
use petgraph::graph::{DiGraph, NodeIndex};
use std::io::BufRead;
use std::time::Instant;

struct Columns {
    root: usize,
    nodes: usize,
    links: Vec<(u16, u16, u16)>,
}

fn read_columns(text: &str) -> Vec<Columns> {
    let mut numbers = text.split_whitespace().map(|word| word.parse::<usize>().expect("a number"));
    let mut all = Vec::new();
    while let Some(nodes) = numbers.next() {
        let mut next = || numbers.next().expect("the file is whole");
        let (root, count) = (next(), next());
        let links = (0..count).map(|_| (next() as u16, next() as u16, next() as u16)).collect();
        all.push(Columns { root, nodes, links });
    }
    all
}

type Graph = DiGraph<(), u32>;

// The usable links: a link of cost 0 is down, and one that no link which is up leads back from is no link.
fn graph(columns: &Columns) -> Graph {
    let pair = |start: u16, end: u16| start as usize * columns.nodes + end as usize;
    let mut joined = vec![false; columns.nodes * columns.nodes];
    for &(start, end, cost) in &columns.links {
        joined[pair(start, end)] |= cost != 0;
    }
    let usable = |link: &&(u16, u16, u16)| link.2 != 0 && joined[pair(link.1, link.0)];
    let mut graph = Graph::with_capacity(columns.nodes, columns.links.len());
    for _ in 0..columns.nodes {
        graph.add_node(());
    }
    for &(start, end, cost) in columns.links.iter().filter(usable) {
        graph.add_edge(NodeIndex::new(start as usize), NodeIndex::new(end as usize), cost as u32);
    }
    graph
}

fn search(graph: &Graph, root: usize) -> u64 {
    let distances = dijkstra(graph, NodeIndex::new(root), None, |link| *link.weight());
    distances.values().map(|&distance| distance as u64).sum()
}

// The nanoseconds, and what was found.
fn timed(work: impl FnOnce() -> u64) -> (u64, u64) {
    let began = Instant::now();
    let sum = work();
    (began.elapsed().as_nanos() as u64, sum)
}

fn main() {
    let path = std::env::args().nth(1).expect("usage: petgraph NETWORKS");
    let all = read_columns(&std::fs::read_to_string(path).expect("the networks can be read"));
    let standing: Vec<Graph> = all.iter().map(graph).collect();
    for _ in std::io::stdin().lock().lines() {
        let mut told = vec![(u64::MAX, u64::MAX, 0); all.len()];
        for _ in 0..2 {
            for ((told, graph), columns) in told.iter_mut().zip(&standing).zip(&all) {
                let (time, sum) = timed(|| search(graph, columns.root));
                (told.0, told.2) = (told.0.min(time), sum);
            }
            for (told, columns) in told.iter_mut().zip(&all) {
                let (time, sum) = timed(|| search(&graph(columns), columns.root));
                (told.1, told.2) = (told.1.min(time), sum);
            }
        }
        let line: Vec<String> = told.iter().map(|(stood, made, sum)| format!("{stood} {made} {sum}")).collect();
        println!("{}", line.join(" "));
    }
}
