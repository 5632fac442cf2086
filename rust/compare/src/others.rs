// The product's trees as text, for a calculation by other hands to judge: tests/others.py has networkx do it.
//
// A network is a line `network NODES ROOT` and a line `links` with the start and the end of each. Then, for the fresh build
// and for each batch, a line `costs` and a line `tree` with the distance, the parent link and the first link of each node.
// The last line is `end`.
use crate::case::Case;
use crate::make;
use crate::product::{rows_mut, Archive, Product};
use reckon::rules::{Table, Tree, EMPTY};
use routes::ffi::Batch;
use std::io::{BufWriter, Result, Write};

fn line<T: std::fmt::Display>(out: &mut impl Write, word: &str, numbers: impl Iterator<Item = T>) -> Result<()> {
    write!(out, "{word}")?;
    for number in numbers {
        write!(out, " {number}")?;
    }
    writeln!(out)
}

fn state(out: &mut impl Write, nodes: usize, costs: &[u16], tree: &Tree) -> Result<()> {
    line(out, "costs", costs.iter())?;
    let row = |v: usize| [tree.dist[v], tree.parent[v].into(), tree.first[v].into()];
    line(out, "tree", (0..nodes).flat_map(row))
}

fn network(out: &mut impl Write, case: &Case) -> Result<()> {
    let (mut tree, mut costs) = (EMPTY, case.costs.clone());
    line(out, "network", [case.nodes, case.root].into_iter())?;
    line(out, "links", case.starts.iter().zip(&case.ends).flat_map(|(start, end)| [start, end]))?;
    let told = Archive.build(&case.table(), rows_mut(&mut tree));
    assert_eq!(told.0, 0, "a made network is acceptable");
    state(out, case.nodes, &costs, &tree)?;
    for batch in &case.batches {
        let before = costs.clone();
        let (t, rows) = (Table { costs: &before, ..case.table() }, Batch { links: &batch.links, costs: &batch.costs });
        let told = Archive.update(&t, &mut costs, rows, rows_mut(&mut tree), &mut [0; 300]);
        assert_eq!(told.0, 0, "a made batch is acceptable");
        state(out, case.nodes, &costs, &tree)?;
    }
    Ok(())
}

// So many networks, mostly small ones, and three batches for each.
pub fn print(from: u64) -> Result<()> {
    let mut out = BufWriter::new(std::io::stdout().lock());
    for seed in from..from + 3_000 {
        let shape = [0, 5, 0, 6, 0, 5, 0, 6, 0, 5, 0, 1, 2, 3, 4, 6][seed as usize % 16];
        network(&mut out, &make::run(seed, shape, 3, 0))?;
    }
    writeln!(out, "end")?;
    out.flush()
}
