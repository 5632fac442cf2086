//! The program `routes` as people would write it: from standard input to standard output, the tree made from nothing at
//! each APPLY, by the plain program named. It judges nothing, and takes a right stream only; any other ends it.
//!
//!     plain_routes simple|packed <STREAM
#![forbid(unsafe_code)]

use bench::plain::Plain;
use routes::{Change, Network, Tree, NO_LINK};
use std::io::{BufWriter, Read, StdoutLock, Write};

const USAGE: &str = "usage: plain_routes simple|packed <STREAM";

struct Records<'a>(&'a [u8]);

impl Records<'_> {
    fn kind(&mut self) -> Option<u8> {
        let (kind, rest) = self.0.split_first()?;
        self.0 = rest;
        Some(*kind)
    }

    fn number(&mut self) -> u16 {
        let (number, rest) = self.0.split_first_chunk().expect("a whole body");
        self.0 = rest;
        u16::from_be_bytes(*number)
    }
}

fn link(link: u16) -> String {
    if link == NO_LINK {
        "-".to_string()
    } else {
        link.to_string()
    }
}

fn ask(out: &mut impl Write, tree: &Tree, node: u16) -> std::io::Result<()> {
    let row = node as usize;
    writeln!(out, "N {node} {} {} {}", tree.distances[row], link(tree.parents[row]), link(tree.firsts[row]))
}

fn apply(out: &mut impl Write, changed: &[u16]) -> std::io::Result<()> {
    write!(out, "A {}", changed.len())?;
    for node in changed {
        write!(out, " {node}")?;
    }
    writeln!(out)
}

// The plain program of that name, once all links are read, and the tree that it makes of them.
fn begun(name: &str, net: &Network) -> (Plain, Tree) {
    let plain = match name {
        "simple" => Plain::Simple,
        "packed" => Plain::packed(net),
        _ => panic!("{USAGE}"),
    };
    let tree = plain.rebuild(net);
    (plain, tree)
}

fn run(name: &str, stream: &[u8], out: &mut BufWriter<StdoutLock>) -> std::io::Result<()> {
    let mut records = Records(stream);
    let mut net = Network::with_links(0, 0, []);
    let mut standing: Option<(Plain, Tree)> = None;
    let mut batch = Vec::new();
    while let Some(kind) = records.kind() {
        match kind {
            1 => (net.nodes, net.root) = (records.number() as usize, records.number() as usize),
            2 => {
                net.starts.push(records.number());
                net.ends.push(records.number());
                net.costs.push(records.number());
            }
            3 => batch.push(Change { link: records.number(), cost: records.number() }),
            4 => {
                let (plain, tree) = standing.get_or_insert_with(|| begun(name, &net));
                apply(out, &plain.update(&mut net, tree, &batch))?;
                batch.clear();
            }
            5 => ask(out, &standing.get_or_insert_with(|| begun(name, &net)).1, records.number())?,
            _ => panic!("a record of no kind"),
        }
    }
    Ok(())
}

fn main() -> std::io::Result<()> {
    let name = std::env::args().nth(1).expect(USAGE);
    let mut stream = Vec::new();
    std::io::stdin().lock().read_to_end(&mut stream)?;
    let mut out = BufWriter::new(std::io::stdout().lock());
    run(&name, &stream, &mut out)?;
    out.flush()
}
