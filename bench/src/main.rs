//! What it costs: the proved jobs beside the plain programs, in one run. See docs/COST.md, whose table it writes, with the
//! picture docs/cost.svg.
//!
//!     make bench
//!
//! With the word `once` it goes one round, prints its table and writes nothing: that shows that all agree and that the
//! benchmark still works, and is no measurement.
#![forbid(unsafe_code)]

mod given;
mod jobs;
mod peers;
mod picture;
mod program;
mod room;
mod rounds;
mod row;
mod table;

use bench::made::Shape;
use row::Column;
use std::path::{Path, PathBuf};

const COLUMNS: [(&str, Shape, usize); 4] = [
    ("mesh, 1,024 links", Shape::Mesh, 1_024),
    ("mesh, 4,096 links", Shape::Mesh, 4_096),
    ("random ends, 1,024 links", Shape::RandomEnds, 1_024),
    ("random ends, 4,096 links", Shape::RandomEnds, 4_096),
];

// What stands between these lines of docs/COST.md is written by each run.
const BEGINS: &str = "<!-- written by make bench -->\n";
const ENDS: &str = "<!-- to here -->\n";

// The page with the table put in.
fn page(page: &str, table: &str) -> Option<String> {
    let (before, rest) = page.split_once(BEGINS)?;
    let (_, after) = rest.split_once(ENDS)?;
    Some(format!("{before}{BEGINS}{table}{ENDS}{after}"))
}

// A program that cargo built to the same folder as this one.
fn beside(name: &str) -> PathBuf {
    std::env::current_exe().expect("a program has a path").with_file_name(name)
}

fn programs(root: &Path) -> program::Programs {
    let plain = beside("plain_routes");
    let routes = std::env::var_os("ROUTES").map_or(root.join("target/bin/routes"), PathBuf::from);
    program::Programs { routes, plain, folder: root.join("target/bench") }
}

// How often everyone has a turn.
struct Rounds {
    jobs: usize,
    programs: usize,
}

const MEASURING: Rounds = Rounds { jobs: 200, programs: 20 };
const ONCE: Rounds = Rounds { jobs: 1, programs: 1 };

fn columns(root: &Path, rounds: &Rounds) -> Vec<Column> {
    let (peers, programs) = (peers::built(&root.join("target/bench/peers")), programs(root));
    let measured = |(heading, shape, links)| {
        eprintln!("measuring: {heading}");
        let mut column = jobs::measure(heading, shape, links, &peers, rounds.jobs);
        column.rows.push(programs.measure(shape, links, rounds.programs));
        column
    };
    COLUMNS.into_iter().map(measured).collect()
}

fn main() -> std::io::Result<()> {
    let words: Vec<String> = std::env::args().skip(1).collect();
    let once = match words.iter().map(String::as_str).collect::<Vec<_>>()[..] {
        [] => false,
        ["once"] => true,
        _ => panic!("usage: bench, or bench once"),
    };
    let root = Path::new(env!("CARGO_MANIFEST_DIR")).join("..");
    let columns = columns(&root, if once { &ONCE } else { &MEASURING });
    let table = table::markdown(&columns, &room::measure(&beside("room")));
    let picture = picture::svg(&columns[..2]);
    println!("{table}");
    if once {
        println!("one round over all of it: no measurement, and nothing is written");
        return Ok(());
    }
    let path = root.join("docs/COST.md");
    let text = page(&std::fs::read_to_string(&path)?, &table).expect("docs/COST.md has a place for the table");
    std::fs::write(path, text)?;
    std::fs::write(root.join("docs/cost.svg"), picture)
}
