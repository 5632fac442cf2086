// What was measured, as a table.
use crate::program;
use crate::room::Room;
use crate::row::{Column, Row};
use std::fmt::Write as _;

/// Whose time a line tells.
#[derive(Clone, Copy, PartialEq, Eq)]
pub enum Whose {
    Ours,
    Others,
}

/// A line of the table: its name, whose it is, and the most that it should be.
pub struct Line {
    pub name: &'static str,
    pub whose: Whose,
    pub aim: Option<f64>,
}

const fn aimed(name: &'static str, aim: f64) -> Line {
    Line { name, whose: Whose::Ours, aim: Some(aim) }
}

const fn ours(name: &'static str) -> Line {
    Line { name, whose: Whose::Ours, aim: None }
}

const fn others(name: &'static str) -> Line {
    Line { name, whose: Whose::Others, aim: None }
}

/// The part that isn't against plain programs, and has no place in the picture.
pub const WORST: &str =
    "The worst for links back: the longer time of two networks with these down, against the product's own fresh build";

// The lines, in parts with a heading each.
const PARTS: [(&str, &[Line]); 8] = [
    (
        "A job, against the faster plain program, which does the same from nothing",
        &[
            aimed("fresh build", 1.0),
            aimed("one tree link raised", 0.5),
            aimed("one tree link lowered", 0.5),
            aimed("32 mixed rows", 1.0),
        ],
    ),
    (
        "The same less the time of judging table and tree (a difference of two times)",
        &[
            ours("one tree link raised, less judging"),
            ours("one tree link lowered, less judging"),
            ours("32 mixed rows, less judging"),
        ],
    ),
    (
        "The same through the safe Rust interface",
        &[
            ours("fresh build, safe Rust"),
            ours("one tree link raised, safe Rust"),
            ours("one tree link lowered, safe Rust"),
            ours("32 mixed rows, safe Rust"),
        ],
    ),
    (
        "A job alone, in shares of the faster plain rebuild",
        &[ours("judging the table alone"), ours("judging table and tree alone"), ours("path to the deepest node")],
    ),
    ("The program, against the faster plain one", &[aimed(program::NAME, 1.0)]),
    (
        WORST,
        &[
            aimed("fresh build, links back down", 20.0),
            aimed("judging table and tree, links back down", 20.0),
            aimed("one link raised, links back down", 20.0),
        ],
    ),
    (
        "The two plain programs, against the faster of them",
        &[others("plain rebuild, simple"), others("plain rebuild, packed")],
    ),
    (
        "Others' Dijkstra, against the faster plain rebuild",
        &[
            others("Boost, graph standing"),
            others("Boost, graph made"),
            others("LEMON, graph standing"),
            others("LEMON, graph made"),
            others("petgraph, graph standing"),
            others("petgraph, graph made"),
        ],
    ),
];

/// The parts with those of their lines that were measured. Ours always are; a peer is where its library is installed.
pub fn parts(columns: &[Column]) -> Vec<(&'static str, Vec<&'static Line>)> {
    let measured = |line: &&Line| {
        let everywhere = columns.iter().all(|column| column.row(line.name).is_some());
        assert!(everywhere || line.whose == Whose::Others, "{} was not measured", line.name);
        everywhere
    };
    PARTS.iter().map(|(heading, lines)| (*heading, lines.iter().filter(measured).collect())).collect()
}

// As it is told, so that what is told is what is judged.
fn rounded(ratio: f64) -> f64 {
    (ratio * 100.0).round() / 100.0
}

// The median, with the least and the most beside it, and how many networks miss the aim; bold where the median does.
fn cell(row: Option<&Row>, aim: Option<f64>) -> String {
    let Some(row) = row else { return "–".to_string() };
    let (ratio, ratios) = (row.ratio(), row.ratios());
    let misses = |ratio: f64| aim.is_some_and(|aim| rounded(ratio) > aim);
    let mark = if misses(ratio) { "**" } else { "" };
    let missing = match ratios.iter().filter(|ratio| misses(**ratio)).count() {
        0 => String::new(),
        some => format!("; {some} of {} miss", ratios.len()),
    };
    format!("{mark}{ratio:.2}{mark} ({:.2} to {:.2}{missing})", ratios[0], ratios[ratios.len() - 1])
}

fn across(columns: &[Column], cell: impl Fn(&Column) -> String) -> String {
    columns.iter().map(cell).collect::<Vec<_>>().join(" | ")
}

// A line with nothing but a name in it.
fn heading(text: &mut String, columns: &[Column], name: &str) {
    writeln!(text, "| *{name}* |{}", " |".repeat(columns.len() + 1)).unwrap();
}

fn ratios(columns: &[Column]) -> String {
    let mut text = String::new();
    writeln!(text, "| | {} | aim |", across(columns, |column| column.heading.to_string())).unwrap();
    writeln!(text, "|---|{}---|", "---|".repeat(columns.len())).unwrap();
    for (name, lines) in parts(columns) {
        let missing = if lines.is_empty() { ": none installed" } else { "" };
        heading(&mut text, columns, &format!("{name}{missing}"));
        for Line { name, aim, .. } in lines {
            let cells = across(columns, |column| cell(column.row(name), *aim));
            let aim = aim.map_or("–".to_string(), |aim| format!("{aim:.1}"));
            writeln!(text, "| {name} | {cells} | {aim} |").unwrap();
        }
    }
    heading(&mut text, columns, "Microseconds, on the machine of this run");
    let told = ["plain rebuild, simple", "plain rebuild, packed"];
    let ours = ["fresh build", "one tree link raised", "judging table and tree alone", "fresh build, links back down"];
    for name in told.into_iter().chain(ours) {
        let micros = |column: &Column| column.row(name).map_or("–".to_string(), |row| format!("{:.1}", row.micros()));
        writeln!(text, "| {name} | {} | |", across(columns, micros)).unwrap();
    }
    text
}

fn stack(room: &[Room]) -> String {
    let mut text =
        String::from("| Bytes of the stack | written, chain | written, dense | reserved | the most, of 16,384 |\n");
    text.push_str("|---|---|---|---|---|\n");
    for one in room {
        let Room { job, bytes: [chain, dense, reserved] } = one;
        writeln!(text, "| {job} | {chain} | {dense} | {reserved} | {:.0} % |", one.most() as f64 / 163.84).unwrap();
    }
    text
}

/// All of it, in Markdown.
pub fn markdown(columns: &[Column], room: &[Room]) -> String {
    format!("{}\n{}", ratios(columns), stack(room))
}
