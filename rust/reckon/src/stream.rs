//! What the program `routes` must print: a reader of streams and a state of its own, over what is reckoned from nothing.
use crate::rules::{self, Table, Tree, ACCEPTED, EMPTY, NODES, NONE};

pub const MOST_BYTES: usize = 32_768;
const MOST_LINKS: usize = 4_096;
const MOST_ROWS: usize = 256;

#[derive(Clone, Copy, Debug, PartialEq)]
pub enum Record {
    Network { nodes: u16, root: u16 },
    Link { start: u16, end: u16, cost: u16 },
    Change { link: u16, cost: u16 },
    Apply,
    Ask { node: u16 },
}

impl Record {
    pub fn bytes(self) -> Vec<u8> {
        let (kind, numbers) = match self {
            Record::Network { nodes, root } => (1, vec![nodes, root]),
            Record::Link { start, end, cost } => (2, vec![start, end, cost]),
            Record::Change { link, cost } => (3, vec![link, cost]),
            Record::Apply => (4, vec![]),
            Record::Ask { node } => (5, vec![node]),
        };
        let mut bytes = vec![kind];
        for number in numbers {
            bytes.push((number / 256) as u8);
            bytes.push((number % 256) as u8);
        }
        bytes
    }
}

/// The record at a place inside the stream and the place behind it, or the number of a refusal.
pub fn read(stream: &[u8], place: usize) -> Result<(Record, usize), u16> {
    let numbers = match stream[place] {
        1 | 3 => 2,
        2 => 3,
        4 => 0,
        5 => 1,
        _ => return Err(21),
    };
    let next = place + 1 + 2 * numbers;
    if next > stream.len() {
        return Err(22);
    }
    let number = |at: usize| stream[place + 1 + 2 * at] as u16 * 256 + stream[place + 2 + 2 * at] as u16;
    let record = match stream[place] {
        1 => Record::Network { nodes: number(0), root: number(1) },
        2 => Record::Link { start: number(0), end: number(1), cost: number(2) },
        3 => Record::Change { link: number(0), cost: number(1) },
        4 => Record::Apply,
        _ => Record::Ask { node: number(0) },
    };
    Ok((record, next))
}

#[derive(PartialEq)]
enum Phase {
    // No NETWORK yet.
    Unread,
    // Only LINKs so far.
    Linking,
    Routing,
}

/// The state that the records so far have led to.
pub struct Run {
    phase: Phase,
    nodes: usize,
    root: usize,
    starts: Vec<u16>,
    ends: Vec<u16>,
    costs: Vec<u16>,
    tree: Tree,
    // The CHANGEs since the last APPLY.
    rows: Vec<(u16, u16)>,
}

impl Default for Run {
    fn default() -> Run {
        Run {
            phase: Phase::Unread,
            nodes: 0,
            root: 0,
            starts: Vec::new(),
            ends: Vec::new(),
            costs: Vec::new(),
            tree: EMPTY,
            rows: Vec::new(),
        }
    }
}

impl Run {
    fn table(&self) -> Table<'_> {
        Table { nodes: self.nodes, root: self.root, starts: &self.starts, ends: &self.ends, costs: &self.costs }
    }

    // The number of the refusal, if the record is refused: 23 first, then those of its kind in their order.
    fn refusal(&self, record: Record) -> Option<u16> {
        let in_order = match record {
            Record::Network { .. } => self.phase == Phase::Unread,
            Record::Link { .. } => self.phase == Phase::Linking,
            _ => self.phase != Phase::Unread,
        };
        if !in_order {
            return Some(23);
        }
        let tests = match record {
            Record::Network { nodes, root } => vec![(1, nodes == 0 || nodes > 256), (2, root >= nodes)],
            Record::Link { start, end, .. } => vec![
                (3, self.starts.len() >= MOST_LINKS),
                (4, start as usize >= self.nodes || end as usize >= self.nodes || start == end),
                (5, self.starts.last().is_some_and(|last| start < *last)),
            ],
            Record::Change { link, .. } => vec![
                (7, self.rows.len() >= MOST_ROWS),
                (8, link as usize >= self.starts.len()),
                (9, self.rows.iter().any(|row| row.0 == link)),
            ],
            Record::Apply => vec![],
            Record::Ask { node } => vec![(10, node as usize >= self.nodes)],
        };
        tests.into_iter().find(|test| test.1).map(|test| test.0)
    }

    /// Takes a record: the line that it prints, if it prints one, or the number of its refusal.
    pub fn take(&mut self, record: Record) -> Result<Option<String>, u16> {
        if let Some(number) = self.refusal(record) {
            return Err(number);
        }
        if !matches!(record, Record::Network { .. } | Record::Link { .. }) {
            self.build();
        }
        let mut line = None;
        match record {
            Record::Network { nodes, root } => {
                (self.phase, self.nodes, self.root) = (Phase::Linking, nodes as usize, root as usize);
            }
            Record::Link { start, end, cost } => {
                self.starts.push(start);
                self.ends.push(end);
                self.costs.push(cost);
            }
            Record::Change { link, cost } => self.rows.push((link, cost)),
            Record::Apply => line = Some(self.apply()),
            Record::Ask { node } => line = Some(self.row(node)),
        }
        Ok(line)
    }

    // The fresh tree, once all LINKs are read.
    fn build(&mut self) {
        if self.phase == Phase::Linking {
            self.phase = Phase::Routing;
            self.tree = rules::build(&self.table()).1;
        }
    }

    fn apply(&mut self) -> String {
        let next = rules::update(&self.table(), &self.tree, &self.rows, NODES);
        assert!(next.told == ACCEPTED, "rows that were taken are refused: {:?}", next.told);
        (self.tree, self.costs) = (next.tree, next.costs);
        self.rows.clear();
        let nodes: String = next.changed.iter().map(|node| format!(" {node}")).collect();
        format!("A {}{nodes}\n", next.changed.len())
    }

    // What an ASK for a node prints.
    fn row(&self, node: u16) -> String {
        let link = |link: u16| if link == NONE { "-".to_string() } else { link.to_string() };
        let v = node as usize;
        let (parent, first) = (link(self.tree.parent[v]), link(self.tree.first[v]));
        format!("N {node} {} {parent} {first}\n", self.tree.dist[v])
    }

    /// What an ASK for each node would print, and nothing before NETWORK.
    pub fn rows(&mut self) -> Vec<String> {
        self.build();
        (0..self.nodes as u16).map(|node| self.row(node)).collect()
    }

    /// The number of the refusal that the stream's end gives, if it does.
    pub fn at_end(&self) -> Option<u16> {
        (self.phase == Phase::Unread).then_some(23)
    }
}

/// A line that is printed, and the place of the record that prints it.
#[derive(Debug, PartialEq)]
pub struct Said {
    pub place: usize,
    pub line: String,
}

fn refused(number: u16, place: usize) -> Said {
    Said { place, line: format!("R {number} {place}\n") }
}

/// Each line that a stream prints.
pub fn said(stream: &[u8]) -> Vec<Said> {
    if stream.len() > MOST_BYTES {
        return vec![refused(24, MOST_BYTES)];
    }
    let (mut all, mut run, mut place) = (Vec::new(), Run::default(), 0);
    // The CHANGEs since the last APPLY, each with its place.
    let mut rows: Vec<(usize, u16)> = Vec::new();
    while place < stream.len() {
        let record = read(stream, place);
        let taken = record.and_then(|(record, next)| run.take(record).map(|line| (line, next)));
        match (taken, record) {
            (Ok((line, next)), Ok((record, _))) => {
                all.extend(line.map(|line| Said { place, line }));
                match record {
                    Record::Change { link, .. } => rows.push((place, link)),
                    Record::Apply => rows.clear(),
                    _ => {}
                }
                place = next;
            }
            (Err(9), Ok((Record::Change { link, .. }, _))) => {
                let earlier = rows.iter().find(|row| row.1 == link).expect("an earlier row").0;
                all.push(Said { place, line: format!("R 9 {place} {earlier}\n") });
                return all;
            }
            (taken, _) => {
                all.push(refused(taken.expect_err("a refusal"), place));
                return all;
            }
        }
    }
    all.extend(run.at_end().map(|number| refused(number, place)));
    all
}

/// All of them, as the program prints them.
pub fn lines(stream: &[u8]) -> String {
    said(stream).into_iter().map(|said| said.line).collect()
}
