//! A refusal in words, at the user's own line.
use crate::input::Input;
use reckon::stream::{read, Record};

/// A line `R number place` of the program; refusal 9 may carry the place of the earlier row behind that.
#[derive(Debug, Clone, Copy, PartialEq)]
pub struct Refusal {
    pub number: usize,
    pub place: usize,
    pub earlier: Option<usize>,
}

impl Refusal {
    /// The refusal that a run ended with, if it did.
    pub fn ending(printed: &str) -> Option<Refusal> {
        let numbers = printed.lines().last()?.strip_prefix("R ")?;
        let numbers: Vec<usize> = numbers.split(' ').map(|word| word.parse().ok()).collect::<Option<_>>()?;
        match numbers[..] {
            [number, place] => Some(Refusal { number, place, earlier: None }),
            [number, place, earlier] => Some(Refusal { number, place, earlier: Some(earlier) }),
            _ => None,
        }
    }

    /// `my.txt:12: change 3 6: this link has a row already, on line 9 (refusal 9)`
    pub fn told(self, input: &Input) -> String {
        let place = if self.number == 24 { input.bytes.len() } else { self.place };
        format!("{}: {} (refusal {})", input.at(place), self.why(input), self.number)
    }

    fn why(self, input: &Input) -> String {
        let before = records_before(&input.bytes, self.place);
        let record = input.bytes.get(self.place).and_then(|_| read(&input.bytes, self.place).ok()).map(|read| read.0);
        match (self.number, record) {
            (1, _) => "a network has 1 to 256 nodes".to_string(),
            (2, Some(Record::Network { nodes, root })) => no_node(root, nodes),
            (3, _) => "a network has at most 4,096 links, and this is one more".to_string(),
            (4, Some(Record::Link { start, end, .. })) => wrong_ends(start, end, nodes_of(&before)),
            (5, _) => format!("its start is below that of the link before it{}", last_link(input, &before)),
            (7, _) => "a batch has at most 256 rows, and this is one more".to_string(),
            (8, Some(Record::Change { link, .. })) => no_link(link, links_of(&before)),
            (9, Some(Record::Change { link, .. })) => {
                let earlier = self.earlier.or_else(|| earlier_row(&before, link));
                let told = earlier.map_or(String::new(), |place| format!(", {}", input.by(place)));
                format!("this link has a row already{told}")
            }
            (10, Some(Record::Ask { node })) => no_node(node, nodes_of(&before)),
            (21, _) => format!("no record has the kind {}", input.bytes.get(self.place).copied().unwrap_or(0)),
            (22, _) => "the stream ends within this record".to_string(),
            (23, record) => out_of_order(record),
            (24, _) => format!("the stream has {} bytes, and {} are the most", input.bytes.len(), self.place),
            _ => "it is refused".to_string(),
        }
    }
}

type Placed = (usize, Record);

// The records before a place, each with its own.
fn records_before(bytes: &[u8], until: usize) -> Vec<Placed> {
    let (mut all, mut place) = (Vec::new(), 0);
    while place < until.min(bytes.len()) {
        let Ok((record, next)) = read(bytes, place) else { break };
        all.push((place, record));
        place = next;
    }
    all
}

fn nodes_of(before: &[Placed]) -> u16 {
    match before.first() {
        Some((_, Record::Network { nodes, .. })) => *nodes,
        _ => 0,
    }
}

fn is_link(placed: &&Placed) -> bool {
    matches!(placed.1, Record::Link { .. })
}

fn links_of(before: &[Placed]) -> usize {
    before.iter().filter(is_link).count()
}

fn last_link(input: &Input, before: &[Placed]) -> String {
    before.iter().rfind(is_link).map_or(String::new(), |(place, _)| format!(", {}", input.by(*place)))
}

// The first row of the batch that names the link.
fn earlier_row(before: &[Placed], link: u16) -> Option<usize> {
    let batch = before.iter().rposition(|(_, record)| *record == Record::Apply).map_or(0, |apply| apply + 1);
    let names = |record: &Record| matches!(record, Record::Change { link: named, .. } if *named == link);
    before[batch..].iter().find(|(_, record)| names(record)).map(|(place, _)| *place)
}

fn no_node(node: u16, nodes: u16) -> String {
    match nodes {
        1 => format!("there is no node {node}: the one node is 0"),
        _ => format!("there is no node {node}: the nodes are 0 to {}", nodes.saturating_sub(1)),
    }
}

fn no_link(link: u16, links: usize) -> String {
    match links {
        0 => format!("there is no link {link}: the network has none"),
        1 => format!("there is no link {link}: the one link is 0"),
        _ => format!("there is no link {link}: the links are 0 to {}", links - 1),
    }
}

fn wrong_ends(start: u16, end: u16, nodes: u16) -> String {
    match [start, end].into_iter().find(|node| *node >= nodes) {
        Some(node) => no_node(node, nodes),
        None => "a link leads to another node than its start".to_string(),
    }
}

fn out_of_order(record: Option<Record>) -> String {
    match record {
        None => "the stream has no records; the first has to be `network`",
        Some(Record::Network { .. }) => "only the first record is `network`",
        Some(Record::Link { .. }) => "links stand right behind `network`, before any other record",
        Some(_) => "the first record has to be `network`",
    }
    .to_string()
}
