// Programs that take a wrong turn on a stream. The comparison has to find each of them, as it finds the products of
// `wrong`: each prints what is due, but for one thing.
use crate::shorten::smallest;
use crate::streams;
use front::program::Program;
use reckon::stream::{lines, read, Record, Run, MOST_BYTES};
use std::time::Duration;

struct Astray {
    name: &'static str,
    printed: fn(&[u8]) -> String,
}

impl Program for Astray {
    fn run(&self, stream: &[u8]) -> String {
        (self.printed)(stream)
    }
}

const TURNS: [Astray; 27] = [
    Astray {
        name: "gives 22 for an unknown kind at the end",
        printed: |s| renumbered(s, 21, 22, |p| p + 1 == s.len()),
    },
    Astray { name: "gives 21 for a body cut short", printed: |s| renumbered(s, 22, 21, |_| true) },
    Astray { name: "gives 23 before 21", printed: |s| renumbered(s, 21, 23, |p| p == 0) },
    Astray { name: "gives 23 before 22", printed: |s| renumbered(s, 22, 23, |p| out_of_order(s, p)) },
    Astray { name: "gives 2 before 1", printed: |s| renumbered(s, 1, 2, |p| numbers(s, p)[1] >= numbers(s, p)[0]) },
    Astray { name: "gives 4 before 3", printed: |s| renumbered(s, 3, 4, |p| numbers(s, p)[0] == numbers(s, p)[1]) },
    Astray { name: "gives 5 before 4", printed: |s| renumbered(s, 4, 5, |p| numbers(s, p)[0] < last_start(s, p)) },
    Astray { name: "gives 8 before 7", printed: |s| renumbered(s, 7, 8, |p| numbers(s, p)[0] >= links(s)) },
    Astray { name: "takes a 4,097th link", printed: |s| passing_over(s, 3) },
    Astray { name: "takes a 257th row", printed: |s| passing_over(s, 7) },
    Astray { name: "takes a link's second row", printed: |s| passing_over(s, 9) },
    Astray { name: "takes what is out of order", printed: |s| passing_over(s, 23) },
    Astray {
        name: "tells the place behind the kind byte",
        printed: |s| replaced(s, |number, place| (number, place + 1)),
    },
    Astray {
        name: "tells how many records came before",
        printed: |s| replaced(s, |n, place| (n, read_until(s, place).len())),
    },
    Astray { name: "tells the earlier row's number for its place", printed: |s| earlier_told(s, row_of) },
    Astray { name: "tells the CHANGE before as the earlier one", printed: |s| earlier_told(s, change_before) },
    Astray { name: "refuses 32,768 bytes", printed: refuses_the_limit },
    Astray { name: "prints before it refuses the length", printed: prints_before_24 },
    Astray { name: "shows rows before APPLY", printed: shows_rows },
    Astray { name: "applies the rows left at the end", printed: applies_the_rest },
    Astray { name: "keeps the rows after APPLY", printed: keeps_rows },
    Astray { name: "lists the nodes of the batch before", printed: lists_old_nodes },
    Astray { name: "rebuilds from nothing at APPLY", printed: rebuilds },
    Astray { name: "overlooks what goes down off the tree", printed: overlooks_off_the_tree },
    Astray { name: "reads the low byte first", printed: low_byte_first },
    Astray { name: "refuses to tell an unreached node", printed: refuses_unreached },
    Astray { name: "prints 65535 for no link", printed: |s| lines(s).replace('-', "65535") },
];

// ---- what the turns are made of

// The records before a place, each with its own.
fn read_until(stream: &[u8], until: usize) -> Vec<(usize, Record)> {
    let (mut all, mut place) = (Vec::new(), 0);
    while place < until {
        let Ok((record, next)) = read(stream, place) else { break };
        all.push((place, record));
        place = next;
    }
    all
}

fn all_read(stream: &[u8]) -> Vec<(usize, Record)> {
    read_until(stream, stream.len())
}

// The numbers of the whole record at a place.
fn numbers(stream: &[u8], place: usize) -> Vec<usize> {
    let bytes = read(stream, place).expect("a whole record").0.bytes();
    bytes[1..].chunks(2).map(|two| two[0] as usize * 256 + two[1] as usize).collect()
}

fn is_link(record: &(usize, Record)) -> bool {
    matches!(record.1, Record::Link { .. })
}

fn links(stream: &[u8]) -> usize {
    all_read(stream).iter().filter(|record| is_link(record)).count()
}

// The start of the last LINK before a place.
fn last_start(stream: &[u8], place: usize) -> usize {
    read_until(stream, place).iter().rfind(|record| is_link(record)).map_or(0, |link| numbers(stream, link.0)[0])
}

fn out_of_order(stream: &[u8], place: usize) -> bool {
    let before = read_until(stream, place);
    match stream[place] {
        1 => !before.is_empty(),
        2 => before.is_empty() || !before[1..].iter().all(is_link),
        _ => before.is_empty(),
    }
}

// The lines before the refusal, its number and its place.
fn refusal(printed: &str) -> Option<(&str, usize, usize)> {
    let at = printed.strip_suffix('\n')?.rfind('\n').map_or(0, |end| end + 1);
    let mut words = printed[at..].strip_prefix("R ")?.split_whitespace();
    Some((&printed[..at], words.next()?.parse().ok()?, words.next()?.parse().ok()?))
}

fn replaced(stream: &[u8], turn: impl Fn(usize, usize) -> (usize, usize)) -> String {
    let printed = lines(stream);
    match refusal(&printed) {
        Some((before, number, place)) if number != 24 => {
            let (due, rest) = (number, &printed[before.len()..].trim_end());
            let (number, place) = turn(number, place);
            // The earlier place stays where the refusal does.
            let earlier =
                rest.split(' ').nth(3).filter(|_| number == due).map_or(String::new(), |word| format!(" {word}"));
            format!("{before}R {number} {place}{earlier}\n")
        }
        _ => printed,
    }
}

// One number instead of another, where the test holds of its place.
fn renumbered(stream: &[u8], due: usize, given: usize, test: impl Fn(usize) -> bool) -> String {
    replaced(stream, |number, place| (if number == due && test(place) { given } else { number }, place))
}

// Without the first record that is refused so.
fn passing_over(stream: &[u8], due: usize) -> String {
    let printed = lines(stream);
    match refusal(&printed) {
        Some((_, number, place)) if number == due && place < stream.len() => {
            let next = read(stream, place).expect("a whole record").1;
            lines(&[&stream[..place], &stream[next..]].concat())
        }
        _ => printed,
    }
}

// Another number for the earlier record's place.
fn earlier_told(stream: &[u8], turn: fn(&[u8], usize, usize) -> usize) -> String {
    let printed = lines(stream);
    let Some((before, 9, place)) = refusal(&printed) else { return printed };
    let earlier = printed.trim_end().rsplit(' ').next().and_then(|word| word.parse().ok()).expect("a place");
    format!("{before}R 9 {place} {}\n", turn(stream, place, earlier))
}

// The CHANGEs behind the last APPLY before a place.
fn rows_until(stream: &[u8], place: usize) -> Vec<usize> {
    let before = read_until(stream, place);
    let from = before.iter().rposition(|record| matches!(record.1, Record::Apply)).map_or(0, |apply| apply + 1);
    before[from..].iter().filter(|record| matches!(record.1, Record::Change { .. })).map(|record| record.0).collect()
}

fn row_of(stream: &[u8], place: usize, earlier: usize) -> usize {
    rows_until(stream, place).iter().position(|row| *row == earlier).expect("a row")
}

fn change_before(stream: &[u8], place: usize, _earlier: usize) -> usize {
    *rows_until(stream, place).last().expect("a row")
}

// ---- the turns that need more

fn refuses_the_limit(stream: &[u8]) -> String {
    lines(if stream.len() == MOST_BYTES { &[0; MOST_BYTES + 1] } else { stream })
}

fn prints_before_24(stream: &[u8]) -> String {
    if stream.len() <= MOST_BYTES {
        return lines(stream);
    }
    let printed = lines(&stream[..MOST_BYTES]);
    if refusal(&printed).is_some() {
        return printed;
    }
    printed + "R 24 32768\n"
}

// What an ASK prints is what it would print behind an APPLY.
fn shows_rows(stream: &[u8]) -> String {
    let mut shown: Vec<String> = lines(stream).lines().map(str::to_string).collect();
    for (place, record) in all_read(stream) {
        let at = lines(&stream[..place]).lines().count();
        if matches!(record, Record::Ask { .. }) && shown.get(at).is_some_and(|line| line.starts_with('N')) {
            let applied = lines(&[&stream[..place], &[4], &record.bytes()].concat());
            shown[at] = applied.lines().last().unwrap_or("").to_string();
        }
    }
    shown.iter().map(|line| format!("{line}\n")).collect()
}

fn applies_the_rest(stream: &[u8]) -> String {
    let rows = all_read(stream).last().is_some_and(|record| matches!(record.1, Record::Change { .. }));
    if rows && stream.len() < MOST_BYTES {
        return lines(&[stream, &[4]].concat());
    }
    lines(stream)
}

// A link is refused that any earlier row names, applied or not.
fn keeps_rows(stream: &[u8]) -> String {
    let mut named = Vec::new();
    for (place, record) in all_read(stream) {
        let Record::Change { link, .. } = record else { continue };
        let before = lines(&stream[..place]);
        let earlier = named.iter().find(|row: &&(usize, u16)| row.1 == link);
        if let (Some((earlier, _)), None, true) = (earlier, refusal(&before), stream.len() <= MOST_BYTES) {
            return format!("{before}R 9 {place} {earlier}\n");
        }
        named.push((place, link));
    }
    lines(stream)
}

fn lists_old_nodes(stream: &[u8]) -> String {
    let mut before = "A 0".to_string();
    let mut shown = String::new();
    for line in lines(stream).lines() {
        if line.starts_with('A') {
            shown.push_str(&format!("{before}\n"));
            before = line.to_string();
        } else {
            shown.push_str(&format!("{line}\n"));
        }
    }
    shown
}

// What an ASK prints is what it would print of a network that had the new costs from the start.
fn rebuilds(stream: &[u8]) -> String {
    let mut shown: Vec<String> = lines(stream).lines().map(str::to_string).collect();
    let (mut network, mut rows, mut at) = (Vec::new(), Vec::new(), 0);
    for (_, record) in all_read(stream) {
        match record {
            Record::Network { .. } | Record::Link { .. } => network.push(record),
            Record::Change { link, cost } => rows.push((link as usize, cost)),
            Record::Apply => {
                for (link, price) in rows.drain(..) {
                    if let Some(Record::Link { cost, .. }) = network.get_mut(link + 1) {
                        *cost = price;
                    }
                }
                at += 1;
            }
            Record::Ask { .. } => {
                if shown.get(at).is_some_and(|line| line.starts_with('N')) {
                    network.push(record);
                    shown[at] = lines(&streams::bytes(&network)).trim_end().to_string();
                    network.pop();
                }
                at += 1;
            }
        }
    }
    shown.iter().map(|line| format!("{line}\n")).collect()
}

// A row that takes down a link on which no node hangs leaves it at its cost.
fn overlooks_off_the_tree(stream: &[u8]) -> String {
    let (mut other, mut run) = (stream.to_vec(), Run::default());
    let (mut costs, mut rows) = (Vec::new(), Vec::new());
    for (place, record) in all_read(stream) {
        match record {
            Record::Link { cost, .. } => costs.push(cost),
            Record::Change { link, mut cost } => {
                let hangs = |row: &String| row.split(' ').nth(3) == Some(&link.to_string());
                if let (0, Some(standing), false) = (cost, costs.get(link as usize), run.rows().iter().any(hangs)) {
                    cost = *standing;
                    other[place + 3..place + 5].copy_from_slice(&cost.to_be_bytes());
                }
                rows.push((link as usize, cost));
            }
            Record::Apply => rows.drain(..).for_each(|(link, cost)| costs[link] = cost),
            _ => {}
        }
        if run.take(record).is_err() {
            break;
        }
    }
    lines(&other)
}

fn low_byte_first(stream: &[u8]) -> String {
    let mut swapped = stream.to_vec();
    for (place, record) in all_read(stream) {
        let body = &mut swapped[place + 1..place + record.bytes().len()];
        body.chunks_mut(2).for_each(|two| two.swap(0, 1));
    }
    lines(&swapped)
}

fn refuses_unreached(stream: &[u8]) -> String {
    for (place, record) in all_read(stream) {
        let end = place + record.bytes().len();
        let printed = lines(&stream[..end]);
        let asked = matches!(record, Record::Ask { .. }) && stream.len() <= MOST_BYTES;
        if asked && printed.ends_with(" 16777215 - -\n") {
            return format!("{}R 11 {place}\n", lines(&stream[..place]));
        }
    }
    lines(stream)
}

// ---- finding them

// A stream of the comparison's own that tells the program from what is due.
fn found(program: &Astray) -> Option<(String, Vec<u8>)> {
    let differs = |stream: &[u8]| program.run(stream) != lines(stream);
    let seeds = (0..300).flat_map(|seed| {
        let small = [streams::noise(seed), streams::bytes(&streams::whole(seed)), streams::cut(seed)];
        small.map(|stream| (format!("seed {seed}"), stream)).into_iter().filter(|made| made.1.len() < 2_000)
    });
    let edges =
        || [streams::cuts, streams::kinds, streams::refusals, streams::sizes].into_iter().flat_map(|list| list());
    seeds.chain(std::iter::once_with(edges).flatten()).find(|made| differs(&made.1))
}

pub fn all_found() {
    println!("\nprograms gone astray, each found by the comparison");
    for turn in TURNS {
        let Some((which, stream)) = found(&turn) else {
            println!("NOT FOUND: a program that {}", turn.name);
            std::process::exit(1);
        };
        let small = smallest(&turn, &stream, Duration::from_millis(500));
        println!("{:<44} {} bytes, from {which}", turn.name, small.len());
    }
}
