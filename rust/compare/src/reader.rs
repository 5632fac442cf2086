// Compares the reader, at every place of a stream and past its end, with a reader of its own; and the records that the
// safe interface hands out. Readers that take a wrong turn have to be found.
use crate::product::{self, Reading};
use crate::streams;
use reckon::stream::{read, Record};
use std::time::Instant;

// What must be handed back at a place.
fn due(stream: &[u8], place: usize) -> Reading {
    if place >= stream.len() {
        return (0, 0, [0; 3], place);
    }
    match read(stream, place) {
        Err(number) => (number, 0, [0; 3], place),
        Ok((Record::Network { nodes, root }, next)) => (0, 1, [nodes, root, 0].map(u32::from), next),
        Ok((Record::Link { start, end, cost }, next)) => (0, 2, [start, end, cost].map(u32::from), next),
        Ok((Record::Change { link, cost }, next)) => (0, 3, [link, cost, 0].map(u32::from), next),
        Ok((Record::Apply, next)) => (0, 4, [0; 3], next),
        Ok((Record::Ask { node }, next)) => (0, 5, [node, 0, 0].map(u32::from), next),
    }
}

type Reader = fn(&[u8], usize) -> Reading;

fn places(stream: &[u8]) -> impl Iterator<Item = usize> {
    (0..stream.len() + 3).chain([usize::MAX - 1, usize::MAX])
}

// The first place at which a reader hands back something else than is due.
fn differs(reader: Reader, stream: &[u8]) -> Option<usize> {
    places(stream).find(|place| reader(stream, *place) != due(stream, *place))
}

fn hold(what: &str, stream: &[u8], right: bool) {
    if !right {
        println!("DIFFERS in the reader, {what} of the stream {stream:?}");
        std::process::exit(1);
    }
}

fn one(stream: &[u8]) -> usize {
    if let Some(place) = differs(product::reading, stream) {
        hold(&format!("place {place}"), stream, false);
    }
    let (mut records, mut place) = (Vec::new(), 0);
    while let (0, 1.., _, next) = due(stream, place) {
        records.push(Ok(read(stream, place).expect("a record").0));
        place = next;
    }
    if place < stream.len() {
        records.push(Err((due(stream, place).0, place)));
    }
    hold("the records", stream, product::records(stream) == records);
    places(stream).count()
}

pub fn compare(from: u64) {
    let began = Instant::now();
    let mut calls = 0;
    for (_, stream) in streams::cuts().iter().chain(&streams::kinds()) {
        calls += one(stream);
    }
    for seed in from..from + 20_000 {
        calls += one(&streams::noise(seed));
    }
    println!("{:<44} {:>22} calls {:>5.1} s", "the reader, at every place", calls, began.elapsed().as_secs_f32());
}

// ---- readers gone wrong

const WRONG: [(&str, Reader); 8] = [
    ("reads the low byte first", |stream, place| {
        let (number, kind, numbers, next) = product::reading(stream, place);
        (number, kind, numbers.map(|number| u32::from((number as u16).swap_bytes())), next)
    }),
    ("takes a body that is one byte short", |stream, place| match product::reading(stream, place) {
        (22, ..) => product::reading(&[stream, &[0]].concat(), place),
        right => right,
    }),
    ("gives 21 for a body cut short", |stream, place| match product::reading(stream, place) {
        (22, kind, numbers, next) => (21, kind, numbers, next),
        right => right,
    }),
    ("goes on behind a refusal", |stream, place| match product::reading(stream, place) {
        (number @ (21 | 22), kind, numbers, next) => (number, kind, numbers, next + 1),
        right => right,
    }),
    ("moves at the end", |stream, place| match product::reading(stream, place) {
        (0, 0, numbers, _) => (0, 0, numbers, stream.len()),
        right => right,
    }),
    ("tells the kind that it refuses", |stream, place| match product::reading(stream, place) {
        (number @ (21 | 22), _, numbers, next) => (number, stream[place], numbers, next),
        right => right,
    }),
    ("leaves an old number behind the body", |stream, place| match product::reading(stream, place) {
        (0, kind @ (4 | 5), numbers, next) => (0, kind, [numbers[0], numbers[1], 9], next),
        right => right,
    }),
    ("takes kind 6 for an APPLY", |stream, place| match product::reading(stream, place) {
        (21, ..) if stream[place] == 6 => (0, 4, [0; 3], place + 1),
        right => right,
    }),
];

pub fn all_found() {
    println!("\nreaders gone wrong, each found by the comparison");
    for (name, reader) in WRONG {
        let mut tried = streams::cuts().into_iter().chain(streams::kinds());
        let Some((which, stream)) = tried.find(|(_, stream)| differs(reader, stream).is_some()) else {
            println!("NOT FOUND: a reader that {name}");
            std::process::exit(1);
        };
        println!("{name:<44} {} bytes, {which}", stream.len());
    }
}
