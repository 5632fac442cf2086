// Making streams: from seeds, and those at each edge of the scope's words.
use crate::case::Case;
use crate::make::{self, shuffle, Dice, Prices};
use reckon::stream::{Record, MOST_BYTES};

pub fn bytes(records: &[Record]) -> Vec<u8> {
    records.iter().flat_map(|record| record.bytes()).collect()
}

pub fn network(nodes: u16, root: u16) -> Record {
    Record::Network { nodes, root }
}

pub fn link(start: u16, end: u16, cost: u16) -> Record {
    Record::Link { start, end, cost }
}

pub fn change(link: u16, cost: u16) -> Record {
    Record::Change { link, cost }
}

pub fn ask(node: u16) -> Record {
    Record::Ask { node }
}

// ---- from seeds

// A whole stream that is never refused: a network, then batches, some applied, with ASKs among them.
pub fn whole(seed: u64) -> Vec<Record> {
    let mut dice = Dice::new(seed);
    let prices = Prices::any(&mut dice);
    let shape = dice.pick(&[0, 0, 0, 0, 0, 0, 5, 5, 5, 6, 6, 1, 2, 3, 4, 7]);
    let case = make::network(&mut dice, shape, prices);
    let mut records = vec![network(case.nodes as u16, case.root as u16)];
    records.extend((0..case.starts.len()).map(|k| link(case.starts[k], case.ends[k], case.costs[k])));
    let mut named = Vec::new();
    for _ in 0..dice.below(9) {
        match dice.below(5) {
            0 => {
                records.push(Record::Apply);
                named.clear();
            }
            1 | 2 => rows(&mut dice, prices, &case, &mut named, &mut records),
            _ => {
                rows(&mut dice, prices, &case, &mut named, &mut records);
                records.push(Record::Apply);
                named.clear();
                asks(&mut dice, case.nodes, &mut records);
            }
        }
        if dice.one_in(3) {
            asks(&mut dice, case.nodes, &mut records);
        }
    }
    while bytes(&records).len() > MOST_BYTES {
        records.pop();
    }
    records
}

// CHANGEs of links that no row has named since the last APPLY, at times of a link and its links back.
fn rows(dice: &mut Dice, prices: Prices, case: &Case, named: &mut Vec<u16>, records: &mut Vec<Record>) {
    let mut free: Vec<u16> = (0..case.starts.len() as u16).collect();
    shuffle(dice, &mut free);
    if dice.one_in(2) {
        make::with_links_back(dice, case, &mut free);
    }
    free.retain(|link| !named.contains(link));
    let most = free.len().min(256 - named.len());
    let count = if dice.one_in(8) { most } else { most.min(dice.from(1, 4)) };
    for link in free.into_iter().take(count) {
        records.push(change(link, prices.draw(dice)));
        named.push(link);
    }
}

// ASKs of every node of a small network, of some of a large one.
fn asks(dice: &mut Dice, nodes: usize, records: &mut Vec<Record>) {
    if nodes <= 8 {
        records.extend((0..nodes as u16).map(ask));
        return;
    }
    for _ in 0..dice.from(1, 6) {
        records.push(ask(dice.below(nodes) as u16));
    }
}

fn odd(dice: &mut Dice) -> u16 {
    match dice.below(3) {
        0 => dice.pick(&[0, 1, 255, 256, 257, 4_095, 4_096, 65_535]),
        _ => dice.below(9) as u16,
    }
}

// A record of any kind with any numbers.
fn any(dice: &mut Dice) -> Record {
    match dice.below(5) {
        0 => network(odd(dice), odd(dice)),
        1 => link(odd(dice), odd(dice), odd(dice)),
        2 => change(odd(dice), odd(dice)),
        3 => Record::Apply,
        _ => ask(odd(dice)),
    }
}

// The record with another number in a place.
fn other_number(dice: &mut Dice, record: Record) -> Record {
    let number = odd(dice);
    let at = dice.below(3);
    match (record, at) {
        (Record::Network { root, .. }, 0 | 2) => network(number, root),
        (Record::Network { nodes, .. }, _) => network(nodes, number),
        (Record::Link { end, cost, .. }, 0) => link(number, end, cost),
        (Record::Link { start, cost, .. }, 1) => link(start, number, cost),
        (Record::Link { start, end, .. }, _) => link(start, end, number),
        (Record::Change { cost, .. }, 0 | 2) => change(number, cost),
        (Record::Change { link, .. }, _) => change(link, number),
        (Record::Apply, _) => Record::Apply,
        (Record::Ask { .. }, _) => ask(number),
    }
}

// Records that are whole, some of them wrong or out of place.
pub fn faulty(seed: u64) -> Vec<Record> {
    let mut records = whole(seed);
    let mut dice = Dice::new(!seed);
    for _ in 0..dice.from(1, 3) {
        let place = dice.below(records.len().max(1));
        let other = dice.below(records.len().max(1));
        match dice.below(7) {
            0 | 1 if !records.is_empty() => records[place] = other_number(&mut dice, records[place]),
            2 if !records.is_empty() => {
                records.remove(place);
            }
            3 if !records.is_empty() => records.insert(other, records[place]),
            4 if !records.is_empty() => records.swap(place, other),
            5 => records.truncate(place),
            _ => records.insert(place.min(records.len()), any(&mut dice)),
        }
    }
    records
}

// Bytes flipped, inserted and deleted.
pub fn damaged(seed: u64) -> Vec<u8> {
    let mut stream = bytes(&whole(seed));
    let mut dice = Dice::new(!seed);
    for _ in 0..dice.from(1, 4) {
        let place = dice.below(stream.len().max(1));
        let byte = if dice.one_in(2) { dice.below(8) as u8 } else { dice.below(256) as u8 };
        match dice.below(4) {
            0 if !stream.is_empty() => stream[place] ^= 1 << dice.below(8),
            1 if !stream.is_empty() => stream[place] = byte,
            2 if !stream.is_empty() => {
                stream.remove(place);
            }
            _ => stream.insert(place.min(stream.len()), byte),
        }
    }
    stream
}

// Cut at any byte, at times with a few bytes behind the cut.
pub fn cut(seed: u64) -> Vec<u8> {
    let mut dice = Dice::new(!seed);
    let mut stream = bytes(&if dice.one_in(2) { whole(seed) } else { faulty(seed) });
    stream.truncate(dice.below(stream.len() + 1));
    for _ in 0..dice.below(4) {
        stream.push(dice.below(7) as u8);
    }
    stream
}

// Records of any kind with any numbers behind a NETWORK, and bytes of any kind.
pub fn noise(seed: u64) -> Vec<u8> {
    let mut dice = Dice::new(seed);
    let mut stream = Vec::new();
    if !dice.one_in(4) {
        let nodes = dice.from(1, 6) as u16;
        stream.extend(network(nodes, dice.below(nodes as usize) as u16).bytes());
    }
    for _ in 0..dice.below(24) {
        match dice.below(8) {
            0 => stream.push(dice.below(256) as u8),
            1 => stream.push(dice.below(8) as u8),
            _ => stream.extend(any(&mut dice).bytes()),
        }
    }
    stream
}

// ---- at the edges

pub fn pier() -> Vec<Record> {
    let links = [(0, 1, 4), (0, 2, 7), (1, 0, 4), (1, 2, 2), (2, 0, 7), (2, 1, 2), (2, 3, 1), (3, 2, 1)];
    let mut records = vec![network(4, 0)];
    records.extend(links.map(|(start, end, cost)| link(start, end, cost)));
    records
}

// The scope's own stream of 85 bytes.
pub fn scope() -> Vec<u8> {
    let mut records = pier();
    records.extend([ask(2), change(3, 5), change(0, 2), Record::Apply, change(3, 6), Record::Apply, ask(3)]);
    let mut stream = bytes(&records);
    stream.push(9);
    stream
}

// So many links from one node to another.
pub fn stack(start: u16, end: u16, links: usize) -> Vec<Record> {
    let mut records = vec![network(4, 0)];
    records.extend((0..links).map(|k| link(start, end, 9 + k as u16 % 7)));
    records
}

// So many links, the last of them from node 1 to node 0: the link back of all others.
pub fn stack_and_back(links: usize) -> Vec<Record> {
    with(stack(0, 1, links - 1), [link(1, 0, 9)])
}

// The nodes in a row, with links both ways at the dearest cost: the link to a node from the one before it is 2 * node - 2.
pub fn chain(nodes: u16) -> Vec<Record> {
    let mut records = vec![network(nodes, 0)];
    for node in 0..256u16 {
        records.extend(node.checked_sub(1).map(|before| link(node, before, 65_535)));
        records.extend((node < 255).then(|| link(node, node + 1, 65_535)));
    }
    records
}

pub fn with(mut records: Vec<Record>, more: impl IntoIterator<Item = Record>) -> Vec<Record> {
    records.extend(more);
    records
}

pub fn changes(links: std::ops::Range<u16>) -> impl Iterator<Item = Record> {
    links.map(|link| change(link, 5))
}

// What may have been read when the next record comes.
fn situations() -> Vec<(&'static str, Vec<Record>)> {
    let many = || stack_and_back(301);
    vec![
        ("nothing", vec![]),
        ("NETWORK", vec![network(4, 0)]),
        ("NETWORK of one node", vec![network(1, 0)]),
        ("NETWORK of 256 nodes", vec![network(256, 255)]),
        ("a LINK from 2", vec![network(4, 0), link(2, 3, 1)]),
        ("4,095 LINKs from 2", stack(2, 3, 4_095)),
        ("4,096 LINKs from 2", stack(2, 3, 4_096)),
        ("the pier network", pier()),
        ("an ASK", with(pier(), [ask(3)])),
        ("an APPLY", with(pier(), [Record::Apply])),
        ("a row", with(pier(), [change(3, 5)])),
        ("a row and APPLY", with(pier(), [change(3, 5), Record::Apply])),
        ("255 rows", with(many(), changes(0..255))),
        ("256 rows", with(many(), changes(0..256))),
        ("256 rows and APPLY", with(with(many(), changes(0..256)), [Record::Apply])),
    ]
}

// Whole records, each near what its kind can be refused for, and with a later refusal applying as well.
fn next_records() -> Vec<Record> {
    let ends = [0, 1, 2, 3, 4, 255, 256, 65_535];
    let mut records = vec![Record::Apply];
    for nodes in [0u16, 1, 4, 256, 257, 65_535] {
        for root in [0, nodes.wrapping_sub(1), nodes, 65_535] {
            records.push(network(nodes, root));
        }
    }
    for start in ends {
        records.extend(ends.map(|end| link(start, end, 1)));
    }
    records.push(link(2, 3, 0));
    records.push(link(2, 3, 65_535));
    records.extend([0, 3, 7, 8, 254, 255, 256, 299, 300, 301, 4_094, 4_095, 4_096, 65_535].map(|link| change(link, 6)));
    records.extend([0, 1, 3, 4, 255, 256, 257, 65_535].map(ask));
    records
}

// Bytes that are no whole record: unknown kinds, and each kind cut at each byte.
fn no_records() -> Vec<Vec<u8>> {
    let mut ends = vec![vec![]];
    for kind in [0, 6, 7, 255] {
        ends.push(vec![kind]);
        ends.push([&[kind], [1; 8].as_slice()].concat());
    }
    for record in [network(4, 0), link(2, 3, 1), change(3, 6), ask(3)] {
        let whole = record.bytes();
        ends.extend((1..whole.len()).map(|cut| whole[..cut].to_vec()));
    }
    ends
}

type Named = (String, Vec<u8>);

// Each situation with each next record, and two ASKs that show whether the program goes on.
pub fn refusals() -> Vec<Named> {
    let mut all = Vec::new();
    for (name, records) in situations() {
        for record in next_records() {
            all.push((format!("{name}, then {record:?}"), bytes(&with(records.clone(), [record, ask(0), ask(3)]))));
        }
        for end in no_records() {
            all.push((format!("{name}, then the bytes {end:?}"), [bytes(&records), end].concat()));
        }
    }
    all
}

// Each kind byte, where each may stand.
pub fn kinds() -> Vec<Named> {
    let places = [vec![], vec![network(4, 0)], pier(), with(pier(), [ask(2)]), with(pier(), [change(1, 5)])];
    let mut all = Vec::new();
    for kind in 0..=255 {
        for records in &places {
            let stream = [bytes(records), vec![kind]].concat();
            all.push((format!("kind {kind} after {} records", records.len()), stream.clone()));
            let stream = [stream, [0, 1].repeat(4)].concat();
            all.push((format!("kind {kind} and 8 bytes after {} records", records.len()), stream));
        }
    }
    all
}

// Whole streams cut at every byte.
pub fn cuts() -> Vec<Named> {
    let small = bytes(&[
        network(2, 1),
        link(0, 1, 700),
        link(1, 0, 300),
        ask(0),
        change(1, 2),
        Record::Apply,
        ask(0),
        change(0, 0),
        Record::Apply,
        ask(0),
        ask(1),
    ]);
    let mut all = Vec::new();
    for stream in [scope(), small] {
        all.extend((0..=stream.len()).map(|cut| (format!("cut at {cut}"), stream[..cut].to_vec())));
    }
    all
}

// The sizes' ends.
pub fn sizes() -> Vec<Named> {
    let mut all = Vec::new();
    let mut add = |name: String, stream: Vec<u8>| all.push((name, stream));
    for nodes in [0, 1, 255, 256, 257, 65_535] {
        let asked = [0, 254, 255, 256].map(ask);
        add(format!("{nodes} nodes"), bytes(&with(vec![network(nodes, 0)], asked)));
        add(format!("a chain on {nodes} nodes"), bytes(&with(chain(nodes), (0..256).map(ask))));
    }
    for links in [4_095, 4_096, 4_097] {
        let asked = [Record::Apply, ask(1)];
        add(format!("{links} LINKs"), bytes(&with(stack_and_back(links), asked)));
        let last = [change(4_094, 1), change(4_095, 2), change(4_096, 3), Record::Apply, ask(1)];
        add(format!("{links} LINKs, the last changed"), bytes(&with(stack_and_back(links), last)));
    }
    for rows in [255, 256, 257] {
        let again = || with(stack_and_back(301), changes(0..rows));
        add(format!("{rows} rows"), bytes(&with(again(), [Record::Apply, ask(1)])));
        add(format!("{rows} rows left"), bytes(&with(again(), [ask(1)])));
        let twice = with(with(again(), [Record::Apply]), changes(0..rows));
        add(format!("{rows} rows twice"), bytes(&with(twice, [Record::Apply, ask(1)])));
    }
    for length in [32_767, 32_768, 32_769, 65_536, 100_000] {
        for (name, filler) in [("APPLYs", vec![4]), ("ASKs", ask(3).bytes()), ("zeros", vec![0]), ("NETWORKs", vec![1])]
        {
            let mut stream = bytes(&pier());
            while stream.len() < length {
                stream.extend(&filler);
            }
            stream.truncate(length);
            add(format!("{length} bytes, filled with {name}"), stream);
        }
    }
    all
}

// Streams that print far more than they have bytes: every node but the root changes at each APPLY. So many ASKs come
// first that a part of the output may end anywhere in a line.
pub fn long_lines() -> Vec<Named> {
    let mut hub = vec![network(256, 0), link(0, 1, 1), link(1, 0, 1)];
    hub.extend((2..256).map(|end| link(1, end, 1)));
    hub.extend((2..256).map(|start| link(start, 1, 1)));
    let batches = |count: usize| (0..count).flat_map(|at| [change(0, 2 + at as u16 % 7), Record::Apply]);
    let mut all = Vec::new();
    for asks in 0..40 {
        let asked = (0..asks).map(|at| ask(if at % 3 == 0 { 0 } else { 255 }));
        let records = with(with(hub.clone(), asked), batches(80));
        all.push((format!("{asks} ASKs, then 80 batches"), bytes(&with(records, [ask(255)]))));
    }
    let rest = (MOST_BYTES - bytes(&hub).len()) / 6;
    all.push(("as many batches as there is room for".to_string(), bytes(&with(hub, batches(rest)))));
    all
}
