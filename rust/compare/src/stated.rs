// Streams whose lines can be stated without reckoning: the scope's own, and those at the sizes' ends. What is reckoned
// must be these, and the program must print them too.
use crate::streams::{self, ask, bytes, change, changes, link, pier, scope, stack, stack_and_back, with};
use reckon::stream::{lines, Record};

type Stated = (String, Vec<u8>, String);

// The scope's stream cut at every byte: where each record starts and the next one does, and the line that it prints.
const SCOPE: [(usize, usize, &str); 17] = [
    (0, 5, ""),
    (5, 12, ""),
    (12, 19, ""),
    (19, 26, ""),
    (26, 33, ""),
    (33, 40, ""),
    (40, 47, ""),
    (47, 54, ""),
    (54, 61, ""),
    (61, 64, "N 2 6 3 0\n"),
    (64, 69, ""),
    (69, 74, ""),
    (74, 75, "A 3 1 2 3\n"),
    (75, 80, ""),
    (80, 81, "A 2 2 3\n"),
    (81, 84, "N 3 8 6 1\n"),
    (84, 85, "R 21 84\n"),
];

fn scope_cut(cut: usize) -> String {
    let whole: String = SCOPE.iter().filter(|record| record.1 <= cut).map(|record| record.2).collect();
    let part = SCOPE.iter().find(|record| record.0 < cut && cut < record.1);
    match part {
        _ if cut == 0 => "R 23 0\n".to_string(),
        Some(record) => format!("{whole}R 22 {}\n", record.0),
        None => whole,
    }
}

fn sizes() -> Vec<(&'static str, Vec<Record>, &'static str)> {
    let rows = |rows| with(stack_and_back(301), changes(0..rows));
    vec![
        ("4,096 LINKs", with(stack_and_back(4_096), [ask(1)]), "N 1 9 0 0\n"),
        ("4,097 LINKs", with(stack_and_back(4_097), [ask(1)]), "R 3 28677\n"),
        ("4,097 LINKs, the last wrong", with(stack(2, 3, 4_096), [link(1, 1, 1)]), "R 3 28677\n"),
        (
            "4,096 LINKs, and one behind an ASK",
            with(stack_and_back(4_096), [ask(1), link(0, 1, 1)]),
            "N 1 9 0 0\nR 23 28680\n",
        ),
        ("256 CHANGEs", with(rows(256), [Record::Apply, ask(1)]), "A 1 1\nN 1 5 0 0\n"),
        ("256 CHANGEs, and one of no link", with(rows(256), [change(301, 5)]), "R 7 3392\n"),
        ("256 CHANGEs, and one again", with(rows(256), [change(0, 5)]), "R 7 3392\n"),
        ("255 CHANGEs, and the first again", with(rows(255), [change(0, 5)]), "R 9 3387 2112\n"),
        ("257 CHANGEs", with(rows(257), [Record::Apply]), "R 7 3392\n"),
        (
            "257 CHANGEs, an APPLY among them",
            with(rows(256), [Record::Apply, change(0, 1), Record::Apply]),
            "A 1 1\nA 1 1\n",
        ),
    ]
}

fn chain() -> Stated {
    let records = with(streams::chain(256), (0..256).map(ask));
    let rows = (1..256).map(|node| format!("N {node} {} {} 0\n", node * 65_535, 2 * node - 2));
    ("a chain of 256 nodes".to_string(), bytes(&records), format!("N 0 0 - -\n{}", rows.collect::<String>()))
}

// The same without link 255, the link back from node 128 to the one before it: all from there on are unreached.
fn broken_chain() -> Stated {
    let down = [change(255, 0), Record::Apply];
    let records = with(with(streams::chain(256), down), (0..256).map(ask));
    let lost: String = (128..256).map(|node| format!(" {node}")).collect();
    let rows = (0..256).map(|node| match node {
        0 => "N 0 0 - -\n".to_string(),
        1..=127 => format!("N {node} {} {} 0\n", node * 65_535, 2 * node - 2),
        _ => format!("N {node} 16777215 - -\n"),
    });
    let printed = format!("A 128{lost}\n{}", rows.collect::<String>());
    ("a chain without one link back".to_string(), bytes(&records), printed)
}

// The pier network and so many bytes in all, the rest APPLYs.
fn long(length: usize) -> Vec<u8> {
    let mut stream = bytes(&pier());
    stream.resize(length, 4);
    stream
}

fn all() -> Vec<Stated> {
    let mut all =
        vec![chain(), broken_chain(), ("32,768 bytes".to_string(), long(32_768), "A 0\n".repeat(32_768 - 61))];
    for length in [32_769, 100_000] {
        all.push((format!("{length} bytes"), long(length), "R 24 32768\n".to_string()));
        all.push((format!("{length} bytes of no record"), vec![0; length], "R 24 32768\n".to_string()));
    }
    for cut in 0..=85 {
        all.push((format!("the scope's stream, cut at {cut}"), scope()[..cut].to_vec(), scope_cut(cut)));
    }
    for kind in (0..=255u8).filter(|kind| !(1..=5).contains(kind)) {
        all.push((format!("kind {kind} first"), vec![kind], "R 21 0\n".to_string()));
        all.push((format!("kind {kind}"), [bytes(&pier()), vec![kind, 0]].concat(), "R 21 61\n".to_string()));
    }
    all.extend(sizes().into_iter().map(|(name, records, due)| (name.to_string(), bytes(&records), due.to_string())));
    all
}

// Holds what is reckoned to what is stated, and hands back the streams for the program.
pub fn streams() -> Vec<(String, Vec<u8>)> {
    let hold = |(name, stream, due): Stated| {
        assert!(lines(&stream) == due, "{name}: what is reckoned isn't what is stated");
        (name, stream)
    };
    all().into_iter().map(hold).collect()
}
