// Text to bytes and back: each kind of line, every stream of bytes, and each thing that can be wrong with a line.
use records::{to_bytes, to_text, Stream};

fn bytes(text: &str) -> Vec<u8> {
    to_bytes(text.as_bytes()).unwrap()
}

fn wrong(text: &str) -> String {
    to_bytes(text.as_bytes()).unwrap_err().to_string()
}

#[test]
fn each_record() {
    assert_eq!(bytes("network 4 root 3"), [1, 0, 4, 0, 3]);
    assert_eq!(bytes("link 0 256 65535"), [2, 0, 0, 1, 0, 255, 255]);
    assert_eq!(bytes("change 4095 0"), [3, 15, 255, 0, 0]);
    assert_eq!(bytes("apply"), [4]);
    assert_eq!(bytes("ask 258"), [5, 1, 2]);
    assert_eq!(bytes("bytes 09 ff 0A"), [9, 255, 10]);
}

#[test]
fn what_may_stand_around_a_record() {
    assert_eq!(bytes(""), []);
    assert_eq!(bytes("\n\n# a comment, apply\n \t\n"), []);
    assert_eq!(bytes("  ask\t7 # the seventh\r\napply"), [5, 0, 7, 4]);
    assert_eq!(bytes("ask 0007\n"), [5, 0, 7]);
}

#[test]
fn text_of_records() {
    let text = "network 4 root 0\nlink 0 1 4\nchange 3 5\napply\nask 2\n";
    assert_eq!(to_text(&bytes(text)), text);
    assert_eq!(to_text(&[]), "");
}

#[test]
fn from_where_no_record_stands() {
    assert_eq!(to_text(&[4, 9, 4, 4]), "apply\nbytes 09 04 04\n");
    assert_eq!(to_text(&[4, 2, 0, 0, 0, 1, 0]), "apply\nbytes 02 00 00 00 01 00\n");
    assert_eq!(to_text(&[0; 17]), format!("bytes{}\nbytes 00\n", " 00".repeat(16)));
}

#[test]
fn a_record_cut_at_every_byte() {
    let whole = bytes("network 4 root 0\nlink 0 1 4\nchange 3 5\napply\nask 2\n");
    for cut in 0..whole.len() {
        assert_eq!(bytes(&to_text(&whole[..cut])), whole[..cut]);
    }
}

// The text that a text with `both` comes back as: its LINKs in the order in which they get their numbers.
fn plain(text: &str) -> String {
    to_text(&bytes(text))
}

#[test]
fn a_link_and_its_link_back() {
    assert_eq!(plain("link 0 1 4 both 6"), "link 0 1 4\nlink 1 0 6\n");
    assert_eq!(plain("link 7 3 0 both 65535"), "link 3 7 65535\nlink 7 3 0\n");
    assert_eq!(plain("link 2 2 4 both 6"), "link 2 2 4\nlink 2 2 6\n");
}

// The pier network, whose links have these numbers in the scope.
#[test]
fn links_both_ways_stand_in_the_order_of_their_starts() {
    let pairs = "link 0 1 4 both 4\nlink 0 2 7 both 7\n\n# a comment\nlink 1 2 2 both 2\nlink 2 3 1 both 1\n";
    let links = "link 0 1 4\nlink 0 2 7\nlink 1 0 4\nlink 1 2 2\nlink 2 0 7\nlink 2 1 2\nlink 2 3 1\nlink 3 2 1\n";
    assert_eq!(plain(&format!("network 4 root 0\n{pairs}ask 3\n")), format!("network 4 root 0\n{links}ask 3\n"));
}

// Links of one start stay as they are written, links back among them.
#[test]
fn links_of_one_start_stay_as_they_are_written() {
    assert_eq!(
        plain("link 0 1 1\nlink 0 1 2 both 3\nlink 1 0 4\nlink 1 0 5 both 6\nlink 1 0 7"),
        "link 0 1 1\nlink 0 1 2\nlink 0 1 6\nlink 1 0 3\nlink 1 0 4\nlink 1 0 5\nlink 1 0 7\n"
    );
}

// Only links that follow one another change their order, and only where `both` is among them.
#[test]
fn other_records_stay_where_they_are() {
    let text = "link 2 0 1\nlink 1 0 1\nask 3\n";
    assert_eq!(plain(text), text);
    assert_eq!(plain(&format!("{text}link 0 1 4 both 6\napply")), format!("{text}link 0 1 4\nlink 1 0 6\napply\n"));
    assert_eq!(bytes("link 3 1 4 both 6\nbytes 04\nlink 0 1 1"), bytes("link 1 3 6\nlink 3 1 4\napply\nlink 0 1 1"));
}

#[test]
fn each_link_of_a_pair_has_its_line() {
    let stream =
        Stream::of_text(b"network 3 root 0\nlink 0 1 4 both 6 # there and back\nlink 0 2 7 both 7\nask 2").unwrap();
    let lines = [(1, 0), (2, 5), (3, 12), (2, 19), (3, 26), (4, 33)];
    assert_eq!(stream.lines.iter().map(|line| (line.number, line.place)).collect::<Vec<_>>(), lines);
    let line = stream.line_at(20).unwrap();
    assert_eq!((line.number, line.said.as_str()), (2, "link 0 1 4 both 6"));
}

#[test]
fn both_without_its_cost() {
    let due = "line 1: `both` stands between a link's cost and that of its link back, as in `link 0 1 4 both 6`";
    for text in ["link both", "link 0 1 both 6", "link 0 1 4 both", "link 0 1 4 both 6 7", "link both 0 1 4 6"] {
        assert_eq!(wrong(text), due);
    }
    assert_eq!(wrong("link 0 1 4 both x"), "line 1: x is no number from 0 to 65535");
    assert_eq!(wrong("link 0 1 4 6"), "line 1: `link` takes start, end and cost: 4 numbers given");
    assert_eq!(wrong("change 3 both 5"), "line 1: both is no number from 0 to 65535");
}

// A start that falls is left to the program to refuse, but where links back have to find their places.
#[test]
fn both_with_a_start_that_falls() {
    let due = "line 4: its start is below that of line 2: where `both` is used, starts never fall from line to line";
    assert_eq!(wrong("network 4 root 0\nlink 2 3 1 both 1\n\nlink 1 3 1\nlink 0 1 1"), due);
    assert_eq!(wrong("network 4 root 0\nlink 2 3 1\n\nlink 1 3 1 both 1"), due);
    assert_eq!(plain("link 1 3 1 both 1\nlink 2 0 1 both 1"), "link 0 2 1\nlink 1 3 1\nlink 2 0 1\nlink 3 1 1\n");
}

// Splitmix: the same numbers from the same seed, everywhere.
fn next(state: &mut u64) -> u64 {
    *state = state.wrapping_add(0x9E37_79B9_7F4A_7C15);
    let mut z = *state;
    z = (z ^ (z >> 30)).wrapping_mul(0xBF58_476D_1CE4_E5B9);
    z = (z ^ (z >> 27)).wrapping_mul(0x94D0_49BB_1331_11EB);
    z ^ (z >> 31)
}

#[test]
fn every_stream_of_bytes_comes_back() {
    for first in 0..=255 {
        for second in 0..=255 {
            assert_eq!(bytes(&to_text(&[first, second])), [first, second]);
        }
    }
    let mut state = 1;
    for round in 0..20_000 {
        // Every other stream is mostly kinds, so that it goes on for some records.
        let most = if round % 2 == 0 { 256 } else { 6 };
        let length = next(&mut state) % 64;
        let stream: Vec<u8> = (0..length).map(|_| (next(&mut state) % most) as u8).collect();
        assert_eq!(bytes(&to_text(&stream)), stream);
    }
}

#[test]
fn too_few_or_too_many_numbers() {
    assert_eq!(wrong("\n\nlink 0 1"), "line 3: `link` takes start, end and cost: 2 numbers given");
    assert_eq!(wrong("link 0 1 2 3"), "line 1: `link` takes start, end and cost: 4 numbers given");
    assert_eq!(wrong("change 7"), "line 1: `change` takes link and new cost: 1 number given");
    assert_eq!(wrong("ask"), "line 1: `ask` takes a node: none given");
    assert_eq!(wrong("ask 1 2"), "line 1: `ask` takes a node: 2 numbers given");
    assert_eq!(wrong("apply 1"), "line 1: `apply` takes no numbers: 1 number given");
}

#[test]
fn network_without_its_root() {
    let due = "line 1: `network` takes a node count and a root, as in `network 4 root 0`";
    for text in ["network", "network 4", "network 4 0", "network 4 root", "network 4 at 0", "network 4 root 0 0"] {
        assert_eq!(wrong(text), due);
    }
}

#[test]
fn what_is_no_number() {
    assert_eq!(wrong("apply\nask 65535\napply\nask 70000"), "line 4: 70000 is no number from 0 to 65535");
    for word in ["65536", "-1", "+1", "1.5", "0x10", "one", "99999999999999999999"] {
        assert_eq!(wrong(&format!("ask {word}")), format!("line 1: {word} is no number from 0 to 65535"));
    }
    assert_eq!(wrong("network 4 root x"), "line 1: x is no number from 0 to 65535");
}

#[test]
fn what_is_no_byte() {
    assert_eq!(wrong("bytes"), "line 1: `bytes` takes one byte or more, as in `bytes 09 ff`");
    for word in ["9", "100", "0x9", "+9", "gg", "é"] {
        assert_eq!(wrong(&format!("bytes 00 {word}")), format!("line 1: {word} is no byte of two hexadecimal digits"));
    }
}

#[test]
fn what_is_no_line() {
    assert_eq!(wrong("ask 1\nlnik 0 1 4"), "line 2: `lnik` is none of network, link, change, apply, ask and bytes");
    assert_eq!(wrong("ASK 1"), "line 1: `ASK` is none of network, link, change, apply, ask and bytes");
    let told = to_bytes(b"apply\n\xff\xfe\n").unwrap_err();
    assert_eq!(told.to_string(), "line 2: these bytes are no text (UTF-8)");
}
