//! A record stream as text, and back: the bytes that the program `routes` reads, in a form that people can write.
//!
//! A line is a record, or two with `both`; what follows a `#` is a comment, and a line may be empty. Numbers are decimal, from 0 to 65535.
//!
//! | Line | Record |
//! |---|---|
//! | `network 4 root 0` | NETWORK: node count, root |
//! | `link 0 1 4` | LINK: start, end, cost |
//! | `link 0 1 4 both 6` | two LINKs: from 0 to 1 at 4, and the link back, from 1 to 0, at 6 |
//! | `change 3 5` | CHANGE: link, new cost |
//! | `apply` | APPLY |
//! | `ask 2` | ASK: node |
//! | `bytes 09 ff` | no record: these bytes as they are, two hexadecimal digits each |
//!
//! A stream's LINKs stand in the order of their starts. So where link lines that follow one another have a `both` among them,
//! their LINKs are put in that order, and those of one start in the order in which they are written; a link's number is its
//! place then. The lines themselves have to be written in the order of their starts.
//!
//! ```
//! let pairs = records::to_bytes(b"link 0 1 4 both 6\nlink 0 2 7 both 7\nlink 1 2 2 both 3\n").unwrap();
//! let due = "link 0 1 4\nlink 0 2 7\nlink 1 0 6\nlink 1 2 2\nlink 2 0 7\nlink 2 1 3\n";
//! assert_eq!(records::to_text(&pairs), due);
//!
//! let stream = records::to_bytes(b"network 1 root 0  # an island alone\nask 0\nbytes 09\n").unwrap();
//! assert_eq!(stream, [1, 0, 1, 0, 0, 5, 0, 0, 9]);
//! assert_eq!(records::to_text(&stream), "network 1 root 0\nask 0\nbytes 09\n");
//!
//! let wrong = records::to_bytes(b"network 4 root 0\nlink 0 1\n").unwrap_err();
//! assert_eq!(wrong.to_string(), "line 2: `link` takes start, end and cost: 2 numbers given");
//! ```
#![forbid(unsafe_code)]

use std::fmt;

/// Why a text is no stream: what is wrong, and on which line, counted from 1.
#[derive(Debug, Clone, PartialEq, Eq)]
pub struct Wrong {
    /// The line.
    pub line: usize,
    /// What is wrong with it.
    pub what: String,
}

impl fmt::Display for Wrong {
    fn fmt(&self, f: &mut fmt::Formatter<'_>) -> fmt::Result {
        write!(f, "line {}: {}", self.line, self.what)
    }
}

impl std::error::Error for Wrong {}

// A record's word, its kind byte, and how its numbers are called.
const KINDS: [(&str, u8, &[&str]); 5] = [
    ("network", 1, &["node count", "root"]),
    ("link", 2, &["start", "end", "cost"]),
    ("change", 3, &["link", "new cost"]),
    ("apply", 4, &[]),
    ("ask", 5, &["node"]),
];

/// A line of a text, and some bytes of the stream that it stands for: those of a record, or of a `bytes` line.
#[derive(Debug, Clone, PartialEq, Eq)]
pub struct Line {
    /// Which line of the text it is, counted from 1.
    pub number: usize,
    /// Where these bytes begin in the stream.
    pub place: usize,
    /// What it says, without its comment.
    pub said: String,
}

/// A stream that was written as text: its bytes, and the line that each of them was written on.
///
/// ```
/// let stream = records::Stream::of_text(b"network 1 root 0\n\nask 0 # the island\n").unwrap();
/// assert_eq!(stream.bytes, [1, 0, 1, 0, 0, 5, 0, 0]);
/// let line = stream.line_at(5).unwrap();
/// assert_eq!((line.number, line.place, line.said.as_str()), (3, 5, "ask 0"));
/// ```
#[derive(Debug, Clone, PartialEq, Eq, Default)]
pub struct Stream {
    /// The bytes.
    pub bytes: Vec<u8>,
    /// The lines that stand for some, in the order of these; a line with `both` is there twice, once for each link.
    pub lines: Vec<Line>,
}

impl Stream {
    /// The stream that a text stands for.
    pub fn of_text(text: &[u8]) -> Result<Stream, Wrong> {
        let mut pieces = Vec::new();
        for (line, number) in text.split(|byte| *byte == b'\n').zip(1..) {
            let wrong = |what| Wrong { line: number, what };
            let said = said(line).map_err(wrong)?;
            let records = records_of(said).map_err(wrong)?;
            pieces.extend(records.into_iter().map(|record| Piece { number, said, record }));
        }
        put_in_order(&mut pieces)?;
        let mut stream = Stream::default();
        for Piece { number, said, record } in pieces {
            stream.lines.push(Line { number, place: stream.bytes.len(), said: said.to_string() });
            stream.bytes.extend(record.bytes);
        }
        Ok(stream)
    }

    /// The line that the byte at a place was written on.
    pub fn line_at(&self, place: usize) -> Option<&Line> {
        self.lines.iter().rev().find(|line| line.place <= place).filter(|_| place < self.bytes.len())
    }
}

/// The bytes that a text stands for.
pub fn to_bytes(text: &[u8]) -> Result<Vec<u8>, Wrong> {
    Stream::of_text(text).map(|stream| stream.bytes)
}

// What a line says, without its comment and the spaces around it.
fn said(line: &[u8]) -> Result<&str, String> {
    let line = std::str::from_utf8(line).map_err(|_| "these bytes are no text (UTF-8)".to_string())?;
    Ok(line.split('#').next().unwrap_or("").trim())
}

// The bytes of a record, or of a `bytes` line.
struct Record {
    bytes: Vec<u8>,
    link: Option<Link>,
}

// The start of a LINK, and whether it is written as the link back of another.
#[derive(Clone, Copy)]
struct Link {
    start: u16,
    is_back: bool,
}

// A record with the line that it is written on.
struct Piece<'a> {
    number: usize,
    said: &'a str,
    record: Record,
}

// What a line stands for: nothing, a record, or two.
fn records_of(said: &str) -> Result<Vec<Record>, String> {
    let mut words = said.split_whitespace();
    let Some(word) = words.next() else {
        return Ok(Vec::new());
    };
    let rest: Vec<&str> = words.collect();
    if word == "bytes" {
        return Ok(vec![Record { bytes: bytes_of(&rest)?, link: None }]);
    }
    let Some((_, kind, names)) = KINDS.into_iter().find(|of| of.0 == word) else {
        return Err(format!("`{word}` is none of network, link, change, apply, ask and bytes"));
    };
    if word == "link" && rest.contains(&"both") {
        return link_and_back(kind, &rest);
    }
    let numbers = numbers_in(word, names, &rest)?;
    let link = (word == "link").then(|| Link { start: numbers[0], is_back: false });
    Ok(vec![record(kind, &numbers, link)])
}

fn record(kind: u8, numbers: &[u16], link: Option<Link>) -> Record {
    let body = numbers.iter().flat_map(|number| number.to_be_bytes());
    Record { bytes: std::iter::once(kind).chain(body).collect(), link }
}

// The two LINKs of a line with `both`.
fn link_and_back(kind: u8, words: &[&str]) -> Result<Vec<Record>, String> {
    let [start, end, cost, "both", back] = words else {
        return Err(
            "`both` stands between a link's cost and that of its link back, as in `link 0 1 4 both 6`".to_string()
        );
    };
    let [start, end, cost, back] = [number(start)?, number(end)?, number(cost)?, number(back)?];
    let link = |start: u16, is_back: bool| Some(Link { start, is_back });
    Ok(vec![record(kind, &[start, end, cost], link(start, false)), record(kind, &[end, start, back], link(end, true))])
}

// Puts LINKs that follow one another in the order of their starts, where links back are among them.
fn put_in_order(pieces: &mut [Piece]) -> Result<(), Wrong> {
    let is_link = |piece: &Piece| piece.record.link.is_some();
    for links in pieces.chunk_by_mut(|one, next| is_link(one) && is_link(next)) {
        if links.iter().any(is_back) {
            in_order_as_written(links)?;
            links.sort_by_key(start);
        }
    }
    Ok(())
}

fn is_back(piece: &Piece) -> bool {
    piece.record.link.is_some_and(|link| link.is_back)
}

fn start(piece: &Piece) -> Option<u16> {
    piece.record.link.map(|link| link.start)
}

// A link that is written with a start below the one before it has no place among links back.
fn in_order_as_written(links: &[Piece]) -> Result<(), Wrong> {
    let written: Vec<&Piece> = links.iter().filter(|piece| !is_back(piece)).collect();
    match written.windows(2).find(|two| start(two[1]) < start(two[0])) {
        None => Ok(()),
        Some(two) => {
            let before = two[0].number;
            let what = format!(
                "its start is below that of line {before}: where `both` is used, starts never fall from line to line"
            );
            Err(Wrong { line: two[1].number, what })
        }
    }
}

// The numbers of a record, as many as it takes. Between the two of `network` stands the word `root`.
fn numbers_in(word: &str, names: &[&str], rest: &[&str]) -> Result<Vec<u16>, String> {
    let mut given = rest.to_vec();
    if word == "network" {
        if given.len() != 3 || given[1] != "root" {
            return Err("`network` takes a node count and a root, as in `network 4 root 0`".to_string());
        }
        given.remove(1);
    }
    let numbers = given.iter().map(|digits| number(digits)).collect::<Result<Vec<u16>, String>>()?;
    if numbers.len() == names.len() {
        return Ok(numbers);
    }
    let count = match numbers.len() {
        0 => "none given".to_string(),
        1 => "1 number given".to_string(),
        n => format!("{n} numbers given"),
    };
    Err(format!("`{word}` takes {}: {count}", listed(names)))
}

fn listed(names: &[&str]) -> String {
    match names {
        [] => "no numbers".to_string(),
        [one] => format!("a {one}"),
        [most @ .., last] => format!("{} and {last}", most.join(", ")),
    }
}

fn number(digits: &str) -> Result<u16, String> {
    let plain = digits.bytes().all(|digit| digit.is_ascii_digit());
    let number = if plain { digits.parse().ok() } else { None };
    number.ok_or_else(|| format!("{digits} is no number from 0 to 65535"))
}

fn bytes_of(words: &[&str]) -> Result<Vec<u8>, String> {
    if words.is_empty() {
        return Err("`bytes` takes one byte or more, as in `bytes 09 ff`".to_string());
    }
    words.iter().map(|word| byte(word)).collect()
}

fn byte(word: &str) -> Result<u8, String> {
    let digits = word.len() == 2 && word.bytes().all(|digit| digit.is_ascii_hexdigit());
    let byte = if digits { u8::from_str_radix(word, 16).ok() } else { None };
    byte.ok_or_else(|| format!("{word} is no byte of two hexadecimal digits"))
}

/// A text that stands for the bytes: a line for each record, and `bytes` from where no whole record stands.
pub fn to_text(stream: &[u8]) -> String {
    let mut text = String::new();
    let mut rest = stream;
    while let Some((line, behind)) = record_line(rest) {
        text.push_str(&line);
        rest = behind;
    }
    for some in rest.chunks(16) {
        text.push_str("bytes");
        some.iter().for_each(|byte| text.push_str(&format!(" {byte:02x}")));
        text.push('\n');
    }
    text
}

// The line of the record that the bytes start with, if a whole one does, and the bytes behind it.
fn record_line(bytes: &[u8]) -> Option<(String, &[u8])> {
    let (kind, behind) = bytes.split_first()?;
    let (word, _, names) = KINDS.into_iter().find(|of| of.1 == *kind)?;
    if behind.len() < 2 * names.len() {
        return None;
    }
    let (body, behind) = behind.split_at(2 * names.len());
    let mut line = word.to_string();
    for (pair, place) in body.chunks(2).zip(0..) {
        let root = if word == "network" && place == 1 { " root" } else { "" };
        line.push_str(&format!("{root} {}", u16::from_be_bytes([pair[0], pair[1]])));
    }
    line.push('\n');
    Some((line, behind))
}
