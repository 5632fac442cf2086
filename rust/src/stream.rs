use crate::{ffi, Change};
use std::fmt;

/// A record of a stream. Its numbers are any that 16 bits hold: the reader judges none of them.
#[derive(Debug, Clone, Copy, PartialEq, Eq)]
#[non_exhaustive]
pub enum Record {
    /// The node count and the root.
    Network {
        /// How many nodes there are.
        nodes: u16,
        /// Where all routes begin.
        root: u16,
    },
    /// A link.
    Link {
        /// The node that it leaves.
        start: u16,
        /// The node that it enters.
        end: u16,
        /// What it costs.
        cost: u16,
    },
    /// A row of the next batch.
    Change(Change),
    /// The batch is to be applied.
    Apply,
    /// A node's row is asked for.
    Ask {
        /// The node.
        node: u16,
    },
}

/// Why no record stands at a place of a stream that isn't its end.
#[derive(Debug, Clone, Copy, PartialEq, Eq, Hash)]
#[non_exhaustive]
pub enum Unreadable {
    /// 21: no record has this kind.
    UnknownKind {
        /// The place of the kind byte.
        place: usize,
    },
    /// 22: the stream ends within the body.
    CutShort {
        /// The place of the kind byte.
        place: usize,
    },
}

impl Unreadable {
    /// The refusal's number, 21 or 22.
    pub fn number(self) -> u16 {
        match self {
            Unreadable::UnknownKind { .. } => 21,
            Unreadable::CutShort { .. } => 22,
        }
    }

    /// The place of the kind byte.
    pub fn place(self) -> usize {
        match self {
            Unreadable::UnknownKind { place } | Unreadable::CutShort { place } => place,
        }
    }
}

impl fmt::Display for Unreadable {
    fn fmt(&self, f: &mut fmt::Formatter<'_>) -> fmt::Result {
        match self {
            Unreadable::UnknownKind { place } => write!(f, "no record has the kind of the byte at {place}"),
            Unreadable::CutShort { place } => write!(f, "the record at {place} is cut short"),
        }
    }
}

impl std::error::Error for Unreadable {}

/// The records of a stream, one after another. It ends at the stream's end, or behind the first refusal.
///
/// ```
/// use routes::{Change, Record, Records, Unreadable};
///
/// let stream = [1, 0, 4, 0, 0, 3, 0, 7, 1, 2, 4, 9, 4];
/// let mut records = Records::new(&stream);
/// assert_eq!(records.next(), Some(Ok(Record::Network { nodes: 4, root: 0 })));
/// assert_eq!(records.place(), 5);
/// assert_eq!(records.next(), Some(Ok(Record::Change(Change { link: 7, cost: 258 }))));
/// assert_eq!(records.next(), Some(Ok(Record::Apply)));
/// assert_eq!(records.next(), Some(Err(Unreadable::UnknownKind { place: 11 })));
/// assert_eq!(records.next(), None);
///
/// // A stream as a whole: its records, or why it is none.
/// let read: Result<Vec<Record>, Unreadable> = Records::new(&[4, 5, 0]).collect();
/// assert_eq!(read, Err(Unreadable::CutShort { place: 1 }));
/// ```
#[derive(Debug, Clone)]
pub struct Records<'a> {
    stream: &'a [u8],
    place: usize,
    refused: bool,
}

impl<'a> Records<'a> {
    /// From the stream's first byte on.
    pub fn new(stream: &'a [u8]) -> Records<'a> {
        Records { stream, place: 0, refused: false }
    }

    /// Where the next record stands. At the end and after a refusal it stands still.
    pub fn place(&self) -> usize {
        self.place
    }
}

impl Iterator for Records<'_> {
    type Item = Result<Record, Unreadable>;

    fn next(&mut self) -> Option<Self::Item> {
        if self.refused {
            return None;
        }
        let place = self.place;
        let read = ffi::read(self.stream, place);
        // A record's numbers have 16 bits; the C function hands them out in 32.
        let [a, b, c] = read.numbers.map(|number| number as u16);
        let record = match (read.number, read.kind) {
            (0, 0) => return None,
            (0, 1) => Ok(Record::Network { nodes: a, root: b }),
            (0, 2) => Ok(Record::Link { start: a, end: b, cost: c }),
            (0, 3) => Ok(Record::Change(Change { link: a, cost: b })),
            (0, 4) => Ok(Record::Apply),
            (0, 5) => Ok(Record::Ask { node: a }),
            (22, _) => Err(Unreadable::CutShort { place }),
            // 21; and a kind that this crate has no name for, which no archive that it was written with gives.
            _ => Err(Unreadable::UnknownKind { place }),
        };
        match record {
            Ok(_) => self.place = read.next,
            Err(_) => self.refused = true,
        }
        Some(record)
    }
}

impl std::iter::FusedIterator for Records<'_> {}
