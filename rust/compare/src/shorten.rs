// The smallest stream found that still differs: records are left out, then bytes, then bytes are made smaller.
use front::program::Program;
use reckon::stream::{lines, read};
use std::ops::Range;
use std::time::{Duration, Instant};

pub fn smallest(program: &dyn Program, stream: &[u8], time: Duration) -> Vec<u8> {
    let search = Search { program, until: Instant::now() + time };
    let mut best = stream.to_vec();
    loop {
        let small = search.lowered(search.fewer(search.fewer(best.clone(), false), true));
        if small == best {
            return best;
        }
        best = small;
    }
}

struct Search<'a> {
    program: &'a dyn Program,
    until: Instant,
}

impl Search<'_> {
    fn over(&self) -> bool {
        Instant::now() > self.until
    }

    fn differs(&self, stream: &[u8]) -> bool {
        self.program.run(stream) != lines(stream)
    }

    // Parts left out, many at a time and at last one by one.
    fn fewer(&self, stream: Vec<u8>, single: bool) -> Vec<u8> {
        let mut parts = parts(&stream, single);
        let mut size = parts.len();
        while size > 0 {
            let mut from = 0;
            while from < parts.len() && !self.over() {
                let to = (from + size).min(parts.len());
                let rest = [&parts[..from], &parts[to..]].concat();
                if self.differs(&joined(&stream, &rest)) {
                    parts = rest;
                } else {
                    from = to;
                }
            }
            size /= 2;
        }
        joined(&stream, &parts)
    }

    fn lowered(&self, mut stream: Vec<u8>) -> Vec<u8> {
        for place in 0..stream.len() {
            let byte = stream[place];
            for lower in [0, byte / 2, byte.saturating_sub(1)] {
                if lower == byte || self.over() {
                    break;
                }
                stream[place] = lower;
                if self.differs(&stream) {
                    break;
                }
                stream[place] = byte;
            }
        }
        stream
    }
}

// Where the parts stand that may be left out: bytes, or records and behind them bytes.
fn parts(stream: &[u8], single: bool) -> Vec<Range<usize>> {
    let (mut parts, mut place) = (Vec::new(), 0);
    while place < stream.len() {
        let next = match read(stream, place) {
            Ok((_, next)) if !single => next,
            _ => place + 1,
        };
        parts.push(place..next);
        place = next;
    }
    parts
}

fn joined(stream: &[u8], parts: &[Range<usize>]) -> Vec<u8> {
    parts.iter().flat_map(|part| &stream[part.clone()]).copied().collect()
}
