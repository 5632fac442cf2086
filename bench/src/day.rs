//! A day's stream for the program: a network's links, then batches, mostly of one row, with a question now and then, as
//! many as a stream may hold.
use crate::made::{self, Dice, Kind};
use crate::plain::Plain;
use routes::{Change, Network, NODES};

const MOST_BYTES: usize = 32_768;

fn record(stream: &mut Vec<u8>, kind: u8, body: &[u16]) {
    stream.push(kind);
    stream.extend(body.iter().flat_map(|number| number.to_be_bytes()));
}

// The network and its links.
fn opening(net: &Network) -> Vec<u8> {
    let mut stream = Vec::with_capacity(MOST_BYTES);
    record(&mut stream, 1, &[net.nodes as u16, net.root as u16]);
    for ((start, end), cost) in net.starts.iter().zip(&net.ends).zip(&net.costs) {
        record(&mut stream, 2, &[*start, *end, *cost]);
    }
    stream
}

fn batch_record(batch: &[Change]) -> Vec<u8> {
    let mut bytes = Vec::new();
    batch.iter().for_each(|row| record(&mut bytes, 3, &[row.link, row.cost]));
    record(&mut bytes, 4, &[]);
    bytes
}

/// One batch in sixteen has 32 rows; the others raise or lower a link of the tree as it was in the morning, and the next
/// one puts it back.
pub fn stream(net: &Network, seed: u64) -> Vec<u8> {
    let mut dice = Dice::new(seed);
    let tree = Plain::Simple.rebuild(net);
    let mut stream = opening(net);
    for turn in 0.. {
        let kind = match turn % 16 {
            15 => Kind::Mixed,
            odd if odd % 2 == 1 => Kind::Raised,
            _ => Kind::Lowered,
        };
        let batch = made::batch(kind, net, &tree, &mut dice);
        let back: Vec<Change> = batch.iter().map(|row| Change { cost: net.costs[row.link as usize], ..*row }).collect();
        let mut bytes = batch_record(&batch);
        record(&mut bytes, 5, &[dice.below(NODES) as u16]);
        bytes.extend(batch_record(&back));
        if stream.len() + bytes.len() > MOST_BYTES {
            break;
        }
        stream.extend(bytes);
    }
    stream
}
