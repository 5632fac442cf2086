// What the jobs allocate: what they hand back, and nothing else.
use routes::{Change, Network, Refusal, Tree};
use std::alloc::{GlobalAlloc, Layout, System};
use std::cell::Cell;

struct Counting;

thread_local! {
    static BYTES: Cell<usize> = const { Cell::new(0) };
}

// SAFETY: it is the system's allocator, which is asked for the same.
unsafe impl GlobalAlloc for Counting {
    unsafe fn alloc(&self, layout: Layout) -> *mut u8 {
        BYTES.with(|bytes| bytes.set(bytes.get() + layout.size()));
        System.alloc(layout)
    }

    unsafe fn dealloc(&self, place: *mut u8, layout: Layout) {
        System.dealloc(place, layout)
    }
}

#[global_allocator]
static ALLOCATOR: Counting = Counting;

fn allocated<T>(job: impl FnOnce() -> T) -> (usize, T) {
    let before = BYTES.with(Cell::get);
    let made = job();
    (BYTES.with(Cell::get) - before, made)
}

fn chain() -> Network {
    Network::with_pairs(256, 0, (0..255).map(|node| (node, node + 1, 7, 7)))
}

#[test]
fn what_is_handed_back_and_nothing_else() {
    let mut net = chain();
    let (bytes, mut tree) = allocated(|| Tree::build(&net).unwrap());
    assert_eq!(bytes, 0);
    assert_eq!(allocated(|| tree.judge(&net)), (0, Ok(())));
    assert_eq!(allocated(|| net.judge()), (0, Ok(())));

    let (bytes, links) = allocated(|| tree.path(&net, 200).unwrap());
    assert_eq!((bytes, links.len()), (2 * 200, 200));
    let (bytes, changed) = allocated(|| tree.update(&mut net, &[Change { link: 500, cost: 9 }]).unwrap());
    assert_eq!((bytes, changed), (2 * 5, vec![251, 252, 253, 254, 255]));
    assert_eq!(allocated(|| tree.update(&mut net, &[]).unwrap()), (0, vec![]));
}

// A batch of over 256 rows is refused after the network and the tree, and before its rows.
#[test]
fn a_batch_of_any_length() {
    let mut net = chain();
    let mut tree = Tree::build(&net).unwrap();
    let rows: Vec<Change> = (0..100_000).map(|row| Change { link: (row % 255) as u16, cost: 1 }).collect();
    for (count, due) in [
        (255, None),
        (256, Some(Refusal::RowNamesLinkAgain { row: 255, earlier: 0 })),
        (257, Some(Refusal::TooManyRows)),
        (100_000, Some(Refusal::TooManyRows)),
    ] {
        let (bytes, told) = allocated(|| tree.update(&mut net, &rows[..count]));
        assert_eq!(told.as_ref().err().copied(), due);
        assert_eq!(bytes, told.map_or(0, |changed| 2 * changed.len()));
    }
    tree.distances[9] += 1;
    assert_eq!(tree.update(&mut net, &rows), Err(Refusal::TreeUnfit { node: 9 }));
}
