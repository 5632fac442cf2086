// Memory that is lent with some on both sides of it which a call must not touch.
use reckon::rules::{Tree, NODES};
use routes::ffi::RowsMut;

const GUARD: usize = 4;

pub trait Entry: Copy + PartialEq + std::fmt::Display {
    // What stands in memory that nothing has been written to.
    const UNTOUCHED: Self;
}

impl Entry for u16 {
    const UNTOUCHED: u16 = 0xA5C3;
}

impl Entry for u32 {
    const UNTOUCHED: u32 = 0xA5C3_5A3C;
}

pub struct Guarded<T>(Vec<T>);

impl<T: Entry> Guarded<T> {
    pub fn of(inner: &[T]) -> Guarded<T> {
        let guard = [T::UNTOUCHED; GUARD];
        Guarded([&guard, inner, &guard].concat())
    }

    pub fn lent(&mut self) -> &mut [T] {
        let behind = self.0.len() - GUARD;
        &mut self.0[GUARD..behind]
    }

    fn array(&mut self) -> &mut [T; NODES] {
        self.lent().try_into().expect("a tree's array has 256 places")
    }

    // It is what is due, and the guards are as they were; or the place where it isn't so.
    pub fn is(&self, job: &str, what: &str, due: &[T]) -> Result<(), String> {
        let (before, rest) = self.0.split_at(GUARD);
        let (inner, behind) = rest.split_at(rest.len() - GUARD);
        let guard = [T::UNTOUCHED; GUARD];
        if before == guard && inner == due && behind == guard {
            return Ok(());
        }
        let due = Guarded::of(due).0;
        let at = (0..due.len()).find(|at| self.0[*at] != due[*at]).expect("they differ somewhere");
        let place = at as isize - GUARD as isize;
        Err(format!("{job}: {what} has {} at place {place}, due is {}", self.0[at], due[at]))
    }
}

// What a list of so many places holds once these stand at its front.
pub fn listed(front: &[u16], places: usize) -> Vec<u16> {
    let mut list = vec![u16::UNTOUCHED; places];
    list[..front.len()].copy_from_slice(front);
    list
}

pub struct GuardedTree {
    dist: Guarded<u32>,
    parent: Guarded<u16>,
    first: Guarded<u16>,
}

impl GuardedTree {
    pub fn of(tree: &Tree) -> GuardedTree {
        GuardedTree {
            dist: Guarded::of(&tree.dist),
            parent: Guarded::of(&tree.parent),
            first: Guarded::of(&tree.first),
        }
    }

    pub fn lent(&mut self) -> RowsMut<'_> {
        RowsMut { dist: self.dist.array(), parent: self.parent.array(), first: self.first.array() }
    }

    pub fn is(&self, job: &str, due: &Tree) -> Result<(), String> {
        self.dist.is(job, "the distances", &due.dist)?;
        self.parent.is(job, "the parent links", &due.parent)?;
        self.first.is(job, "the first links", &due.first)
    }
}

// A guard finds what is written beside the memory that it guards, on either side.
pub fn tried() {
    for place in [0, GUARD - 1, GUARD, GUARD + NODES - 1, GUARD + NODES, NODES + 2 * GUARD - 1] {
        let tree = reckon::rules::EMPTY;
        for array in 0..3 {
            let mut guarded = GuardedTree::of(&tree);
            match array {
                0 => guarded.dist.0[place] = 7,
                1 => guarded.parent.0[place] = 7,
                _ => guarded.first.0[place] = 7,
            }
            assert!(guarded.is("a write", &tree).is_err(), "a write at place {place} went unseen");
        }
    }
}
