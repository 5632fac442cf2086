//! The C functions of `include/routes.h` over lent slices and arrays. It is the one place with `unsafe` in it.
//!
//! Each call is sound for any numbers in the memory lent: the functions judge their input themselves, read and write
//! only within the lengths given, and keep no pointer. A reference is never null, is aligned, and a mutable one shares
//! no memory with another, which is all that they ask.
#![allow(unsafe_code)]

use crate::{Refusal, NODES};

type Pointer = *const u16;
type Place = *mut u16;

extern "C" {
    fn routes_judge_links(
        nodes: usize, root: usize, starts: Pointer, starts_len: usize, ends: Pointer, ends_len: usize,
        costs: Pointer, costs_len: usize, values: Place,
    ) -> u16;
    fn routes_judge_tree(
        nodes: usize, root: usize, starts: Pointer, starts_len: usize, ends: Pointer, ends_len: usize,
        costs: Pointer, costs_len: usize, dist: *const u32, parent: Pointer, first: Pointer, values: Place,
    ) -> u16;
    fn routes_build(
        nodes: usize, root: usize, starts: Pointer, starts_len: usize, ends: Pointer, ends_len: usize,
        costs: Pointer, costs_len: usize, dist: *mut u32, parent: Place, first: Place, values: Place,
    ) -> u16;
    fn routes_update(
        nodes: usize, root: usize, starts: Pointer, starts_len: usize, ends: Pointer, ends_len: usize,
        costs: Place, costs_len: usize, batch_links: Pointer, batch_links_len: usize,
        batch_costs: Pointer, batch_costs_len: usize, dist: *mut u32, parent: Place, first: Place,
        list: Place, list_len: usize, count: *mut usize, values: Place,
    ) -> u16;
    fn routes_path(
        nodes: usize, root: usize, starts: Pointer, starts_len: usize, ends: Pointer, ends_len: usize,
        costs: Pointer, costs_len: usize, dist: *const u32, parent: Pointer, first: Pointer, node: usize,
        list: Place, list_len: usize, count: *mut usize, values: Place,
    ) -> u16;
    fn routes_read(
        stream: *const u8, stream_len: usize, place: usize, kind: *mut u8, numbers: *mut u32, next: *mut usize,
    ) -> u16;
}

/// What a call answers, as it comes: a number, 0 for acceptance, the two values beside it, and for an update and a path how
/// many places of the list were written.
#[derive(Debug, Clone, Copy, PartialEq, Eq)]
pub struct Reply {
    /// 0, or the refusal's number.
    pub number: u16,
    /// What the refusal carries: a value, and a second one that only 9 has.
    pub values: [u16; 2],
    /// How many places of the list were written; 0 where there is no list.
    pub count: usize,
}

impl Reply {
    /// The refusal, if the call was refused.
    pub fn refusal(self) -> Result<(), Refusal> {
        Refusal::told(self.number, self.values).map_or(Ok(()), Err)
    }
}

// What stands in the places for the answer before a call, which writes them whatever it answers.
const UNWRITTEN: Reply = Reply { number: 60_000, values: [60_000; 2], count: 60_000 };

/// A network but for its costs.
#[derive(Debug, Clone, Copy)]
pub struct Net<'a> {
    /// How many nodes there are.
    pub nodes: usize,
    /// Where all routes begin.
    pub root: usize,
    /// The node that each link leaves.
    pub starts: &'a [u16],
    /// The node that each link enters.
    pub ends: &'a [u16],
}

/// A batch: a row for each place that both columns have.
#[derive(Debug, Clone, Copy)]
pub struct Batch<'a> {
    /// The rows' links.
    pub links: &'a [u16],
    /// What they cost from now on.
    pub costs: &'a [u16],
}

/// A tree that is read.
#[derive(Debug, Clone, Copy)]
pub struct Rows<'a> {
    /// The distances.
    pub dist: &'a [u32; NODES],
    /// The parent links.
    pub parent: &'a [u16; NODES],
    /// The first links.
    pub first: &'a [u16; NODES],
}

/// A tree that is written.
#[derive(Debug)]
pub struct RowsMut<'a> {
    /// The distances.
    pub dist: &'a mut [u32; NODES],
    /// The parent links.
    pub parent: &'a mut [u16; NODES],
    /// The first links.
    pub first: &'a mut [u16; NODES],
}

/// Judges a table of links: refusals 1 to 5.
#[inline]
pub fn judge_links(net: Net, costs: &[u16]) -> Reply {
    let Net { nodes, root, starts, ends } = net;
    let mut values = UNWRITTEN.values;
    // SAFETY: every pointer is that of a reference, and its length stands beside it.
    let number = unsafe {
        routes_judge_links(
            nodes, root, starts.as_ptr(), starts.len(), ends.as_ptr(), ends.len(), costs.as_ptr(), costs.len(),
            values.as_mut_ptr(),
        )
    };
    Reply { number, values, count: 0 }
}

/// Judges a tree: refusals 1 to 6.
#[inline]
pub fn judge_tree(net: Net, costs: &[u16], tree: Rows) -> Reply {
    let Net { nodes, root, starts, ends } = net;
    let mut values = UNWRITTEN.values;
    // SAFETY: every pointer is that of a reference, its length beside it; a tree's arrays have the 256 entries asked for.
    let number = unsafe {
        routes_judge_tree(
            nodes, root, starts.as_ptr(), starts.len(), ends.as_ptr(), ends.len(), costs.as_ptr(), costs.len(),
            tree.dist.as_ptr(), tree.parent.as_ptr(), tree.first.as_ptr(), values.as_mut_ptr(),
        )
    };
    Reply { number, values, count: 0 }
}

/// Fresh build: refusals 1 to 5. The three arrays are written whatever it answers.
#[inline]
pub fn build(net: Net, costs: &[u16], tree: RowsMut) -> Reply {
    let Net { nodes, root, starts, ends } = net;
    let mut values = UNWRITTEN.values;
    // SAFETY: as in `judge_tree`; what is written is lent to this call alone.
    let number = unsafe {
        routes_build(
            nodes, root, starts.as_ptr(), starts.len(), ends.as_ptr(), ends.len(), costs.as_ptr(), costs.len(),
            tree.dist.as_mut_ptr(), tree.parent.as_mut_ptr(), tree.first.as_mut_ptr(), values.as_mut_ptr(),
        )
    };
    Reply { number, values, count: 0 }
}

/// Update: refusals 1 to 9 and 12.
#[inline]
pub fn update(net: Net, costs: &mut [u16], batch: Batch, tree: RowsMut, list: &mut [u16]) -> Reply {
    let Net { nodes, root, starts, ends } = net;
    let Batch { links, costs: newcosts } = batch;
    let Reply { mut values, mut count, .. } = UNWRITTEN;
    // SAFETY: as in `build`; the costs, the tree and the list are lent to this call alone, so none shares memory.
    let number = unsafe {
        routes_update(
            nodes, root, starts.as_ptr(), starts.len(), ends.as_ptr(), ends.len(), costs.as_mut_ptr(), costs.len(),
            links.as_ptr(), links.len(), newcosts.as_ptr(), newcosts.len(),
            tree.dist.as_mut_ptr(), tree.parent.as_mut_ptr(), tree.first.as_mut_ptr(), list.as_mut_ptr(), list.len(),
            &mut count, values.as_mut_ptr(),
        )
    };
    Reply { number, values, count }
}

/// Path: refusals 1 to 6 and 10 to 12.
#[inline]
pub fn path(net: Net, costs: &[u16], tree: Rows, node: usize, list: &mut [u16]) -> Reply {
    let Net { nodes, root, starts, ends } = net;
    let Reply { mut values, mut count, .. } = UNWRITTEN;
    // SAFETY: as in `judge_tree`; the list is lent to this call alone.
    let number = unsafe {
        routes_path(
            nodes, root, starts.as_ptr(), starts.len(), ends.as_ptr(), ends.len(), costs.as_ptr(), costs.len(),
            tree.dist.as_ptr(), tree.parent.as_ptr(), tree.first.as_ptr(), node, list.as_mut_ptr(), list.len(),
            &mut count, values.as_mut_ptr(),
        )
    };
    Reply { number, values, count }
}

/// What the reader hands back, as it comes.
#[derive(Debug, Clone, Copy, PartialEq, Eq)]
pub struct Reading {
    /// 0, or the refusal's number.
    pub number: u16,
    /// The record's kind, and 0 at the end and with a refusal.
    pub kind: u8,
    /// The numbers of its body, and 0 in the places behind them.
    pub numbers: [u32; 3],
    /// The place behind the record; at the end and with a refusal the same place again.
    pub next: usize,
}

/// Reads the record at a place of a stream: refusals 21 and 22.
#[inline]
pub fn read(stream: &[u8], place: usize) -> Reading {
    let (mut kind, mut numbers, mut next) = (u8::MAX, [u32::MAX; 3], UNWRITTEN.count);
    // SAFETY: the stream's pointer is that of a reference, its length beside it; `numbers` has the three entries asked for.
    let number = unsafe {
        routes_read(stream.as_ptr(), stream.len(), place, &mut kind, numbers.as_mut_ptr(), &mut next)
    };
    Reading { number, kind, numbers, next }
}
