//! The route calculation for programs in Rust: judging a table of links, a fresh tree of shortest routes, the update of
//! a tree after a batch of cost changes, the path to a node, and the reader of the record stream. The work is done by
//! the proved functions of `libroutes.a`; this crate lends them memory and reads their answers.
//!
//! `make archive` in the project's folder proves and writes the archive, for x86-64 Linux. It is looked for in `target/lib`
//! there, or in the folder that the environment variable `ROUTES_LIB_DIR` names. Without it everything but linking works.
//!
//! ```
//! use routes::{Change, Network, Tree};
//!
//! // The pier network: pairs of nodes, each with what it costs there and what it costs back. The links are numbered in the
//! // order of their starts: 0→1 is link 0, 1→2 link 3, 2→3 link 6 and 3→2 link 7.
//! let mut net = Network::with_pairs(4, 0, [(0, 1, 4, 4), (0, 2, 7, 7), (1, 2, 2, 2), (2, 3, 1, 1)]);
//! let mut tree = Tree::build(&net)?;
//! assert_eq!(tree.distance(3), Some(7));
//! assert_eq!(tree.path(&net, 3)?, [0, 3, 6]);
//!
//! // Two costs change at once: the nodes whose route or distance moved are told.
//! let moved = tree.update(&mut net, &[Change { link: 3, cost: 5 }, Change { link: 0, cost: 2 }])?;
//! assert_eq!(moved, [1, 2, 3]);
//! assert_eq!(tree.distance(3), Some(8));
//! assert_eq!(net.costs[3], 5);
//!
//! // Link 7 goes down. It is node 3's link back, and a link without one isn't used.
//! assert_eq!(tree.update(&mut net, &[Change { link: 7, cost: 0 }])?, [3]);
//! assert_eq!(tree.distance(3), None);
//! # Ok::<(), routes::Refusal>(())
//! ```
#![deny(unsafe_code)]
#![warn(missing_docs)]

#[cfg(not(all(target_arch = "x86_64", target_os = "linux")))]
compile_error!(
    "the proved archive, libroutes.a, is written for x86-64 Linux alone: build for x86_64-unknown-linux-gnu"
);

#[doc(hidden)]
#[rustfmt::skip]
pub mod ffi;
mod jobs;
#[doc(hidden)]
pub mod lent;
mod network;
mod refusal;
mod stream;
mod tree;

pub use network::{Change, Network};
pub use refusal::Refusal;
pub use stream::{Record, Records, Unreadable};
pub use tree::Tree;

/// The most nodes that a network may have, and how many rows a tree has.
pub const NODES: usize = 256;
/// The most links that a network may have.
pub const LINKS: usize = 4_096;
/// The most rows that a batch may have.
pub const ROWS: usize = 256;
/// The distance of a node that isn't reached.
pub const UNREACHED: u32 = 16_777_215;
/// Stands where a link number is expected and there is no link.
pub const NO_LINK: u16 = 65_535;
