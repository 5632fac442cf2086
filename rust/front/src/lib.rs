//! What `./run` stands on: a stream of one's own is read, run through the program `routes`, its refusal told in words, and
//! what the program prints checked by the independent calculation.
#![forbid(unsafe_code)]

pub mod check;
pub mod input;
pub mod program;
pub mod words;
