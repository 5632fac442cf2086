//! What the jobs and the program `routes` must answer, by the scope's words alone: the plainest calculation, which shares no
//! method and no line with the proved one.
#![forbid(unsafe_code)]

pub mod rules;
pub mod stream;
