//! What the proved jobs cost, beside the plain programs that do the same from nothing. The program `bench` measures,
//! `plain_routes` is what the program `routes` is measured against, and `again` runs one job for a profiler.
#![forbid(unsafe_code)]

pub mod day;
pub mod made;
pub mod plain;
pub mod product;
