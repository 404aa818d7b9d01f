//! A second implementation of the line fitter, written from the paper alone and meant to be laid beside
//! it: plain vectors and loops, no table in place, no early exits. The product is compared with it.
//!
//! Every call has the paper's checks in table order and answers `Err(refusal)` for the first that fails.

pub mod beacons;
pub mod boards;
pub mod boxes;
pub mod bus;
pub mod coefficients;
pub mod fit;
pub mod merge;
pub mod model;
pub mod peel;
pub mod points;
pub mod ranges;
pub mod records;
pub mod refusal;
pub mod search;
pub mod windows;

#[cfg(test)]
mod bench_fits;

pub use beacons::cost_by_beacon;
pub use boards::{boards, Board};
pub use boxes::{split, Box8};
pub use coefficients::{read_line, write_line};
pub use fit::fit;
pub use merge::merge;
pub use model::{bound, cost, labels, loss, Model, Vector};
pub use peel::{peel, Peeled};
pub use points::take_in;
pub use ranges::{ranges, Range, Ranges};
pub use records::{read_answer, read_job, write_answer, write_job, AnswerRecord, Job};
pub use refusal::Refusal;
pub use search::{search, Answer, Kind};
pub use windows::windows;
