//! The cases by which the product is compared with the oracle. Each comes from a seed, so that one that differs
//! can be had again.

pub mod calls;
pub mod cases;
mod inputs;
pub mod lent;
pub mod random;
#[cfg(test)]
mod slips;

use calls::Calls;
use cases::{Group, Outcome};
use random::Random;

/// One case of a group.
pub fn run_case(calls: &dyn Calls, group: &Group, seed: u64) -> Outcome {
    let name = group.name.bytes().fold(0, |hash: u64, byte| hash.wrapping_mul(257) ^ byte as u64);
    (group.run)(calls, &mut Random::new(Random::new(name).next() ^ seed))
}
