//! The calls that are compared, as a C program makes them: each answers 0, the code of a refusal or
//! `WRONG_LENGTH`, and puts its results into lent memory, which a refusal leaves alone.

use crate::lent::Lent;
use oracle::{AnswerRecord, Job, Model, Refusal};

/// The answer to a buffer of a length that the call cannot take.
pub const WRONG_LENGTH: u32 = 255;

/// The code of a refusal: its number, and for a stray field 256 times the record's number more.
pub fn refusal_code(refusal: Refusal) -> u32 {
    match refusal {
        Refusal::Stray(record) => 7 + 256 * record as u32,
        _ => refusal.number() as u32,
    }
}

/// What a search is lent for its results: the vector, then C, L, count, open boxes and peak, then the kind.
pub struct Found {
    pub vector: Lent<i16>,
    pub numbers: Lent<u64>,
    pub value: u64,
}

/// What a pass through windows is lent: the table and the list of bounds of its searches, the output, and the number of
/// windows.
pub struct Passed {
    pub table: Lent<i16>,
    pub bounds: Lent<u64>,
    pub out: Lent<u8>,
    pub value: u64,
}

/// What several jobs are lent for their results, a slot for each of eight: codes, budgets, vectors of 8 and numbers of 6.
pub struct Slots {
    pub codes: Lent<u32>,
    pub budgets: Lent<u32>,
    pub vectors: Lent<i16>,
    pub numbers: Lent<u64>,
}

/// Several jobs, as a call has them: the records, the stores and the stores' lengths, each one behind the other.
#[derive(Clone)]
pub struct Jobs {
    pub count: u8,
    pub total: u32,
    pub records: Vec<u8>,
    pub stores: Vec<u8>,
    pub lengths: Vec<u32>,
}

/// What a call for ranges is lent for its results: the patterns of both ends, the cases, then count, open boxes and peak, then the kind.
pub struct Ranged {
    pub patterns: Lent<u32>,
    pub cases: Lent<u8>,
    pub numbers: Lent<u64>,
    pub value: u64,
}

pub trait Calls {
    fn loss(&self, p: u8, epsilon: u32, e: i64, value: &mut u64) -> u32;
    fn cost(&self, store: &[u8], model: &Model, vector: &[i16], value: &mut u64) -> u32;
    /// `corners` is a row: the low vector, then the high one.
    fn bound(&self, store: &[u8], model: &Model, corners: &[i16], value: &mut u64) -> u32;
    /// The left row and then the right one go into the front of `halves`.
    fn split(&self, n: u8, d: u8, corners: &[i16], halves: &mut [i16]) -> u32;
    /// The value is the number of labels written.
    fn labels(&self, store: &[u8], model: &Model, vector: &[i16], labels: &mut [u8], value: &mut u64) -> u32;
    /// The costs of the groups go into the front of `sums`; the value is their total.
    fn cost_by_beacon(&self, store: &[u8], model: &Model, vector: &[i16], sums: &mut [u64], value: &mut u64) -> u32;
    fn take_in(&self, store: &mut [u8], mark: usize, beacon: &[u8], value: &mut u64) -> u32;
    /// The value is the length of the union in bytes.
    fn merge(&self, first: &[u8], second: &[u8], out: &mut [u8], value: &mut u64) -> u32;
    /// The box is in `corners` and the start vector in `start`; the job's own are not looked at.
    fn search(
        &self,
        store: &[u8],
        job: &Job,
        corners: &[i16],
        start: &[i16],
        table: &mut [i16],
        bounds: &mut [u64],
        found: &mut Found,
    ) -> u32;
    /// Windows of k records, h apart, [k, h] in `window`, with the box in `corners` and the first start vector in `start`.
    fn windows(
        &self,
        store: &[u8],
        job: &Job,
        corners: &[i16],
        start: &[i16],
        window: [usize; 2],
        lent: &mut Passed,
    ) -> u32;
    fn boards(&self, jobs: &Jobs, table: &mut [i16], bounds: &mut [u64], slots: &mut Slots) -> u32;
    /// As `search`; the job's t is not handed over.
    fn ranges(
        &self,
        store: &[u8],
        job: &Job,
        ceiling: u64,
        corners: &[i16],
        start: &[i16],
        table: &mut [i16],
        ranged: &mut Ranged,
    ) -> u32;
    /// What is found is 32 coordinates, 24 numbers, six of each round, kind first, and the number of rounds.
    #[allow(clippy::too_many_arguments)]
    fn peel(
        &self,
        store: &[u8],
        job: &Job,
        corners: &[i16],
        start: &[i16],
        limit: u8,
        table: &mut [i16],
        bounds: &mut [u64],
        labels: &mut [u8],
        found: &mut Found,
    ) -> u32;
    /// The numbers are n, d, S, p, ε, t, budget and r.
    fn read_job(&self, bytes: &[u8], numbers: &mut [u64], corners: &mut [i16], start: &mut [i16]) -> u32;
    fn write_job(&self, job: &Job, corners: &[i16], start: &[i16], bytes: &mut [u8]) -> u32;
    /// The numbers are C, L, count, kind, n, d and S.
    fn read_answer(&self, bytes: &[u8], vector: &mut [i16], numbers: &mut [u64]) -> u32;
    fn write_answer(&self, answer: &AnswerRecord, vector: &[i16], bytes: &mut [u8]) -> u32;
    fn write_line(&self, d: u8, s: u8, coordinates: &[i16], patterns: &mut [u32]) -> u32;
    fn read_line(&self, d: u8, s: u8, patterns: &[u32], coordinates: &mut [i16]) -> u32;
    fn reset(&self, registers: &mut [u8]) -> u32;
    /// The value is the byte at the offset.
    fn read_register(&self, registers: &[u8], offset: usize, value: &mut u64) -> u32;
    fn write_register(
        &self,
        registers: &mut [u8],
        offset: usize,
        value: u8,
        store: &[u8],
        table: &mut [i16],
        bounds: &mut [u64],
    ) -> u32;
    /// The program fit: what it writes for this input.
    fn fit(&self, input: &[u8]) -> Vec<u8>;
    /// The program bus: what it writes for this input.
    fn bus(&self, input: &[u8]) -> Vec<u8>;
}
