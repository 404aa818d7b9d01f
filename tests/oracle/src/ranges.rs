//! The range of every coefficient (document 02, request 13): a search of its own, step by step as in the paper.

use crate::boxes::Box8;
use crate::coefficients::pattern;
use crate::model::Vector;
use crate::points::Point;
use crate::records::Job;
use crate::refusal::{refuse_if, Refusal};
use crate::search::{check_job, Kind};

/// The answer for a coefficient, each value by its single-precision pattern.
#[derive(Clone, Copy, Debug, PartialEq, Eq)]
pub enum Range {
    Nothing,
    One(u32),
    Between(u32, u32),
}

/// What a search for ranges answers; solved stands for finished, and `open` holds the open boxes in list order.
#[derive(Clone, Debug, PartialEq, Eq)]
pub struct Ranges {
    pub kind: Kind,
    pub ranges: [Range; 8],
    pub count: u32,
    pub open: Vec<Box8>,
    pub peak: usize,
}

/// The vectors that cost at most K, the list of open boxes, the split count and peak.
#[derive(Clone)]
struct State {
    found: Vec<Vector>,
    list: Vec<Box8>,
    count: u32,
    peak: usize,
}

struct Search<'a> {
    job: &'a Job,
    points: Vec<Point>,
    ceiling: u64,
    rows: usize,
}

impl Search<'_> {
    /// A box of one vector is costed and is not open; any other is open while its bound is at most K.
    fn look_at(&self, domain: Box8, state: &mut State) {
        if domain.is_one_vector() {
            if self.job.model.cost_of(&self.points, &domain.low) <= self.ceiling {
                state.found.push(domain.low);
            }
        } else if self.job.model.bound_of(&self.points, &domain) <= self.ceiling {
            state.list.push(domain);
        }
    }

    fn beginning(&self) -> State {
        let mut state = State { found: vec![], list: vec![], count: 0, peak: 0 };
        self.look_at(self.job.domain, &mut state);
        state.peak = state.list.len();
        state
    }

    /// The state after the last open box is split, or nothing where more than r boxes remain.
    fn split(&self, state: &State) -> Option<State> {
        let mut next = state.clone();
        let (left, right) = next.list.pop().unwrap().cut();
        self.look_at(left, &mut next);
        self.look_at(right, &mut next);
        if next.list.len() > self.rows {
            return None;
        }
        next.count += 1;
        next.peak = next.peak.max(next.list.len());
        Some(next)
    }

    fn run(&self) -> (Kind, State) {
        let mut state = self.beginning();
        loop {
            if state.list.is_empty() {
                return (Kind::Solved, state);
            }
            if state.count == self.job.budget {
                return (Kind::Spent, state);
            }
            match self.split(&state) {
                Some(next) => state = next,
                None => return (Kind::Full, state),
            }
        }
    }
}

/// The range of coordinate k among some vectors.
pub fn range_of(vectors: &[Vector], k: usize, s: u8) -> Range {
    let values = || vectors.iter().map(|vector| vector[k]);
    match (values().min(), values().max()) {
        (Some(low), Some(high)) if low == high => Range::One(pattern(low, s)),
        (Some(low), Some(high)) => Range::Between(pattern(low, s), pattern(high, s)),
        _ => Range::Nothing,
    }
}

/// The ranges of the used coordinates among some vectors.
pub fn ranges_of(vectors: &[Vector], used: usize, s: u8) -> [Range; 8] {
    std::array::from_fn(|k| if k < used { range_of(vectors, k, s) } else { Range::Nothing })
}

/// Finds the ranges with a table of `numbers` signed 16-bit numbers; makes checks 1 to 8. A search that isn't finished gives none.
pub fn ranges(job: &Job, store: &[u8], ceiling: u64, numbers: usize) -> Result<Ranges, Refusal> {
    let points = check_job(job, store)?;
    refuse_if(numbers < 16, Refusal::Table)?;
    let (kind, state) = Search { job, points, ceiling, rows: numbers / 16 }.run();
    let told: &[Vector] = if kind == Kind::Solved { &state.found } else { &[] };
    let ranges = ranges_of(told, job.model.used(), job.model.s);
    Ok(Ranges { kind, ranges, count: state.count, open: state.list, peak: state.peak })
}
