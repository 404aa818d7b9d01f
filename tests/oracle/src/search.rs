//! The search, step by step as in the paper, with the ties of document 02 for t = 0.

use crate::boxes::{check_box, Box8};
use crate::model::Vector;
use crate::points::{check_length, check_stray, points_of, Point, RECORD};
use crate::records::Job;
use crate::refusal::{refuse_if, Refusal};

/// How a search ended, with the number that an answer record has for it.
#[derive(Clone, Copy, Debug, PartialEq, Eq)]
pub enum Kind {
    Solved = 1,
    Spent = 2,
    Full = 3,
}

/// What a search answers; `open` holds the open boxes in list order, as the table's first rows do, and `bounds` their bounds.
#[derive(Clone, Debug, PartialEq, Eq)]
pub struct Answer {
    pub kind: Kind,
    pub vector: Vector,
    pub c: u64,
    pub l: u64,
    pub count: u32,
    pub open: Vec<Box8>,
    pub bounds: Vec<u64>,
    pub peak: usize,
}

/// An open box with its bound.
#[derive(Clone, Copy)]
struct Open {
    domain: Box8,
    bound: u64,
}

/// The best vector and C, the list of open boxes, the split count and peak.
#[derive(Clone)]
struct State {
    best: Vector,
    c: u64,
    list: Vec<Open>,
    count: u32,
    peak: usize,
}

struct Search<'a> {
    job: &'a Job,
    points: Vec<Point>,
    rows: usize,
}

impl Search<'_> {
    fn cost(&self, vector: &Vector) -> u64 {
        self.job.model.cost_of(&self.points, vector)
    }

    fn open(&self, domain: Box8) -> Open {
        Open { domain, bound: self.job.model.bound_of(&self.points, &domain) }
    }

    /// Whether a cost with its vector, or a bound with its low vector, is below C; for t = 0 also whether it equals C
    /// and the vector comes before best, comparing coordinate 1 first.
    fn ahead(&self, number: u64, vector: &Vector, best: &Vector, c: u64) -> bool {
        number < c || (self.job.t == 0 && number == c && vector < best)
    }

    /// Keeps in order the boxes that the rule keeps, by the new C and the new best.
    fn keep(&self, state: &mut State) {
        let (best, c) = (state.best, state.c);
        state.list.retain(|open| self.ahead(open.bound, &open.domain.low, &best, c));
    }

    fn beginning(&self) -> State {
        let best = self.job.start;
        let list = vec![self.open(self.job.domain)];
        let mut state = State { best, c: self.cost(&best), list, count: 0, peak: 0 };
        self.keep(&mut state);
        state.peak = state.list.len();
        state
    }

    /// The state after one more split, or nothing where more than r boxes remain.
    fn split(&self, state: &State) -> Option<State> {
        let mut next = state.clone();
        let smallest = state.l();
        let first = next.list.iter().position(|open| open.bound == smallest).unwrap();
        let (left, right) = next.list.remove(first).domain.cut();
        for vector in [left.low, right.low] {
            let cost = self.cost(&vector);
            if self.ahead(cost, &vector, &next.best, next.c) {
                next.best = vector;
                next.c = cost;
            }
        }
        next.list.push(self.open(left));
        next.list.push(self.open(right));
        self.keep(&mut next);
        if next.list.len() > self.rows {
            return None;
        }
        next.count += 1;
        next.peak = next.peak.max(next.list.len());
        Some(next)
    }

    /// For t = 0 solved means that no box is open.
    fn solved(&self, state: &State) -> bool {
        match self.job.t {
            0 => state.list.is_empty(),
            t => state.c - state.l() <= t,
        }
    }

    fn run(&self) -> (Kind, State) {
        let mut state = self.beginning();
        loop {
            if self.solved(&state) {
                return (Kind::Solved, state);
            }
            if state.count == self.job.budget {
                return (Kind::Spent, state);
            }
            match self.split(&state) {
                Some(next) => state = next,
                None => return (Kind::Full, state),
            }
        }
    }
}

impl State {
    /// L is C if the list is empty, else the smallest bound in it.
    fn l(&self) -> u64 {
        self.list.iter().map(|open| open.bound).min().unwrap_or(self.c)
    }
}

/// Checks 1 to 7, which a search and fit share.
pub fn check_job(job: &Job, store: &[u8]) -> Result<Vec<Point>, Refusal> {
    check_job_over(job, store, store.len() / RECORD)
}

/// The same, with check 4 for a cost over so many records.
pub fn check_job_over(job: &Job, store: &[u8], records: usize) -> Result<Vec<Point>, Refusal> {
    check_length(store.len())?;
    job.model.check(records)?;
    check_box(&job.domain, job.model.used())?;
    refuse_if(!job.domain.contains(&job.start), Refusal::Start)?;
    let points = points_of(store);
    check_stray(&points, job.model.d)?;
    Ok(points)
}

/// Checks 8 and 14.
pub fn check_lent(numbers: usize, entries: usize) -> Result<(), Refusal> {
    refuse_if(numbers < 16, Refusal::Table)?;
    refuse_if(entries < numbers / 16, Refusal::Bounds)
}

/// Searches with a table of `numbers` signed 16-bit numbers and a list of `entries` bounds; makes checks 1 to 8
/// and 14. The rows that the job record carries are fit's alone.
pub fn search(job: &Job, store: &[u8], numbers: usize, entries: usize) -> Result<Answer, Refusal> {
    let points = check_job(job, store)?;
    check_lent(numbers, entries)?;
    let (kind, state) = Search { job, points, rows: numbers / 16 }.run();
    Ok(Answer {
        kind,
        vector: state.best,
        c: state.c,
        l: state.l(),
        count: state.count,
        open: state.list.iter().map(|open| open.domain).collect(),
        bounds: state.list.iter().map(|open| open.bound).collect(),
        peak: state.peak,
    })
}
