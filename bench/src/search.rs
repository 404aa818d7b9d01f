//! What a plain search is made of: a job, an answer, what is carried from step to step, and the cut
//! of a box.
use crate::plain::{bound_up_to, cost_up_to, Model};

/// A box.
#[derive(Clone, Copy, Debug, PartialEq, Eq)]
pub struct Domain {
    pub low: [i16; 8],
    pub high: [i16; 8],
}

pub struct Job {
    pub model: Model,
    pub t: u64,
    pub budget: u32,
    pub rows: usize,
    pub domain: Domain,
    pub start: [i16; 8],
    pub store: Vec<u8>,
}

#[derive(Clone, Copy, Debug, PartialEq, Eq)]
pub enum Kind {
    Solved,
    Spent,
    Full,
}

#[derive(Clone, Copy, Debug, PartialEq, Eq)]
pub struct Answer {
    pub kind: Kind,
    pub vector: [i16; 8],
    pub cost: u64,
    pub bound: u64,
    pub count: u32,
    pub open: usize,
    pub peak: usize,
}

/// The best vector and C.
#[derive(Clone, Copy)]
pub struct Best {
    pub vector: [i16; 8],
    pub cost: u64,
}

impl Best {
    /// Whether a cost, or the bound of a box with this low vector, is below C; for t = 0 also
    /// whether it is C and the vector comes before best.
    pub fn is_behind(&self, t: u64, number: u64, vector: &[i16; 8]) -> bool {
        number < self.cost || (t == 0 && number == self.cost && *vector < self.vector)
    }
}

impl Job {
    /// The start vector is the first best one.
    pub fn start(&self) -> Best {
        Best {
            vector: self.start,
            cost: cost_up_to(&self.store, self.model, &self.start, u64::MAX),
        }
    }

    /// A vector becomes best only if it is cheaper or, for t = 0, as cheap and earlier.
    pub fn tried(&self, best: Best, vector: [i16; 8]) -> Best {
        let cost = cost_up_to(&self.store, self.model, &vector, best.cost + 1);
        if best.is_behind(self.t, cost, &vector) {
            Best { vector, cost }
        } else {
            best
        }
    }

    pub fn bound_up_to(&self, domain: &Domain, cap: u64) -> u64 {
        bound_up_to(&self.store, self.model, &domain.low, &domain.high, cap)
    }
}

/// What a search carries from step to step beside its open boxes.
pub struct Progress {
    pub best: Best,
    pub count: u32,
    pub peak: usize,
}

impl Progress {
    /// Solved or spent, where the search ends before the next split.
    pub fn ended(&self, job: &Job, bound: u64, open: usize) -> Option<Kind> {
        let solved = match job.t {
            0 => open == 0,
            t => self.best.cost - bound <= t,
        };
        if solved {
            Some(Kind::Solved)
        } else if self.count == job.budget {
            Some(Kind::Spent)
        } else {
            None
        }
    }

    pub fn answer(&self, kind: Kind, bound: u64, open: usize) -> Answer {
        Answer {
            kind,
            vector: self.best.vector,
            cost: self.best.cost,
            bound,
            count: self.count,
            open,
            peak: self.peak,
        }
    }

    /// Counts a split after which so many boxes are open.
    pub fn split(&mut self, best: Best, open: usize) {
        self.best = best;
        self.count += 1;
        self.peak = self.peak.max(open);
    }
}

impl Domain {
    /// The low vector, then the high one.
    pub fn corners(&self) -> [i16; 16] {
        let mut corners = [0; 16];
        corners[..8].copy_from_slice(&self.low);
        corners[8..].copy_from_slice(&self.high);
        corners
    }

    /// Cuts the longest side, the lowest coordinate among equals, at its middle rounded down.
    pub fn cut(&self) -> (Domain, Domain) {
        let side = |k: usize| i32::from(self.high[k]) - i32::from(self.low[k]);
        let mut longest = 0;
        for k in 1..8 {
            if side(k) > side(longest) {
                longest = k;
            }
        }
        let ends = i32::from(self.low[longest]) + i32::from(self.high[longest]);
        let middle = (ends >> 1) as i16;
        let (mut left, mut right) = (*self, *self);
        left.high[longest] = middle;
        right.low[longest] = middle + 1;
        (left, right)
    }
}
