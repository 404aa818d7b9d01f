//! The search for ranges of a stand-in, with the slips that it may have.

use super::stand_in::StandIn;
use super::Slip::*;
use oracle::coefficients::pattern;
use oracle::points::Point;
use oracle::{Box8, Job, Kind, Refusal, Vector};

/// What a call for ranges hands over; the numbers are count, open boxes and peak.
pub struct Told {
    pub kind: Kind,
    pub patterns: [u32; 16],
    pub cases: [u8; 8],
    pub numbers: [u64; 3],
}

#[derive(Clone)]
struct State {
    found: Vec<Vector>,
    list: Vec<Box8>,
    count: u32,
    peak: usize,
}

impl StandIn {
    /// The number is at most the ceiling.
    fn low_enough(&self, number: u64, job: &Job, ceiling: u64) -> bool {
        match self.slip {
            RangesBelowTheCeiling => number < ceiling,
            RangesCapOverflows => number < ceiling.wrapping_add(1),
            RangesByTolerance => number <= ceiling.saturating_add(job.t),
            _ => number <= ceiling,
        }
    }

    fn look_at(&self, job: &Job, points: &[Point], ceiling: u64, domain: Box8, state: &mut State) {
        let bound = self.bound_of(&job.model, points, &domain);
        let counts = self.low_enough(bound, job, ceiling);
        if domain.is_one_vector() {
            if self.low_enough(self.cost_of(&job.model, points, &domain.low), job, ceiling) {
                state.found.push(domain.low);
            }
            if self.slips(RangesOneVectorOpen) && counts {
                state.list.push(domain);
            }
        } else if counts {
            if self.slips(RangesOfBoxes) {
                state.found.extend([domain.low, domain.high]);
            }
            state.list.push(domain);
        }
    }

    fn begin_ranges(&self, job: &Job, points: &[Point], ceiling: u64) -> State {
        let mut state = State { found: vec![], list: vec![], count: 0, peak: 0 };
        if !(self.slips(RangesGivenOneVectorUncosted) && job.domain.is_one_vector()) {
            self.look_at(job, points, ceiling, job.domain, &mut state);
        }
        state.peak = state.list.len();
        state
    }

    /// Whether the search is finished or spent; a wrong cut need not end by itself.
    fn stops_ranges(&self, job: &Job, state: &State) -> Option<Kind> {
        let spent = state.count == job.budget || state.count == 5000;
        match self.slip {
            RangesSpentFirst if spent => Some(Kind::Spent),
            _ if state.list.is_empty() => Some(Kind::Solved),
            _ => spent.then_some(Kind::Spent),
        }
    }

    pub fn find_ranges(&self, job: &Job, points: &[Point], ceiling: u64, table: &mut [i16]) -> Told {
        let rows = if self.slips(PartialRowUsed) { table.len().div_ceil(16) } else { table.len() / 16 };
        let mut state = self.begin_ranges(job, points, ceiling);
        let kind = loop {
            if let Some(kind) = self.stops_ranges(job, &state) {
                break kind;
            }
            let mut next = state.clone();
            let cut = if self.slips(RangesCutTheFirst) { next.list.remove(0) } else { next.list.pop().unwrap() };
            if !cut.is_one_vector() {
                let (left, right) = self.cut(&cut);
                self.look_at(job, points, ceiling, left, &mut next);
                self.look_at(job, points, ceiling, right, &mut next);
            }
            next.count += 1;
            next.peak = next.peak.max(next.list.len());
            if next.list.len() > rows {
                match self.slip {
                    PeakOfRefusedStep => state.peak = next.peak,
                    FullStateAfterStep => state.count = next.count,
                    _ => {}
                }
                break Kind::Full;
            }
            state = next;
        };
        self.put_open(&state.list, state.peak, table);
        self.tell_ranges(job, kind, &state)
    }

    fn tell_ranges(&self, job: &Job, kind: Kind, state: &State) -> Told {
        let given = kind == Kind::Solved || kind == Kind::Spent && self.slips(RangesToldWhenSpent);
        let (mut patterns, mut cases) = ([0; 16], [0; 8]);
        let used = if self.slips(RangesOfUnused) { 8 } else { job.model.used() };
        for k in 0..used {
            let values = || state.found.iter().map(|vector| vector[k]).filter(|_| given);
            if let (Some(low), Some(high)) = (values().min(), values().max()) {
                let ends = if self.slips(RangesEndsSwapped) { [high, low] } else { [low, high] };
                cases[k] = if low == high && !self.slips(RangesOneAsBetween) { 1 } else { 2 };
                patterns[2 * k..2 * k + 2].copy_from_slice(&ends.map(|w| pattern(w, job.model.s)));
            }
        }
        let count = state.count as u64 + self.slips(CountOneMore) as u64;
        Told { kind, patterns, cases, numbers: [count, state.list.len() as u64, state.peak as u64] }
    }

    pub fn check_ranges(&self, job: &Job, store: &[u8], numbers: usize) -> Result<Vec<Point>, Refusal> {
        let start = if self.slips(RangesWithoutStartCheck) { job.domain.low } else { job.start };
        self.check_search(&Job { start, ..*job }, store, numbers, numbers / 16)
    }
}
