//! The search of a stand-in, with the slips that it may have.

use super::stand_in::StandIn;
use super::Slip::*;
use oracle::boxes::check_box;
use oracle::points::{check_length, Point, RECORD};
use oracle::search::check_job;
use oracle::{Box8, Job, Kind, Model, Refusal, Vector};

/// What a search answers; the numbers are C, L, count, open boxes and peak.
pub struct Told {
    pub kind: Kind,
    pub vector: Vector,
    pub numbers: [u64; 5],
}

/// An open box with its bound.
#[derive(Clone, Copy)]
struct Open {
    domain: Box8,
    bound: u64,
}

struct State {
    best: Vector,
    c: u64,
    list: Vec<Open>,
    count: u32,
    peak: usize,
}

impl StandIn {
    pub fn cut(&self, domain: &Box8) -> (Box8, Box8) {
        let side = |k: &usize| domain.high[*k] as i32 - domain.low[*k] as i32;
        let longest = (0..8).map(|k| side(&k)).max().unwrap();
        let mut sides = (0..8).filter(|k| side(k) == longest);
        let k = if self.slips(CutsHighestCoordinate) { sides.last() } else { sides.next() }.unwrap();
        let sum = domain.low[k] as i32 + domain.high[k] as i32;
        let m = if self.slips(HalvesTowardZero) { sum / 2 } else { sum >> 1 };
        let (mut left, mut right) = (*domain, *domain);
        left.high[k] = m as i16;
        right.low[k] = m.min(32766) as i16 + 1;
        (left, right)
    }

    pub fn bound_of(&self, model: &Model, points: &[Point], domain: &Box8) -> u64 {
        if !self.slips(PairsLowWithLow) {
            return self.bound_over(model, points, domain);
        }
        let least = |point: &Point| {
            if point.is_gap() {
                return 0;
            }
            let ends = |j| [model.residual(point, &domain.high, j), model.residual(point, &domain.low, j)];
            let size = |[emin, emax]: [i64; 2]| if emin > 0 { emin } else { (-emax).max(0) };
            (0..model.n as usize).map(|j| size(ends(j))).min().unwrap()
        };
        self.bound_made(model, points.iter().map(least))
    }

    /// Whether a cost with its vector, or a bound with its low vector, is below C; for t = 0 also whether it equals C and
    /// the vector comes before best.
    fn ahead(&self, job: &Job, number: u64, vector: &Vector, best: &Vector, c: u64) -> bool {
        let before = match self.slip {
            TiesToTheLater => vector > best,
            TiesUnsigned => vector.map(|w| w as u16) < best.map(|w| w as u16),
            TiesByTheLastCoordinate => vector.iter().rev().lt(best.iter().rev()),
            _ => vector < best,
        };
        let ties = match self.slip {
            TiesIgnored => false,
            TiesForLargerT => true,
            _ => job.t == 0,
        };
        number < c || ties && number == c && before
    }

    fn open(&self, job: &Job, points: &[Point], domain: Box8) -> Open {
        Open { domain, bound: self.bound_of(&job.model, points, &domain) }
    }

    /// Keeps the boxes that the rule keeps, by best and C.
    fn keep(&self, job: &Job, best: &Vector, c: u64, list: &mut Vec<Open>) {
        let keeps = |bound: u64, low: &Vector| match self.slip {
            KeepsEqualBounds => bound <= c,
            DropsByUnreachedC => self.ahead(job, bound, low, best, c.saturating_sub(job.t)),
            _ => self.ahead(job, bound, low, best, c),
        };
        // The last two are the halves.
        let untested = if self.slips(Only128Tested) { 128..list.len().saturating_sub(2) } else { 0..0 };
        let mut row = 0..;
        list.retain(|Open { domain, bound }| {
            let as_it_was = untested.contains(&row.next().unwrap());
            as_it_was || keeps(*bound, &domain.low) && !domain.is_one_vector()
        });
    }

    fn begin(&self, job: &Job, points: &[Point]) -> State {
        let c = self.cost_of(&job.model, points, &job.start);
        let mut list = vec![self.open(job, points, job.domain)];
        self.keep(job, &job.start, c, &mut list);
        if self.slips(GivenBoxWithoutTies) {
            list.retain(|open| open.bound < c);
        }
        State { best: job.start, c, count: 0, peak: list.len(), list }
    }

    /// Whether the search is solved or spent.
    fn stops(&self, job: &Job, state: &State, l: u64) -> Option<Kind> {
        // A wrong cut need not end by itself; no case of the groups needs so many splits.
        let spent = state.count == job.budget || state.count == 5000;
        let by_list = job.t == 0 && !self.slips(SolvedWhileOpen);
        let solved = if by_list { state.list.is_empty() } else { state.c - l <= job.t };
        match self.slip {
            SpentBeforeSolved if spent => Some(Kind::Spent),
            _ if solved => Some(Kind::Solved),
            _ => (spent || self.slips(NeverSplits)).then_some(Kind::Spent),
        }
    }

    /// The state after a split, whether or not it has room in the table.
    fn split(&self, job: &Job, points: &[Point], state: &State, l: u64) -> State {
        let open = state.list.len();
        let mut smallest = (0..open).filter(|&k| state.list[k].bound == l);
        let k = match self.slip {
            TakesLastSmallest => smallest.last(),
            TakesOfTheLast128First => smallest.clone().find(|k| k + 128 >= open).or(smallest.next()),
            _ => smallest.next(),
        };
        let mut list = state.list.clone();
        let (left, right) = self.cut(&list.remove(k.unwrap()).domain);
        let (mut best, mut c) = (state.best, state.c);
        let children = if self.slips(RightChildUncosted) { vec![left] } else { vec![left, right] };
        for child in children {
            let cost = self.cost_of(&job.model, points, &child.low);
            if self.ahead(job, cost, &child.low, &best, c) || self.slips(EqualCostBecomesBest) && cost == c {
                (best, c) = (child.low, cost);
            }
        }
        list.extend([left, right].map(|half| self.open(job, points, half)));
        let kept_by = if self.slips(KeptByOldBest) { state.best } else { best };
        self.keep(job, &kept_by, c, &mut list);
        State { best, c, count: state.count + 1, peak: state.peak.max(list.len()), list }
    }

    /// The search with its slips; as the product may, it works in place of the table's first rows.
    pub fn run(&self, job: &Job, points: &[Point], table: &mut [i16], bounds: &mut [u64]) -> Told {
        let rows = if self.slips(PartialRowUsed) { table.len().div_ceil(16) } else { table.len() / 16 };
        let mut state = self.begin(job, points);
        let (kind, l) = loop {
            let l = state.list.iter().map(|open| open.bound).min().unwrap_or(state.c).min(state.c);
            if let Some(kind) = self.stops(job, &state, l) {
                break (kind, l);
            }
            let next = self.split(job, points, &state, l);
            if next.list.len() > rows {
                match self.slip {
                    PeakOfRefusedStep => state.peak = next.peak,
                    FullStateAfterStep => (state.best, state.c) = (next.best, next.c),
                    _ => {}
                }
                break (Kind::Full, l);
            }
            state = next;
        };
        self.put_rows(&state.list, state.peak, table);
        let entries = state.list.iter().map(|open| open.bound).collect();
        self.put_bounds(entries, state.peak, bounds);
        self.told(kind, &state, l)
    }

    fn told(&self, kind: Kind, state: &State, l: u64) -> Told {
        let l = if self.slips(BoundIsZero) { 0 } else { l.min(state.c) };
        let count = state.count as u64 + self.slips(CountOneMore) as u64;
        let open = state.list.len() as u64;
        let peak = if self.slips(PeakIsOpen) { open } else { state.peak as u64 };
        Told { kind, vector: state.best, numbers: [state.c, l, count, open, peak] }
    }

    fn put_rows(&self, list: &[Open], peak: usize, table: &mut [i16]) {
        let open: Vec<Box8> = list.iter().map(|open| open.domain).collect();
        self.put_open(&open, peak, table);
    }

    /// The open boxes into the first rows of a table.
    pub fn put_open(&self, list: &[Box8], peak: usize, table: &mut [i16]) {
        let mut rows: Vec<[Vector; 2]> = list.iter().map(|open| [open.low, open.high]).collect();
        if self.slips(RowsReversed) {
            rows.reverse();
        }
        if !self.slips(RowsNotWritten) {
            for (row, written) in table.chunks_mut(16).zip(rows) {
                let length = row.len();
                row.copy_from_slice(&written.concat()[..length]);
            }
        }
        // Leftovers are free, and the stand-in leaves some.
        let length = table.len();
        table[(16 * list.len()).min(length)..(16 * peak).min(length)].fill(-7);
        if self.slips(RowsPastPeakWritten) && 16 * peak < table.len() {
            table[16 * peak] = 1;
        }
    }

    fn put_bounds(&self, mut entries: Vec<u64>, peak: usize, bounds: &mut [u64]) {
        match self.slip {
            EntriesZero => entries.fill(0),
            EntriesReversed => entries.reverse(),
            _ => {}
        }
        // As free as the rows there.
        entries.resize(peak, 7);
        if self.slips(EntriesPastPeakWritten) {
            entries.push(1);
        }
        for (bound, entry) in bounds.iter_mut().zip(entries) {
            *bound = entry;
        }
    }

    pub fn check_search(
        &self,
        job: &Job,
        store: &[u8],
        numbers: usize,
        entries: usize,
    ) -> Result<Vec<Point>, Refusal> {
        let job = &Job { model: self.checked(&job.model, store), ..*job };
        check_length(store.len())?;
        job.model.check(store.len() / RECORD)?;
        let outside = !job.domain.contains(&job.start);
        if self.slips(StartBeforeBox) && outside {
            return Err(Refusal::Start);
        }
        check_box(&job.domain, job.model.used())?;
        if outside {
            return Err(Refusal::Start);
        }
        if self.slips(TableBeforeStray) && numbers < 16 {
            return Err(Refusal::Table);
        }
        let few = entries < numbers / 16;
        if self.slips(BoundsBeforeStray) && few {
            return Err(Refusal::Bounds);
        }
        let points = check_job(job, store)?;
        if numbers < 16 {
            return Err(Refusal::Table);
        }
        if few && !self.slips(FewEntriesTaken) {
            return Err(Refusal::Bounds);
        }
        Ok(points)
    }
}
