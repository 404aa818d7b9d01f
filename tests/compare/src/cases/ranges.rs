//! The range of every coefficient: small boxes against all of their vectors, all searches against the oracle step for step.

use super::{code_of, length_of, row_of, with_case, Outcome};
use crate::calls::{Calls, Ranged, WRONG_LENGTH};
use crate::inputs::{self, Input};
use crate::lent::{same, Lent};
use crate::random::Random;
use oracle::points::points_of;
use oracle::ranges::ranges_of;
use oracle::{Kind, Range, Ranges, Refusal, Vector};

/// Small boxes: ranges are checked over all grid vectors, without the oracle's search.
pub fn exhaustive(calls: &dyn Calls, random: &mut Random) -> Outcome {
    let limit = random.pick(&[1, 2, 4, 8, 30, 30, 100, 300]);
    let input = inputs::small(random, limit);
    over_all_vectors(calls, random, input)
}

/// The same with p = 3 alone.
pub fn spoiled(calls: &dyn Calls, random: &mut Random) -> Outcome {
    let limit = random.pick(&[2, 8, 30, 100]);
    let mut input = inputs::small_with_threshold(random, limit);
    input.limit_spoiled(random);
    over_all_vectors(calls, random, input)
}

fn over_all_vectors(calls: &dyn Calls, random: &mut Random, mut input: Input) -> Outcome {
    let volume = input.job.domain.volume().unwrap() as u64;
    let below = random.below(volume) as u32;
    input.job.budget = random.pick(&[0, 1, 2, 5, below, volume as u32 - 1, volume as u32 - 1, 1000, u32::MAX]);
    input.job.t = random.pick(&[0, 1, 100, u64::MAX]);
    let half = (volume as usize).div_ceil(2);
    let rows = random.pick(&[1, 2, 3, 5, half, half, half, half + 1, 64]).max(1);
    let length = 16 * rows + random.pick(&[0, 0, 1, 7, 15]);
    let ceiling = ceiling_near(random, &input);
    let mut run = Run::new(random, input, ceiling, length);
    run.call(calls);
    let outcome = run.promises(volume, rows).and_then(|()| run.compare());
    with_case(outcome, || run.to_string())
}

/// The cost of some vector of the box, or beside it, so that some vectors count and others don't; or either end of its range.
fn ceiling_near(random: &mut Random, input: &Input) -> u64 {
    let job = &input.job;
    let points = points_of(&input.store);
    let vectors = job.domain.grid();
    let cost = job.model.cost_of(&points, &vectors[random.below(vectors.len() as u64) as usize]);
    match random.below(8) {
        0 => 0,
        1 => u64::MAX,
        2 => u64::MAX - 1,
        3 => cost.saturating_sub(1),
        4 => cost + 1,
        _ => cost,
    }
}

/// Boxes of any size, up to the widest; a search of some hundred splits.
pub fn wide(calls: &dyn Calls, random: &mut Random) -> Outcome {
    let mut input = match random.below(3) {
        0 => inputs::sound(random),
        _ => inputs::small(random, 1 << 40),
    };
    input.keep(40);
    input.job.budget = random.pick(&[3, 20, 100, 300]);
    let rows = random.pick(&[1, 2, 7, 30, 100]);
    let length = 16 * rows + random.size(0, 15);
    let cost = oracle::cost(&input.job.model, &input.store, &input.job.start).unwrap();
    let ceiling = random.pick(&[cost, cost / 2, cost / 8, u64::MAX]);
    let mut run = Run::new(random, input, ceiling, length);
    run.call(calls);
    with_case(run.compare(), || run.to_string())
}

/// Damaged jobs, tables that are too short and buffers of other lengths.
pub fn damaged(calls: &dyn Calls, random: &mut Random) -> Outcome {
    let mut input = if random.once_in(2) { inputs::small(random, 50) } else { inputs::sound(random) };
    input.job.budget = random.below(8) as u32;
    input.keep(40);
    if !random.once_in(4) {
        inputs::damage(random, &mut input);
    }
    let length = match random.below(3) {
        0 => random.size(0, 17),
        _ => random.size(16, 100),
    };
    let ceiling = random.pick(&[0, 1, 1000, u64::MAX]);
    let mut run = Run::new(random, input, ceiling, length);
    if random.once_in(8) {
        run.other_lengths(random);
    }
    run.call(calls);
    with_case(run.compare(), || run.to_string())
}

/// One call for ranges with what it was lent.
struct Run {
    input: Input,
    ceiling: u64,
    corners: Vec<i16>,
    start: Vec<i16>,
    table: Lent<i16>,
    was: u64,
    ranged: Ranged,
    code: u32,
}

impl Run {
    fn new(random: &mut Random, input: Input, ceiling: u64, length: usize) -> Run {
        let table = Lent::new(length, |count| random.numbers(count));
        let was = random.next();
        let ranged = Ranged {
            patterns: Lent::new(16, |count| random.words(count).iter().map(|&word| word as u32).collect()),
            cases: Lent::new(8, |count| random.words(count).iter().map(|&word| word as u8).collect()),
            numbers: Lent::new(3, |count| random.words(count)),
            value: was,
        };
        let (corners, start) = (row_of(&input.job.domain), input.job.start.to_vec());
        Run { input, ceiling, corners, start, table, was, ranged, code: 0 }
    }

    /// Some of the five buffers have other lengths.
    fn other_lengths(&mut self, random: &mut Random) {
        self.corners.resize(length_of(random, 16), 0);
        self.start.resize(length_of(random, 8), 0);
        let (patterns, cases, numbers) = (length_of(random, 16), length_of(random, 8), length_of(random, 3));
        self.ranged.patterns = Lent::new(patterns, |count| vec![7; count]);
        self.ranged.cases = Lent::new(cases, |count| vec![7; count]);
        self.ranged.numbers = Lent::new(numbers, |count| random.words(count));
    }

    fn lengths_right(&self) -> bool {
        let ranged = &self.ranged;
        let lent = [ranged.patterns.was().len(), ranged.cases.was().len(), ranged.numbers.was().len()];
        [self.corners.len(), self.start.len()] == [16, 8] && lent == [16, 8, 3]
    }

    fn call(&mut self, calls: &dyn Calls) {
        let table = self.table.part();
        let (store, job) = (&self.input.store, &self.input.job);
        self.code = calls.ranges(store, job, self.ceiling, &self.corners, &self.start, table, &mut self.ranged);
    }

    /// What is promised of ranges, by all vectors of the box: they are exact whenever they are given, and given whenever budget and rows
    /// suffice.
    fn promises(&self, volume: u64, rows: usize) -> Outcome {
        same("answer", self.code, 0)?;
        let job = &self.input.job;
        let points = points_of(&self.input.store);
        let cheap = |vector: &Vector| job.model.cost_of(&points, vector) <= self.ceiling;
        let vectors: Vec<Vector> = job.domain.grid().into_iter().filter(cheap).collect();
        let [count, open, peak] = self.ranged.numbers.now().try_into().unwrap();
        let finished = self.ranged.value == Kind::Solved as u64;
        same("finished exactly when no box is open", finished, open == 0)?;
        let told: &[Vector] = if finished { &vectors } else { &[] };
        self.told(&ranges_of(told, job.model.used(), job.model.s))?;
        same("count is at most V - 1 and the budget", count < volume && count <= job.budget as u64, true)?;
        same("open is at most peak, peak at most r", open <= peak && peak <= rows as u64, true)?;
        if job.budget as u64 >= volume - 1 && 2 * rows as u64 >= volume {
            same("finished, as budget and rows suffice", finished, true)?;
        }
        Ok(())
    }

    fn expected(&self) -> Result<Ranges, Refusal> {
        oracle::ranges(&self.input.job, &self.input.store, self.ceiling, self.table.was().len())
    }

    /// The answer and every lent element by the oracle; only rows from open up to peak are free.
    fn compare(&self) -> Outcome {
        if !self.lengths_right() {
            same("answer", self.code, WRONG_LENGTH)?;
            return self.untouched();
        }
        let expected = self.expected();
        same("answer", self.code, code_of(&expected))?;
        let Ok(answer) = expected else {
            return self.untouched();
        };
        same("value", self.ranged.value, answer.kind as u64)?;
        self.told(&answer.ranges)?;
        let numbers = [answer.count as u64, answer.open.len() as u64, answer.peak as u64];
        self.ranged.numbers.holds("numbers", &numbers)?;
        self.table.holds("table", &self.rows(&answer))
    }

    fn untouched(&self) -> Outcome {
        same("value", self.ranged.value, self.was)?;
        self.table.holds("table", self.table.was())?;
        self.ranged.patterns.holds("patterns", self.ranged.patterns.was())?;
        self.ranged.cases.holds("cases", self.ranged.cases.was())?;
        self.ranged.numbers.holds("numbers", self.ranged.numbers.was())
    }

    /// The cases and the patterns of these ranges.
    fn told(&self, ranges: &[Range; 8]) -> Outcome {
        let case = |range: &Range| match range {
            Range::Nothing => (0, [0, 0]),
            Range::One(w) => (1, [*w, *w]),
            Range::Between(low, high) => (2, [*low, *high]),
        };
        let cases: Vec<u8> = ranges.iter().map(|range| case(range).0).collect();
        let patterns: Vec<u32> = ranges.iter().flat_map(|range| case(range).1).collect();
        self.ranged.cases.holds("cases", &cases)?;
        self.ranged.patterns.holds("patterns", &patterns)
    }

    fn rows(&self, answer: &Ranges) -> Vec<i16> {
        let mut table = self.table.was().to_vec();
        for (row, open) in table.chunks_exact_mut(16).zip(&answer.open) {
            row[..8].copy_from_slice(&open.low);
            row[8..].copy_from_slice(&open.high);
        }
        let leftovers = 16 * answer.open.len()..16 * answer.peak;
        table[leftovers.clone()].copy_from_slice(&self.table.now()[leftovers]);
        table
    }
}

impl std::fmt::Display for Run {
    fn fmt(&self, f: &mut std::fmt::Formatter) -> std::fmt::Result {
        let (numbers, ceiling) = (self.table.was().len(), self.ceiling);
        write!(f, "{}\n  ceiling {ceiling}, table of {numbers} numbers\n", self.input)?;
        write!(f, "  corners {:?}, start {:?}\n", self.corners, self.start)?;
        let (cases, patterns) = (self.ranged.cases.now(), self.ranged.patterns.now());
        let (code, value, told) = (self.code, self.ranged.value, self.ranged.numbers.now());
        write!(
            f,
            "  product: answer {code}, value {value}, cases {cases:?}, patterns {patterns:x?}, numbers {told:?}\n"
        )?;
        write!(f, "  oracle: {:?}", self.expected())
    }
}
