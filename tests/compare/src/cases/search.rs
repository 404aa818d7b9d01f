//! The search: small boxes against all of their vectors, all searches against the oracle step for step.

use super::{code_of, length_of, row_of, with_case, Outcome};
use crate::calls::{Calls, Found, WRONG_LENGTH};
use crate::inputs::{self, Input};
use crate::lent::{same, Lent};
use crate::random::Random;
use oracle::points::points_of;
use oracle::{Answer, AnswerRecord, Job, Kind, Model, Refusal};

/// Small boxes: the promises are checked over all grid vectors, without the oracle's search.
pub fn exhaustive(calls: &dyn Calls, random: &mut Random) -> Outcome {
    let limit = random.pick(&[1, 2, 4, 8, 30, 30, 100, 300]);
    let input = inputs::small(random, limit);
    over_all_vectors(calls, random, input).map(|_| ())
}

/// The same with p = 3 alone; an answer record of such a search passes check 9.
pub fn spoiled(calls: &dyn Calls, random: &mut Random) -> Outcome {
    let limit = random.pick(&[2, 8, 30, 100]);
    let mut input = inputs::small_with_threshold(random, limit);
    input.limit_spoiled(random);
    over_all_vectors(calls, random, input).map(|_| ())
}

/// A search of a small box with any budget, tolerance and rows; its vector.
pub fn over_all_vectors(calls: &dyn Calls, random: &mut Random, mut input: Input) -> Result<[i16; 8], String> {
    let volume = input.job.domain.volume().unwrap() as u64;
    let below = random.below(volume) as u32;
    let cost_of_start = oracle::cost(&input.job.model, &input.store, &input.job.start).unwrap();
    input.job.budget = random.pick(&[0, 1, 2, 5, below, volume as u32 - 1, volume as u32 - 1, 1000, u32::MAX]);
    input.job.t = random.pick(&[0, 0, 0, 1, 2, cost_of_start / 4, cost_of_start, u64::MAX]);
    let half = (volume as usize).div_ceil(2);
    let rows = random.pick(&[1, 2, 3, 5, half, half, half, half + 1, 64]).max(1);
    let length = 16 * rows + random.pick(&[0, 0, 1, 7, 15]);
    let entries = rows + random.pick(&[0, 0, 1, 3]);
    let mut run = Run::new(random, input, length, entries);
    run.call(calls);
    let outcome = run.promises(volume, rows).and_then(|()| run.compare()).and_then(|()| run.record(calls));
    with_case(outcome, || run.to_string())?;
    Ok(run.found.vector.now().try_into().unwrap())
}

/// Few points and mostly p = 0, so that many vectors cost the same: the promises from every start of a small box, by which a solved
/// answer is the same vector from each.
pub fn ties(calls: &dyn Calls, random: &mut Random) -> Outcome {
    let mut input = inputs::small(random, 40);
    input.store.truncate(12 * random.size(1, 3));
    input.job.model.p = random.pick(&[0, 0, 0, 1, 2]);
    input.job.model.epsilon = random.pick(&[1, 1, 2, 4]);
    if random.once_in(4) {
        input.limit_spoiled(random);
    }
    let volume = input.job.domain.volume().unwrap() as u64;
    input.job.budget = volume as u32 - 1;
    let rows = (volume as usize).div_ceil(2);
    for start in input.job.domain.grid() {
        input.job.start = start;
        let mut run = Run::new(random, input.clone(), 16 * rows, rows);
        run.call(calls);
        let outcome = run.promises(volume, rows).and_then(|()| run.compare());
        with_case(outcome, || run.to_string())?;
    }
    Ok(())
}

/// Boxes of any size, up to the widest; a search of some hundred splits.
pub fn wide(calls: &dyn Calls, random: &mut Random) -> Outcome {
    let mut input = match random.below(3) {
        0 => inputs::sound(random),
        _ => inputs::small(random, 1 << 40),
    };
    input.keep(40);
    input.job.budget = random.pick(&[3, 20, 100, 300]);
    input.job.t = random.pick(&[0, 0, 1, 100]);
    let rows = random.pick(&[1, 2, 7, 30, 100, 400]);
    let length = 16 * rows + random.size(0, 15);
    let entries = rows + random.pick(&[0, 0, 1, 20]);
    let mut run = Run::new(random, input, length, entries);
    run.call(calls);
    with_case(run.compare(), || run.to_string())
}

/// Hundreds of open boxes, more than the product holds beside the table: one search, or one with each of some budgets, about
/// where those boxes are moved into the table among them, or with each of some tables, of which most are full in the end.
pub fn long(calls: &dyn Calls, random: &mut Random) -> Outcome {
    let mut input = inputs::long(random);
    input.job.t = random.pick(&[0, 0, 0, 1, 2, 5]);
    let (any, from) = (random.between(100, 700) as u32, random.between(100, 400) as u32);
    let (few, many) = (random.size(130, 200), random.size(200, 800));
    let (budgets, tables) = match random.below(8) {
        0 => (120..=135, many..=many),
        1 => (250..=260, many..=many),
        2 => (from..=from + 70, many..=many),
        3 => (700..=700, few..=few + 40),
        4 => (any..=any, few..=few),
        _ => (any..=any, many..=many),
    };
    for (budget, rows) in budgets.flat_map(|budget| tables.clone().map(move |rows| (budget, rows))) {
        input.job.budget = budget;
        let length = 16 * rows + random.size(0, 15);
        let entries = rows + random.pick(&[0, 0, 1, 20]);
        let mut run = Run::new(random, input.clone(), length, entries);
        run.call(calls);
        with_case(run.compare(), || run.to_string())?;
        // More splits and more rows change nothing then.
        if run.is_solved() {
            break;
        }
    }
    Ok(())
}

/// Stores of nothing but gaps: every vector costs 0, and 0 is certified for any box, start, budget and table.
pub fn gaps_alone(calls: &dyn Calls, random: &mut Random) -> Outcome {
    let limit = random.pick(&[1, 2, 30, 300]);
    let mut input = inputs::small(random, limit);
    inputs::make_gaps(&mut input.store);
    let volume = input.job.domain.volume().unwrap() as u64;
    input.job.budget = random.pick(&[0, 1, 10, u32::MAX]);
    input.job.t = random.pick(&[0, 1, u64::MAX]);
    let rows = random.pick(&[1, 2, 200]);
    let mut run = Run::new(random, input, 16 * rows, rows);
    run.call(calls);
    let outcome = run.promises(volume, rows).and_then(|()| {
        same("C and L", &run.found.numbers.now()[..2], &[0, 0])?;
        run.compare()
    });
    with_case(outcome, || run.to_string())
}

/// Damaged jobs, tables and lists of bounds that are too short and buffers of other lengths.
pub fn damaged(calls: &dyn Calls, random: &mut Random) -> Outcome {
    let mut input = if random.once_in(2) { inputs::small(random, 50) } else { inputs::sound(random) };
    input.job.budget = random.below(8) as u32;
    input.keep(40);
    if !random.once_in(4) {
        inputs::damage(random, &mut input);
    }
    let length = match random.below(3) {
        0 => random.size(0, 17),
        _ => random.size(16, 100),
    };
    let entries = match random.below(3) {
        0 => random.size(0, 7),
        _ => random.size(length / 16, 10),
    };
    let mut run = Run::new(random, input, length, entries);
    if random.once_in(8) {
        run.other_lengths(random);
    }
    run.call(calls);
    with_case(run.compare(), || run.to_string())
}

/// One call of the search with what it was lent.
pub struct Run {
    input: Input,
    corners: Vec<i16>,
    start: Vec<i16>,
    table: Lent<i16>,
    bounds: Lent<u64>,
    was: u64,
    found: Found,
    code: u32,
}

impl Run {
    pub fn new(random: &mut Random, input: Input, length: usize, entries: usize) -> Run {
        let table = Lent::new(length, |count| random.numbers(count));
        let bounds = Lent::new(entries, |count| random.words(count));
        let was = random.next();
        let found = Found {
            vector: Lent::new(8, |count| random.numbers(count)),
            numbers: Lent::new(5, |count| random.words(count)),
            value: was,
        };
        let (corners, start) = (row_of(&input.job.domain), input.job.start.to_vec());
        Run { input, corners, start, table, bounds, was, found, code: 0 }
    }

    /// Some of the four buffers have other lengths.
    fn other_lengths(&mut self, random: &mut Random) {
        self.corners.resize(length_of(random, 16), 0);
        self.start.resize(length_of(random, 8), 0);
        let vector = length_of(random, 8);
        self.found.vector = Lent::new(vector, |count| random.numbers(count));
        let numbers = length_of(random, 5);
        self.found.numbers = Lent::new(numbers, |count| random.words(count));
    }

    fn lengths_right(&self) -> bool {
        let lent = [self.found.vector.was().len(), self.found.numbers.was().len()];
        [self.corners.len(), self.start.len()] == [16, 8] && lent == [8, 5]
    }

    pub fn call(&mut self, calls: &dyn Calls) {
        let job = &self.input.job;
        let (table, bounds) = (self.table.part(), self.bounds.part());
        self.code = calls.search(&self.input.store, job, &self.corners, &self.start, table, bounds, &mut self.found);
    }

    pub fn job(&self) -> &Job {
        &self.input.job
    }

    pub fn is_solved(&self) -> bool {
        self.code == 0 && self.found.value == Kind::Solved as u64
    }

    /// C
    pub fn cost(&self) -> u64 {
        self.found.numbers.now()[0]
    }

    /// What is promised of a search, by all vectors of the box: the lower bound, that C is reached, when
    /// it is solved, and that budget and rows suffice.
    fn promises(&self, volume: u64, rows: usize) -> Outcome {
        same("answer", self.code, 0)?;
        let job = &self.input.job;
        let vector: [i16; 8] = self.found.vector.now().try_into().unwrap();
        let [c, l, count, open, peak] = self.found.numbers.now().try_into().unwrap();
        let points = points_of(&self.input.store);
        let least = job.domain.grid().iter().map(|vector| job.model.cost_of(&points, vector)).min().unwrap();
        let solved = self.is_solved();
        same("vector in the box", job.domain.contains(&vector), true)?;
        same("C", c, job.model.cost_of(&points, &vector))?;
        same("L is at most the least cost", l <= least, true)?;
        same("L is at most C", l <= c, true)?;
        if job.t == 0 {
            same("solved exactly when no box is open", solved, open == 0)?;
        } else {
            same("solved exactly when C - L <= t", solved, c - l <= job.t)?;
        }
        if job.t == 0 && solved {
            let first =
                job.domain.grid().into_iter().min_by_key(|vector| (job.model.cost_of(&points, vector), *vector));
            same("the first of all vectors of least cost", Some(vector), first)?;
        }
        same("count is at most V - 1", count < volume, true)?;
        same("open is at most peak, peak at most r", open <= peak && peak <= rows as u64, true)?;
        if job.budget as u64 >= volume - 1 && 2 * rows as u64 >= volume {
            same("solved, as budget and rows suffice", solved, true)?;
        }
        Ok(())
    }

    /// The answer as a record, which no accepted job's answer is refused.
    fn record(&self, calls: &dyn Calls) -> Outcome {
        let Model { n, d, s, .. } = self.input.job.model;
        let vector: [i16; 8] = self.found.vector.now().try_into().unwrap();
        let [c, l, count, _, _] = self.found.numbers.now().try_into().unwrap();
        let answer = AnswerRecord { vector, c, l, count: count as u32, kind: self.found.value as u8, n, d, s };
        same("answer record", calls.write_answer(&answer, &vector, &mut [0; 40]), 0)
    }

    fn expected(&self) -> Result<Answer, Refusal> {
        let (numbers, entries) = (self.table.was().len(), self.bounds.was().len());
        oracle::search(&self.input.job, &self.input.store, numbers, entries)
    }

    /// The answer and every lent element by the oracle; only rows and entries from open up to peak are free.
    pub fn compare(&self) -> Outcome {
        if !self.lengths_right() {
            same("answer", self.code, WRONG_LENGTH)?;
            self.lent(self.table.was(), self.bounds.was())?;
            return self.told(self.found.vector.was(), self.found.numbers.was(), self.was);
        }
        let expected = self.expected();
        same("answer", self.code, code_of(&expected))?;
        let (mut table, mut bounds) = (self.table.was().to_vec(), self.bounds.was().to_vec());
        let (mut vector, mut numbers) = (self.found.vector.was().to_vec(), self.found.numbers.was().to_vec());
        let mut value = self.was;
        if let Ok(answer) = expected {
            vector = answer.vector.to_vec();
            let open = answer.open.len() as u64;
            numbers = vec![answer.c, answer.l, answer.count as u64, open, answer.peak as u64];
            value = answer.kind as u64;
            self.put_rows(&answer, &mut table);
            self.put_bounds(&answer, &mut bounds);
        }
        self.lent(&table, &bounds)?;
        self.told(&vector, &numbers, value)
    }

    fn told(&self, vector: &[i16], numbers: &[u64], value: u64) -> Outcome {
        same("value", self.found.value, value)?;
        self.found.vector.holds("vector", vector)?;
        self.found.numbers.holds("numbers", numbers)
    }

    fn lent(&self, table: &[i16], bounds: &[u64]) -> Outcome {
        self.table.holds("table", table)?;
        self.bounds.holds("bounds", bounds)
    }

    fn put_rows(&self, answer: &Answer, table: &mut [i16]) {
        for (row, open) in table.chunks_exact_mut(16).zip(&answer.open) {
            row[..8].copy_from_slice(&open.low);
            row[8..].copy_from_slice(&open.high);
        }
        let leftovers = 16 * answer.open.len()..16 * answer.peak;
        table[leftovers.clone()].copy_from_slice(&self.table.now()[leftovers]);
    }

    fn put_bounds(&self, answer: &Answer, bounds: &mut [u64]) {
        bounds[..answer.bounds.len()].copy_from_slice(&answer.bounds);
        let leftovers = answer.bounds.len()..answer.peak;
        bounds[leftovers.clone()].copy_from_slice(&self.bounds.now()[leftovers]);
    }
}

impl std::fmt::Display for Run {
    fn fmt(&self, f: &mut std::fmt::Formatter) -> std::fmt::Result {
        let expected = self.expected();
        let (numbers, entries) = (self.table.was().len(), self.bounds.was().len());
        write!(f, "{}\n  table of {numbers} numbers, list of {entries} bounds\n", self.input)?;
        write!(f, "  corners {:?}, start {:?}\n", self.corners, self.start)?;
        let (vector, numbers) = (self.found.vector.now(), self.found.numbers.now());
        write!(
            f,
            "  product: answer {}, value {}, vector {vector:?}, numbers {numbers:?}\n",
            self.code, self.found.value
        )?;
        write!(f, "  oracle: {expected:?}")
    }
}
