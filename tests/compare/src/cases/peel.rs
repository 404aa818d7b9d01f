//! Peeling: small boxes against all of their vectors, every round, label and lent element against the oracle.

use super::{code_of, length_of, row_of, with_case, Outcome};
use crate::calls::{Calls, Found, WRONG_LENGTH};
use crate::inputs::{self, Input};
use crate::lent::{same, Lent};
use crate::random::Random;
use oracle::points::{points_of, store_of, Point, GAP_Y};
use oracle::{Answer, Box8, Job, Kind, Model, Peeled, Refusal};

/// Three records on y = 2x, two on y = −x, one alone and a gap: worked out by hand.
pub fn by_hand(calls: &dyn Calls, random: &mut Random) -> Outcome {
    let at = |x, y| Point { x: [x, 0, 0, 0], y, frame: 0 };
    let points = [at(1, 2), at(2, -2), at(3, GAP_Y), at(2, 4), at(3, -3), at(3, 6), at(1, 100)];
    let model = Model { n: 1, d: 1, s: 0, p: 0, epsilon: 0 };
    let side = |w: i16| std::array::from_fn(|k| if k == 0 { w } else { 0 });
    let domain = Box8 { low: side(-5), high: side(5) };
    let job = Job { model, t: 0, budget: 1000, rows: 0, domain, start: side(5) };
    for (limit, rounds, labels) in [
        (1, 1, [1, 0, 6, 1, 0, 1, 0]),
        (2, 2, [1, 2, 6, 1, 2, 1, 0]),
        (3, 3, [1, 2, 6, 1, 2, 1, 0]),
        (4, 3, [1, 2, 6, 1, 2, 1, 0]),
    ] {
        let input = Input { job, store: store_of(&points) };
        let mut run = Run::new(random, input, limit, [16 * 20, 20, 7]);
        run.call(calls);
        let outcome = run.compare().and_then(|()| {
            same("rounds", run.found.value, rounds)?;
            same("lines", [0, 8].map(|k| run.found.vector.now()[k]), [2, if limit == 1 { 0 } else { -1 }])?;
            run.labels.holds("labels", &labels)
        });
        with_case(outcome, || run.to_string())?;
    }
    Ok(())
}

/// Small boxes: what is promised of each round is checked over all grid vectors.
pub fn small(calls: &dyn Calls, random: &mut Random) -> Outcome {
    let size = random.pick(&[1, 2, 8, 30, 100, 300]);
    let input = inputs::one_line(random, size);
    over_all_vectors(calls, random, input)
}

/// The same of a given store and box.
pub fn over_all_vectors(calls: &dyn Calls, random: &mut Random, mut input: Input) -> Outcome {
    let volume = input.job.domain.volume().unwrap() as u32;
    input.job.budget = random.pick(&[0, 1, 2, 5, volume / 2, volume - 1, volume - 1, volume - 1, u32::MAX]);
    input.job.t = random.pick(&[0, 0, 0, 1, 2, u64::MAX]);
    let half = (volume as usize).div_ceil(2);
    let rows = random.pick(&[1, 2, 3, half, half, half + 1, 64]).max(1);
    let records = input.store.len() / 12;
    let lent = [16 * rows + random.pick(&[0, 0, 1, 15]), rows + random.pick(&[0, 0, 3]), records + random.size(0, 3)];
    let limit = random.size(1, 4) as u8;
    let mut run = Run::new(random, input, limit, lent);
    run.call(calls);
    with_case(run.promises().and_then(|()| run.compare()), || run.to_string())
}

/// Hundreds of splits a round, more open boxes in one round than in the next.
pub fn long(calls: &dyn Calls, random: &mut Random) -> Outcome {
    let mut input = inputs::one_line(random, 1 << 30);
    input.job.budget = random.pick(&[20, 100, 400]);
    input.job.t = random.pick(&[0, 1, 2, 4]);
    let rows = random.pick(&[7, 30, 100, 400]);
    let records = input.store.len() / 12;
    let mut run = Run::new(random, input, 4, [16 * rows + 5, rows + 2, records + 1]);
    run.call(calls);
    with_case(run.compare(), || run.to_string())
}

/// Stores of nothing but gaps: no round is run, and nothing but the labels changes.
pub fn gaps_alone(calls: &dyn Calls, random: &mut Random) -> Outcome {
    let mut input = inputs::one_line(random, 30);
    inputs::make_gaps(&mut input.store);
    input.job.budget = 100;
    let records = input.store.len() / 12;
    let limit = random.size(1, 4) as u8;
    let mut run = Run::new(random, input, limit, [16 * 20, 20, records + 2]);
    run.call(calls);
    let outcome = run.compare().and_then(|()| {
        same("rounds", run.found.value, 0)?;
        run.table.holds("table", run.table.was())?;
        run.bounds.holds("bounds", run.bounds.was())
    });
    with_case(outcome, || run.to_string())
}

/// Damaged jobs, other n, p and limits, what is lent too short, and buffers of other lengths.
pub fn damaged(calls: &dyn Calls, random: &mut Random) -> Outcome {
    let mut input = match random.below(4) {
        0 => inputs::sound(random),
        _ => inputs::one_line(random, 50),
    };
    input.keep(40);
    input.job.budget = random.below(8) as u32;
    let mut limit = random.size(1, 4) as u8;
    for _ in 0..random.size(0, 3) {
        match random.below(5) {
            0 => inputs::damage(random, &mut input),
            1 => input.job.model.n = random.pick(&[0, 2, 3, 4]),
            2 => input.job.model.p = random.pick(&[1, 2, 3]),
            _ => limit = random.pick(&[0, 5, 6, 255]),
        }
    }
    let records = input.store.len() / 12;
    let short = |random: &mut Random, right: usize| match random.below(4) {
        0 => random.size(0, right.saturating_sub(1)),
        _ => right + random.size(0, 2),
    };
    let rows = random.size(1, 6);
    let numbers = short(random, 16 * rows);
    let lent = [numbers, short(random, numbers / 16), short(random, records)];
    let mut run = Run::new(random, input, limit, lent);
    if random.once_in(8) {
        run.other_lengths(random);
    }
    run.call(calls);
    with_case(run.compare(), || run.to_string())
}

/// One call of peeling with what it was lent.
struct Run {
    input: Input,
    limit: u8,
    corners: Vec<i16>,
    start: Vec<i16>,
    table: Lent<i16>,
    bounds: Lent<u64>,
    labels: Lent<u8>,
    was: u64,
    found: Found,
    code: u32,
}

impl Run {
    fn new(random: &mut Random, input: Input, limit: u8, lent: [usize; 3]) -> Run {
        let table = Lent::new(lent[0], |count| random.numbers(count));
        let bounds = Lent::new(lent[1], |count| random.words(count));
        let labels = Lent::new(lent[2], |count| random.bytes(count));
        let was = random.next();
        let found = Found {
            vector: Lent::new(32, |count| random.numbers(count)),
            numbers: Lent::new(24, |count| random.words(count)),
            value: was,
        };
        let (corners, start) = (row_of(&input.job.domain), input.job.start.to_vec());
        Run { input, limit, corners, start, table, bounds, labels, was, found, code: 0 }
    }

    fn other_lengths(&mut self, random: &mut Random) {
        self.corners.resize(length_of(random, 16), 0);
        self.start.resize(length_of(random, 8), 0);
        let vectors = length_of(random, 32);
        self.found.vector = Lent::new(vectors, |count| random.numbers(count));
        let numbers = length_of(random, 24);
        self.found.numbers = Lent::new(numbers, |count| random.words(count));
    }

    fn lengths_right(&self) -> bool {
        let lent = [self.found.vector.was().len(), self.found.numbers.was().len()];
        [self.corners.len(), self.start.len()] == [16, 8] && lent == [32, 24]
    }

    fn call(&mut self, calls: &dyn Calls) {
        let (table, bounds, labels) = (self.table.part(), self.bounds.part(), self.labels.part());
        let (store, job) = (&self.input.store, &self.input.job);
        let (corners, start) = (&self.corners, &self.start);
        self.code = calls.peel(store, job, corners, start, self.limit, table, bounds, labels, &mut self.found);
    }

    fn expected(&self) -> Result<Peeled, Refusal> {
        let lent = [self.table.was().len(), self.bounds.was().len(), self.labels.was().len()];
        oracle::peel(&self.input.job, &self.input.store, self.limit, lent)
    }

    /// What is promised of every round, by all vectors of the box and the labels that the call wrote: a line that reads solved
    /// fits as many of the points then left as any other, up to t, and a point's label is the round that removed it.
    fn promises(&self) -> Outcome {
        same("answer", self.code, 0)?;
        let Job { model, domain, t, .. } = &self.input.job;
        let points = points_of(&self.input.store);
        let labels = &self.labels.now()[..points.len()];
        let rounds = self.found.value as usize;
        same("rounds within the limit", rounds <= self.limit as usize, true)?;
        for round in 1..=rounds {
            let left: Vec<usize> = (0..points.len())
                .filter(|&i| labels[i] == 0 || labels[i] as usize >= round && labels[i] < 5)
                .collect();
            same("a round is run on some points", left.is_empty(), false)?;
            let vector: [i16; 8] = self.found.vector.now()[8 * round - 8..8 * round].try_into().unwrap();
            let fits = |i: usize, vector: &[i16; 8]| {
                model.residual(&points[i], vector, 0).unsigned_abs() <= model.epsilon as u64
            };
            let fitted = |vector: &[i16; 8]| left.iter().filter(|&&i| fits(i, vector)).count() as u64;
            let solved = self.found.numbers.now()[6 * round - 6] == Kind::Solved as u64;
            if solved {
                let most = domain.grid().iter().map(fitted).max().unwrap();
                same("as many points as any other line, up to t", most <= fitted(&vector).saturating_add(*t), true)?;
            }
            for &i in &left {
                same("the label of a point left", labels[i] as usize == round, solved && fits(i, &vector))?;
            }
        }
        Ok(())
    }

    /// The answers and every lent element by the oracle; only rows and entries from the last open count up to the largest peak
    /// are free.
    fn compare(&self) -> Outcome {
        let kept = (self.found.vector.was(), self.found.numbers.was());
        if !self.lengths_right() {
            same("answer", self.code, WRONG_LENGTH)?;
            self.lent(self.table.was(), self.bounds.was(), self.labels.was())?;
            return self.told(kept.0, kept.1, self.was);
        }
        let expected = self.expected();
        same("answer", self.code, code_of(&expected))?;
        let (mut table, mut bounds) = (self.table.was().to_vec(), self.bounds.was().to_vec());
        let mut labels = self.labels.was().to_vec();
        let Ok(Peeled { rounds, labels: told }) = expected else {
            self.lent(&table, &bounds, &labels)?;
            return self.told(kept.0, kept.1, self.was);
        };
        labels[..told.len()].copy_from_slice(&told);
        let peak = rounds.iter().map(|answer| answer.peak).max().unwrap_or(0);
        let open = rounds.last().map_or(&[][..], |answer| &answer.open);
        for (row, open) in table.chunks_exact_mut(16).zip(open) {
            row.copy_from_slice(&row_of(open));
        }
        bounds[..open.len()].copy_from_slice(rounds.last().map_or(&[], |answer| &answer.bounds));
        table[16 * open.len()..16 * peak].copy_from_slice(&self.table.now()[16 * open.len()..16 * peak]);
        bounds[open.len()..peak].copy_from_slice(&self.bounds.now()[open.len()..peak]);
        self.lent(&table, &bounds, &labels)?;
        let (mut vectors, mut numbers) = (vec![0; 32], vec![0; 24]);
        for (k, answer) in rounds.iter().enumerate() {
            let Answer { kind, c, l, count, open, peak, .. } = answer;
            vectors[8 * k..8 * k + 8].copy_from_slice(&answer.vector);
            let round = [*kind as u64, *c, *l, *count as u64, open.len() as u64, *peak as u64];
            numbers[6 * k..6 * k + 6].copy_from_slice(&round);
        }
        self.told(&vectors, &numbers, rounds.len() as u64)
    }

    fn told(&self, vectors: &[i16], numbers: &[u64], value: u64) -> Outcome {
        same("value", self.found.value, value)?;
        self.found.vector.holds("vectors", vectors)?;
        self.found.numbers.holds("numbers", numbers)
    }

    fn lent(&self, table: &[i16], bounds: &[u64], labels: &[u8]) -> Outcome {
        self.labels.holds("labels", labels)?;
        self.table.holds("table", table)?;
        self.bounds.holds("bounds", bounds)
    }
}

impl std::fmt::Display for Run {
    fn fmt(&self, f: &mut std::fmt::Formatter) -> std::fmt::Result {
        let lent = [self.table.was().len(), self.bounds.was().len(), self.labels.was().len()];
        write!(f, "{}\n  limit {}, lent {lent:?} numbers, bounds and labels\n", self.input, self.limit)?;
        write!(f, "  corners {:?}, start {:?}\n", self.corners, self.start)?;
        let (vectors, numbers) = (self.found.vector.now(), self.found.numbers.now());
        let (code, value, labels) = (self.code, self.found.value, self.labels.now());
        write!(
            f,
            "  product: answer {code}, value {value}, vectors {vectors:?}, numbers {numbers:?}, labels {labels:?}\n"
        )?;
        write!(f, "  oracle: {:?}", self.expected())
    }
}
