//! Several boards within one split budget.

use super::{code_of, hex, length_of, row_of, with_case, Outcome};
use crate::calls::{Calls, Found, Jobs, Slots, WRONG_LENGTH};
use crate::inputs::{self, Input};
use crate::lent::{same, Lent};
use crate::random::Random;
use oracle::points::{store_of, Point};
use oracle::{Answer, Board, Box8, Job, Model, Refusal};

/// One call with what it was lent.
struct Run {
    jobs: Jobs,
    table: Lent<i16>,
    bounds: Lent<u64>,
    slots: Slots,
    code: u32,
}

/// Records, stores and lengths of some jobs, one behind the other.
fn jobs_of(inputs: &[Input], total: u32) -> Jobs {
    Jobs {
        count: inputs.len() as u8,
        total,
        records: inputs.iter().flat_map(|input| oracle::write_job(&input.job)).collect(),
        stores: inputs.iter().flat_map(|input| input.store.clone()).collect(),
        lengths: inputs.iter().map(|input| input.store.len() as u32).collect(),
    }
}

/// A job with a small box and any budget, damaged once in three.
fn job(random: &mut Random) -> Input {
    let limit = random.pick(&[1, 8, 30, 100, 300]);
    let mut input = inputs::small(random, limit);
    input.job.budget = random.pick(&[0, 1, 3, 10, 50, 1000, u32::MAX]);
    input.job.t = random.pick(&[0, 0, 0, 1, 20]);
    input.job.rows = random.pick(&[0, 1, 5, u32::MAX]);
    if random.once_in(3) {
        inputs::damage(random, &mut input);
    }
    input
}

/// One to eight jobs, good and damaged, with any total.
fn some(random: &mut Random) -> Jobs {
    let count = random.size(1, 8);
    let inputs: Vec<Input> = (0..count).map(|_| job(random)).collect();
    let total = random.pick(&[0, 1, 5, 7, 20, 60, 200, 1000, u32::MAX]);
    jobs_of(&inputs, total)
}

impl Run {
    fn new(random: &mut Random, jobs: Jobs, numbers: usize, entries: usize) -> Run {
        let table = Lent::new(numbers, |count| random.numbers(count));
        let bounds = Lent::new(entries, |count| random.words(count));
        let slots = Slots {
            codes: Lent::new(8, |count| random.patterns(count)),
            budgets: Lent::new(8, |count| random.patterns(count)),
            vectors: Lent::new(64, |count| random.numbers(count)),
            numbers: Lent::new(48, |count| random.words(count)),
        };
        Run { jobs, table, bounds, slots, code: 0 }
    }

    /// Mostly rows enough for every box.
    fn any_table(random: &mut Random, jobs: Jobs) -> Run {
        let rows = random.pick(&[1, 2, 4, 20, 200, 200]);
        let numbers = 16 * rows + random.pick(&[0, 0, 1, 15]);
        let entries = rows + random.pick(&[0, 0, 1, 3]);
        Run::new(random, jobs, numbers, entries)
    }

    /// Some of the four buffers have other lengths.
    fn other_lengths(&mut self, random: &mut Random) {
        let [codes, budgets, vectors, numbers] = [8, 8, 64, 48].map(|right| length_of(random, right));
        self.slots.codes = Lent::new(codes, |count| random.patterns(count));
        self.slots.budgets = Lent::new(budgets, |count| random.patterns(count));
        self.slots.vectors = Lent::new(vectors, |count| random.numbers(count));
        self.slots.numbers = Lent::new(numbers, |count| random.words(count));
    }

    fn call(&mut self, calls: &dyn Calls) {
        self.code = calls.boards(&self.jobs, self.table.part(), self.bounds.part(), &mut self.slots);
    }

    fn lengths_right(&self) -> bool {
        let Slots { codes, budgets, vectors, numbers } = &self.slots;
        [codes.was().len(), budgets.was().len(), vectors.was().len(), numbers.was().len()] == [8, 8, 64, 48]
    }

    fn expected(&self) -> Result<Vec<Board>, Refusal> {
        let Jobs { count, total, records, stores, lengths } = &self.jobs;
        let (numbers, entries) = (self.table.was().len(), self.bounds.was().len());
        oracle::boards(*count, *total, records, stores, lengths, numbers, entries)
    }

    /// Nothing lent has changed.
    fn kept(&self) -> Outcome {
        let Slots { codes, budgets, vectors, numbers } = &self.slots;
        codes.holds("codes", codes.was())?;
        budgets.holds("budgets", budgets.was())?;
        vectors.holds("vectors", vectors.was())?;
        numbers.holds("numbers", numbers.was())?;
        self.table.holds("table", self.table.was())?;
        self.bounds.holds("bounds", self.bounds.was())
    }

    /// The code and every lent element by the oracle; only rows and entries from the last open count up to the largest peak are free.
    fn compare(&self) -> Outcome {
        if !self.lengths_right() {
            same("answer", self.code, WRONG_LENGTH)?;
            return self.kept();
        }
        let expected = self.expected();
        same("answer", self.code, code_of(&expected))?;
        let Ok(boards) = expected else {
            return self.kept();
        };
        self.told(&boards)?;
        self.lent(&boards)
    }

    fn told(&self, boards: &[Board]) -> Outcome {
        let (mut codes, mut budgets, mut vectors, mut numbers) = ([0; 8], [0; 8], [0; 64], [0; 48]);
        for (k, board) in boards.iter().enumerate() {
            codes[k] = code_of(&board.outcome);
            budgets[k] = board.budget;
            if let Ok(answer) = &board.outcome {
                let Answer { kind, vector, c, l, count, open, peak, .. } = answer;
                vectors[8 * k..8 * k + 8].copy_from_slice(vector);
                let told = [*kind as u64, *c, *l, *count as u64, open.len() as u64, *peak as u64];
                numbers[6 * k..6 * k + 6].copy_from_slice(&told);
            }
        }
        self.slots.codes.holds("codes", &codes)?;
        self.slots.budgets.holds("budgets", &budgets)?;
        self.slots.vectors.holds("vectors", &vectors)?;
        self.slots.numbers.holds("numbers", &numbers)
    }

    fn lent(&self, boards: &[Board]) -> Outcome {
        let (mut table, mut bounds) = (self.table.was().to_vec(), self.bounds.was().to_vec());
        let answers: Vec<&Answer> = boards.iter().filter_map(|board| board.outcome.as_ref().ok()).collect();
        if let Some(last) = answers.last() {
            let peak = answers.iter().map(|answer| answer.peak).max().unwrap();
            table[..16 * peak].copy_from_slice(&self.table.now()[..16 * peak]);
            bounds[..peak].copy_from_slice(&self.bounds.now()[..peak]);
            for (row, open) in table.chunks_exact_mut(16).zip(&last.open) {
                row.copy_from_slice(&row_of(open));
            }
            bounds[..last.bounds.len()].copy_from_slice(&last.bounds);
        }
        self.table.holds("table", &table)?;
        self.bounds.holds("bounds", &bounds)
    }
}

impl std::fmt::Display for Run {
    fn fmt(&self, f: &mut std::fmt::Formatter) -> std::fmt::Result {
        let Jobs { count, total, records, stores, lengths } = &self.jobs;
        write!(f, "  count {count}, total {total}, lengths {lengths:?}\n  records: {}\n", hex(records))?;
        write!(f, "  stores: {}\n", hex(stores))?;
        write!(f, "  table of {} numbers, list of {} bounds\n", self.table.was().len(), self.bounds.was().len())?;
        write!(f, "  product: answer {}, codes {:?}, ", self.code, self.slots.codes.now())?;
        write!(f, "budgets {:?}, numbers {:?}\n", self.slots.budgets.now(), self.slots.numbers.now())?;
        write!(f, "  oracle: {:?}", self.expected())
    }
}

fn compared(calls: &dyn Calls, mut run: Run) -> Outcome {
    run.call(calls);
    with_case(run.compare(), || run.to_string())
}

/// Good and damaged jobs side by side; the last store is cut short now and then, and more is behind the jobs than they are.
pub fn mixed(calls: &dyn Calls, random: &mut Random) -> Outcome {
    let mut jobs = some(random);
    match random.below(6) {
        0 => jobs.stores.truncate(jobs.stores.len().saturating_sub(random.size(1, 30))),
        1 => {
            let more = random.size(1, 200);
            jobs.records.extend(random.bytes(more));
            jobs.stores.extend(random.bytes(more));
            jobs.lengths.extend(random.patterns(more));
        }
        2 if jobs.count > 1 => jobs.count -= 1,
        3 => {
            let k = random.size(0, jobs.lengths.len() - 1);
            jobs.lengths[k] = jobs.lengths[k].wrapping_add_signed(random.pick(&[-12, -1, 1, 12]));
        }
        _ => {}
    }
    let run = Run::any_table(random, jobs);
    compared(calls, run)
}

/// What is promised without the oracle: the splits together, each job's least budget, and each answer as a search of that job alone under
/// the budget that it got tells it.
pub fn each_alone(calls: &dyn Calls, random: &mut Random) -> Outcome {
    let inputs: Vec<Input> = (0..random.size(1, 8)).map(|_| job(random)).collect();
    let total = random.pick(&[0, 3, 17, 40, 100, u32::MAX]);
    let mut run = Run::any_table(random, jobs_of(&inputs, total));
    run.call(calls);
    let outcome = same("answer", run.code, 0).and_then(|()| {
        let (numbers, budgets) = (run.slots.numbers.now(), run.slots.budgets.now());
        let splits: u64 = numbers.chunks_exact(6).map(|told| told[3]).sum();
        same("the splits are at most the total", splits <= total as u64, true)?;
        for (k, input) in inputs.iter().enumerate() {
            let least = input.job.budget.min(total / inputs.len() as u32);
            same("least budget", budgets[k] >= least && budgets[k] <= input.job.budget, true)?;
            let alone = search_alone(calls, &run, input, budgets[k]);
            let told = [&numbers[6 * k..6 * k + 6], &[run.slots.codes.now()[k] as u64]].concat();
            same(
                "answer of a job alone",
                (told, &run.slots.vectors.now()[8 * k..8 * k + 8]),
                (alone.0, &alone.1[..]),
            )?;
        }
        Ok(())
    });
    with_case(outcome, || run.to_string())
}

/// Kind, C, L, count, open, peak and code of a search alone in as large a table, and its vector.
fn search_alone(calls: &dyn Calls, run: &Run, input: &Input, budget: u32) -> (Vec<u64>, Vec<i16>) {
    let (mut table, mut bounds) = (vec![0; run.table.was().len()], vec![0; run.bounds.was().len()]);
    let mut found = Found { vector: Lent::new(8, |n| vec![0; n]), numbers: Lent::new(5, |n| vec![0; n]), value: 0 };
    let job = Job { budget, ..input.job };
    let (corners, start) = (row_of(&job.domain), job.start);
    let code = calls.search(&input.store, &job, &corners, &start, &mut table, &mut bounds, &mut found);
    let told = [&[found.value][..], found.numbers.now(), &[code as u64]].concat();
    (told, found.vector.now().to_vec())
}

/// 18 in each way, tables and lists that are too short, and buffers of other lengths.
pub fn refused(calls: &dyn Calls, random: &mut Random) -> Outcome {
    let mut jobs = some(random);
    match random.below(5) {
        0 => {
            jobs.count = random.pick(&[0, 9, 9, 10, 128, 255]);
            jobs.records.resize(72 * 10, 0);
            jobs.lengths.resize(10, 0);
        }
        1 => jobs.records.truncate(jobs.records.len() - random.size(1, 72)),
        2 => jobs.lengths.truncate(random.size(0, jobs.lengths.len() - 1)),
        _ => {}
    }
    let (numbers, entries) = (random.size(0, 40), random.size(0, 3));
    let mut run = Run::new(random, jobs, numbers, entries);
    if random.once_in(3) {
        run.other_lengths(random);
    }
    compared(calls, run)
}

/// Lengths whose sum is past 2^32: what is behind begins past every buffer, also where the sum less 2^32 lies in it.
pub fn past_32_bits(calls: &dyn Calls, random: &mut Random) -> Outcome {
    let inputs: Vec<Input> = (0..random.size(3, 8)).map(|_| job(random)).collect();
    let mut jobs = jobs_of(&inputs, random.pick(&[10, 100, u32::MAX]));
    let k = random.size(0, inputs.len() - 3);
    let before: u32 = jobs.lengths[..k].iter().sum();
    match random.below(4) {
        // The next store would begin where this one does.
        0 => (jobs.lengths[k], jobs.lengths[k + 1]) = (1 << 31, 1 << 31),
        1 => (jobs.lengths[k], jobs.lengths[k + 1]) = (u32::MAX, 1),
        // Or at 0.
        2 => jobs.lengths[k] = 0u32.wrapping_sub(before),
        _ => jobs.lengths[k..].fill(u32::MAX),
    }
    let run = Run::any_table(random, jobs);
    compared(calls, run)
}

/// A job of one line in one dimension whose search makes just `budget` splits of those that it gets, while they are fewer than 15.
fn greedy(budget: u32) -> Input {
    let model = Model { n: 1, d: 1, s: 0, p: 1, epsilon: 1000 };
    let side = |w: i16| std::array::from_fn(|k| if k == 0 { w } else { 0 });
    let domain = Box8 { low: side(0), high: side(15) };
    // Two samples that no line fits both of: every bound stays below every cost until the box is cut up.
    let points = [Point { x: [1, 0, 0, 0], y: 0, frame: 1 }, Point { x: [1, 0, 0, 0], y: 15, frame: 2 }];
    let job = Job { model, t: 0, budget, rows: 0, domain, start: side(0) };
    Input { job, store: store_of(&points) }
}

/// Budgets worked out by hand: of 20 splits for three jobs the first gets 6, the second, which is refused, 7 of the 14 left and spends
/// none, and the third all 14; and of 10 the first, with 2 of its own, leaves 8, of which the next gets 4 and the last 4.
pub fn by_hand(calls: &dyn Calls, random: &mut Random) -> Outcome {
    let mut bad = greedy(100);
    bad.job.model.s = 16;
    for (inputs, total, budgets, splits) in [
        ([greedy(100), bad, greedy(100)], 20, [6, 7, 14], [6, 0, 14]),
        ([greedy(2), greedy(100), greedy(100)], 10, [2, 4, 4], [2, 4, 4]),
    ] {
        let mut run = Run::new(random, jobs_of(&inputs, total), 16 * 20, 20);
        run.call(calls);
        let outcome = same("budgets", &run.slots.budgets.now()[..3], &budgets).and_then(|()| {
            let made: Vec<u64> = run.slots.numbers.now().chunks_exact(6).take(3).map(|told| told[3]).collect();
            same("splits", made, splits.to_vec())?;
            run.compare()
        });
        with_case(outcome, || run.to_string())?;
    }
    Ok(())
}
