//! A pass through the windows of a store: every record and lent element by the oracle, and each window by the product's own
//! search of it alone.

use super::{code_of, length_of, row_of, with_case, Outcome};
use crate::calls::{Calls, Found, Passed, WRONG_LENGTH};
use crate::inputs::{self, Input};
use crate::lent::{same, Lent};
use crate::random::Random;
use oracle::points::{store_of, Point, RECORD};
use oracle::records::ANSWER;
use oracle::{Answer, AnswerRecord, Box8, Job, Model, Refusal};

/// The values of six records with x = 1, worked out by hand: windows of three, one apart and three apart, one for a hop past
/// the store; then each refusal that a pass has of its own, and its place among the others.
pub fn by_hand(calls: &dyn Calls, random: &mut Random) -> Outcome {
    let store = store_of(&[2, 2, 9, 9, 9, 4].map(|y| Point { x: [1, 0, 0, 0], y, frame: 0 }));
    let mut domain = Box8 { low: [0; 8], high: [0; 8] };
    domain.high[0] = 15;
    let model = |p, epsilon| Model { n: 1, d: 1, s: 0, p, epsilon };
    let job = |model| Job { model, t: 0, budget: 15, rows: 0, domain, start: [0; 8] };
    let mut run = |model, window, room| {
        let mut run = Run::new(random, Input { job: job(model), store: store.clone() }, window, [128, 8], room);
        run.call(calls);
        with_case(run.compare(), || run.to_string()).map(|()| run)
    };
    let all = [(2, 2), (9, 2), (9, 0), (9, 2)];
    for (window, expected) in
        [([3, 1], &all[..]), ([3, 3], &[all[0], all[3]]), ([3, 4], &all[..1]), ([3, usize::MAX], &all[..1])]
    {
        let passed = run(model(1, 2), window, 160)?;
        let told: Vec<(i16, u64)> = passed.records().iter().map(|record| (record.vector[0], record.c)).collect();
        same("vectors and costs", &told[..], expected)?;
    }
    for (model, window, room, code) in [
        (model(3, 2), [3, 1], 160, 0),
        (model(3, 3), [3, 1], 160, 4),
        (model(3, 0), [0, 1], 160, 4),
        (model(3, 6), [7, 1], 160, 17),
        (model(1, 2), [0, 1], 0, 17),
        (model(1, 2), [3, 0], 0, 17),
        (model(1, 2), [7, 1], 0, 17),
        (model(1, 2), [3, 1], 159, 10),
        (model(1, 2), [6, 1], 40, 0),
    ] {
        same("answer", run(model, window, room)?.code, code)?;
    }
    Ok(())
}

/// Sound passes; each record is held against the product's own search of that window alone.
pub fn alone(calls: &dyn Calls, random: &mut Random) -> Outcome {
    let mut input = drifting(random);
    let records = input.store.len() / RECORD;
    let window = [random.size(1, records), random.size(1, records)];
    input.limit_to(window[0]);
    let rows = random.pick(&[1, 2, 5, 30, 100]);
    let extra = random.pick(&[0, 0, 1, 39, 40, 41]);
    let room = ANSWER * count_of(records, window) + extra;
    let lent = [16 * rows + random.size(0, 15), rows + random.pick(&[0, 0, 1, 3])];
    let mut run = Run::new(random, input, window, lent, room);
    run.call(calls);
    let outcome = same("answer", run.code, 0).and_then(|()| run.compare()).and_then(|()| run.each_alone(calls));
    with_case(outcome, || run.to_string())
}

/// Lengths and hops at their ends, on sound input.
pub fn ends(calls: &dyn Calls, random: &mut Random) -> Outcome {
    let mut input = if random.once_in(40) { inputs::sound_of(random, 4096) } else { drifting(random) };
    let records = input.store.len() / RECORD;
    let near = [0, 1, 2, records - 1, records, records + 1, 4096, 4097, usize::MAX - 1, usize::MAX];
    let sizes = [usize::MAX / 12, usize::MAX / 12 + 1, usize::MAX / 40, 1 << 63];
    let mut any = || if random.once_in(4) { random.pick(&sizes) } else { random.pick(&near) };
    let window = [any(), any()];
    // Windows of a large store are few, so that a case ends soon.
    let window = if records > 100 { [window[0], window[1].max(2000)] } else { window };
    if !random.once_in(6) {
        input.limit_to(window[0]);
    }
    input.job.budget = random.below(4) as u32;
    let room = room_for(random, records, window);
    let mut run = Run::new(random, input, window, [48, 3], room);
    run.call(calls);
    with_case(run.compare(), || run.to_string())
}

/// Damaged jobs and stores, lent memory that is too short, buffers of other lengths, and lengths and hops that 17 refuses.
pub fn damaged(calls: &dyn Calls, random: &mut Random) -> Outcome {
    let mut input = drifting(random);
    let records = input.store.len() / RECORD;
    let window = [random.size(0, records + 1), random.size(0, records)];
    if !random.once_in(6) {
        input.limit_to(window[0]);
    }
    input.job.budget = random.below(8) as u32;
    if !random.once_in(4) {
        inputs::damage(random, &mut input);
    }
    let records = input.store.len() / RECORD;
    let numbers = if random.once_in(3) { random.size(0, 17) } else { random.size(16, 100) };
    let entries = if random.once_in(3) { random.size(0, 7) } else { random.size(numbers / 16, 10) };
    let room = room_for(random, records, window);
    let mut run = Run::new(random, input, window, [numbers, entries], room);
    if random.once_in(8) {
        run.corners.resize(length_of(random, 16), 0);
        run.start.resize(length_of(random, 8), 0);
    }
    run.call(calls);
    with_case(run.compare(), || run.to_string())
}

/// How many windows check 10 asks room for, where check 17 passes; else any few.
fn count_of(records: usize, [k, h]: [usize; 2]) -> usize {
    if k > records || h == 0 {
        return 3;
    }
    (records - k) / h + 1
}

fn room_for(random: &mut Random, records: usize, window: [usize; 2]) -> usize {
    let right = ANSWER * count_of(records, window).min(4097);
    match random.below(5) {
        0 => right.saturating_sub(random.pick(&[1, 40])),
        1 => right + random.size(1, 50),
        2 => random.size(0, right),
        _ => right,
    }
}

/// A small job whose points change along the store, so that windows have different answers, each taking a few splits.
fn drifting(random: &mut Random) -> Input {
    let limit = random.pick(&[2, 30, 300, 3000]);
    let mut input = inputs::small(random, limit);
    let drift = random.between(-3, 3);
    for (i, record) in input.store.chunks_exact_mut(RECORD).enumerate() {
        let mut point = Point::read(record);
        if !point.is_gap() {
            point.y = (point.y as i64 + drift * i as i64).clamp(-32_767, 32_767) as i16;
        }
        record.copy_from_slice(&point.write());
    }
    input.job.budget = random.pick(&[0, 1, 3, 10, 10, 60, u32::MAX]);
    input.job.t = random.pick(&[0, 0, 0, 1, 5]);
    input
}

impl Input {
    /// For p = 3 q stays below the window's length.
    fn limit_to(&mut self, k: usize) {
        let model = &mut self.job.model;
        if model.p == 3 && k > 0 {
            model.epsilon = model.epsilon.min(k.min(4096) as u32 - 1);
        }
    }
}

/// One pass with what it was lent.
struct Run {
    input: Input,
    corners: Vec<i16>,
    start: Vec<i16>,
    window: [usize; 2],
    lent: Passed,
    was: u64,
    code: u32,
}

impl Run {
    fn new(
        random: &mut Random,
        input: Input,
        window: [usize; 2],
        [numbers, entries]: [usize; 2],
        room: usize,
    ) -> Run {
        let was = random.next();
        let lent = Passed {
            table: Lent::new(numbers, |count| random.numbers(count)),
            bounds: Lent::new(entries, |count| random.words(count)),
            out: Lent::new(room, |count| random.bytes(count)),
            value: was,
        };
        let (corners, start) = (row_of(&input.job.domain), input.job.start.to_vec());
        Run { input, corners, start, window, lent, was, code: 0 }
    }

    fn call(&mut self, calls: &dyn Calls) {
        let Input { job, store } = &self.input;
        self.code = calls.windows(store, job, &self.corners, &self.start, self.window, &mut self.lent);
    }

    /// The records written.
    fn records(&self) -> Vec<AnswerRecord> {
        let written = self.lent.out.now().chunks_exact(ANSWER).take(self.lent.value as usize);
        written.map(oracle::records::answer_fields).collect()
    }

    /// What the oracle answers, with the output afterwards.
    fn expected(&self) -> (Result<Vec<Answer>, Refusal>, Vec<u8>) {
        let mut out = self.lent.out.was().to_vec();
        let lent = [self.lent.table.was().len(), self.lent.bounds.was().len()];
        (oracle::windows(&self.input.job, &self.input.store, self.window, lent, &mut out), out)
    }

    /// The answer and every lent element by the oracle; only rows and entries from the last search's open count up to the
    /// largest peak are free.
    fn compare(&self) -> Outcome {
        let (mut table, mut bounds) = (self.lent.table.was().to_vec(), self.lent.bounds.was().to_vec());
        if [self.corners.len(), self.start.len()] != [16, 8] {
            same("answer", self.code, WRONG_LENGTH)?;
            return self.holds(self.was, &table, &bounds, self.lent.out.was());
        }
        let (expected, out) = self.expected();
        same("answer", self.code, code_of(&expected))?;
        let mut value = self.was;
        if let Ok(answers) = expected {
            value = answers.len() as u64;
            let last = answers.last().unwrap();
            let peak = answers.iter().map(|answer| answer.peak).max().unwrap();
            let free = 16 * last.open.len()..16 * peak;
            table[free.clone()].copy_from_slice(&self.lent.table.now()[free]);
            bounds[last.open.len()..peak].copy_from_slice(&self.lent.bounds.now()[last.open.len()..peak]);
            for (row, open) in table.chunks_exact_mut(16).zip(&last.open) {
                row.copy_from_slice(&row_of(open));
            }
            bounds[..last.bounds.len()].copy_from_slice(&last.bounds);
        }
        self.holds(value, &table, &bounds, &out)
    }

    fn holds(&self, value: u64, table: &[i16], bounds: &[u64], out: &[u8]) -> Outcome {
        same("number of windows", self.lent.value, value)?;
        self.lent.table.holds("table", table)?;
        self.lent.bounds.holds("bounds", bounds)?;
        self.lent.out.holds("output", out)
    }

    /// Each record is that of the product's search of the window alone, in memory of its own, from the vector before it.
    fn each_alone(&self, calls: &dyn Calls) -> Outcome {
        let ([k, h], Model { n, d, s, .. }) = (self.window, self.input.job.model);
        let mut start = self.start.clone();
        for (i, written) in self.lent.out.now().chunks_exact(ANSWER).take(self.lent.value as usize).enumerate() {
            let window = &self.input.store[RECORD * i * h..RECORD * (i * h + k)];
            let mut table = vec![0; self.lent.table.was().len()];
            let mut bounds = vec![0; self.lent.bounds.was().len()];
            let (vector, numbers) = (Lent::new(8, |count| vec![0; count]), Lent::new(5, |count| vec![0; count]));
            let mut found = Found { vector, numbers, value: 0 };
            let job = &self.input.job;
            same("alone", calls.search(window, job, &self.corners, &start, &mut table, &mut bounds, &mut found), 0)?;
            let vector: [i16; 8] = found.vector.now().try_into().unwrap();
            let [c, l, count, _, _] = found.numbers.now().try_into().unwrap();
            let answer = AnswerRecord { vector, c, l, count: count as u32, kind: found.value as u8, n, d, s };
            let mut record = [0; ANSWER];
            same("record of window alone", calls.write_answer(&answer, &vector, &mut record), 0)?;
            same(&format!("record {i}"), written, &record[..])?;
            start = vector.to_vec();
        }
        Ok(())
    }
}

impl std::fmt::Display for Run {
    fn fmt(&self, f: &mut std::fmt::Formatter) -> std::fmt::Result {
        let (numbers, entries) = (self.lent.table.was().len(), self.lent.bounds.was().len());
        write!(
            f,
            "{}\n  k and h {:?}, table of {numbers} numbers, list of {entries} bounds, ",
            self.input, self.window
        )?;
        write!(f, "output of {} bytes\n  corners {:?}, ", self.lent.out.was().len(), self.corners)?;
        write!(f, "start {:?}\n  product: answer {}, value {}\n", self.start, self.code, self.lent.value)?;
        write!(f, "  oracle: {:?}", self.expected().0)
    }
}
