//! Job and answer records.

use super::{code_of, hex, length_of, row_of, with_case, Outcome};
use crate::calls::{refusal_code, Calls, WRONG_LENGTH};
use crate::inputs::{self, Size};
use crate::lent::{same, Lent};
use crate::random::Random;
use oracle::records::{ANSWER, COST_LIMIT, JOB};
use oracle::{AnswerRecord, Job, Refusal};

/// The job of the first 72 bytes; fewer are refusal 1, which a buffer of a wrong length comes before.
pub fn read_job(calls: &dyn Calls, random: &mut Random) -> Outcome {
    let mut bytes = match random.below(2) {
        0 => random.bytes(JOB),
        _ => oracle::write_job(&inputs::sound(random).job).to_vec(),
    };
    if random.once_in(4) {
        bytes.resize(random.pick(&[0, 40, 71, 73, 84]), 7);
    }
    let mut lengths = [8, 16, 8];
    if random.once_in(6) {
        lengths = lengths.map(|right| length_of(random, right));
    }
    let mut numbers = Lent::new(lengths[0], |count| random.words(count));
    let mut corners = Lent::new(lengths[1], |count| random.numbers(count));
    let mut start = Lent::new(lengths[2], |count| random.numbers(count));
    let code = calls.read_job(&bytes, numbers.part(), corners.part(), start.part());
    let after = match bytes.first_chunk::<JOB>() {
        _ if lengths != [8, 16, 8] => Err(WRONG_LENGTH),
        Some(record) => Ok(oracle::read_job(record)),
        None => Err(refusal_code(Refusal::Length)),
    };
    let outcome = match &after {
        Ok(Job { model, t, budget, rows, domain, start: first }) => {
            let bytes = [model.n, model.d, model.s, model.p].map(u64::from);
            let rest = [model.epsilon as u64, *t, *budget as u64, *rows as u64];
            same("answer", code, 0)
                .and(numbers.holds("numbers", &[bytes, rest].concat()))
                .and(corners.holds("box", &row_of(domain)))
                .and(start.holds("start", first))
        }
        Err(refusal) => same("answer", code, *refusal)
            .and(numbers.holds("numbers", numbers.was()))
            .and(corners.holds("box", corners.was()))
            .and(start.holds("start", start.was())),
    };
    with_case(outcome, || format!("  bytes: {}\n  lengths {lengths:?}", hex(&bytes)))
}

/// The record in the first 72 bytes; fewer are refusal 10.
pub fn write_job(calls: &dyn Calls, random: &mut Random) -> Outcome {
    let record: [u8; JOB] = random.bytes(JOB).try_into().unwrap();
    let job = oracle::read_job(&record);
    let (mut corners, mut start) = (row_of(&job.domain), job.start.to_vec());
    if random.once_in(6) {
        corners.resize(length_of(random, 16), 0);
        start.resize(length_of(random, 8), 0);
    }
    let length = if random.once_in(3) { random.pick(&[0, 71, 73, 84]) } else { JOB };
    let mut lent = Lent::new(length, |count| random.bytes(count));
    let code = calls.write_job(&job, &corners, &start, lent.part());
    let mut after = lent.was().to_vec();
    let answer = if [corners.len(), start.len()] != [16, 8] {
        WRONG_LENGTH
    } else if length < JOB {
        refusal_code(Refusal::Short)
    } else {
        after[..JOB].copy_from_slice(&record);
        0
    };
    let outcome = same("answer", code, answer).and(lent.holds("record", &after));
    with_case(outcome, || format!("  {job:?}\n  corners {corners:?}, start {start:?}, bytes lent: {length}"))
}

/// An answer, sound or with one or two fields out of range or at its limit.
fn answer(random: &mut Random) -> AnswerRecord {
    let model = inputs::model(random);
    let used = model.used();
    let size = Size::random(random);
    let c = match random.below(3) {
        0 => random.below(COST_LIMIT + 1),
        1 => COST_LIMIT,
        _ => random.below(1000),
    };
    let mut answer = AnswerRecord {
        vector: std::array::from_fn(|k| if k < used { size.number(random) } else { 0 }),
        c,
        l: random.below(c + 1),
        count: random.next() as u32,
        kind: random.between(1, 3) as u8,
        n: model.n,
        d: model.d,
        s: model.s,
    };
    if random.once_in(2) {
        for _ in 0..random.size(1, 2) {
            spoil(random, &mut answer, used);
        }
    }
    answer
}

fn spoil(random: &mut Random, answer: &mut AnswerRecord, used: usize) {
    match random.below(9) {
        0 => answer.kind = random.pick(&[0, 4, 5, 129, 255]),
        1 => answer.n = random.pick(&[0, 3, 4, 5, 128, 255]),
        2 => answer.d = random.pick(&[0, 3, 4, 5, 128, 255]),
        3 => answer.s = random.pick(&[15, 16, 31, 255]),
        4 => answer.vector[random.size(used.min(7), 7)] = random.pick(&[-1, 1, 256]),
        5 => answer.l = answer.c,
        6 => answer.l = answer.c.saturating_add(1),
        7 => answer.l = random.next(),
        _ => answer.c = random.pick(&[COST_LIMIT, COST_LIMIT + 1, u64::MAX, 1 << 60, 0]),
    }
}

pub fn write_answer(calls: &dyn Calls, random: &mut Random) -> Outcome {
    let answer = answer(random);
    let mut vector = answer.vector.to_vec();
    if random.once_in(8) {
        vector.resize(length_of(random, 8), 0);
    }
    let length = random.pick(&[40, 40, 40, 41, 44, 80, 39, 0, 1]);
    let mut lent = Lent::new(length, |count| random.bytes(count));
    let code = calls.write_answer(&answer, &vector, lent.part());
    let mut after = lent.was().to_vec();
    let expected = match vector.len() {
        8 => code_of(&oracle::write_answer(&answer, &mut after)),
        _ => WRONG_LENGTH,
    };
    let outcome = same("answer", code, expected).and(lent.holds("record", &after));
    with_case(outcome, || format!("  {answer:?}\n  vector as given: {vector:?}, bytes lent: {length}"))
}

pub fn read_answer(calls: &dyn Calls, random: &mut Random) -> Outcome {
    let fields = answer(random);
    let mut bytes = bytes_of(&fields);
    match random.below(10) {
        0 => bytes.resize(random.pick(&[0, 39, 41, 80]), 0),
        1 => bytes = random.bytes(ANSWER),
        _ => {}
    }
    let mut lengths = [8, 7];
    if random.once_in(8) {
        lengths = lengths.map(|right| length_of(random, right));
    }
    let mut vector = Lent::new(lengths[0], |count| random.numbers(count));
    let mut numbers = Lent::new(lengths[1], |count| random.words(count));
    let code = calls.read_answer(&bytes, vector.part(), numbers.part());
    let expected = match lengths {
        [8, 7] => oracle::read_answer(&bytes).map_err(refusal_code),
        _ => Err(WRONG_LENGTH),
    };
    let outcome = match &expected {
        Ok(AnswerRecord { vector: found, c, l, count, kind, n, d, s }) => {
            let bytes = [*kind, *n, *d, *s].map(u64::from);
            let told = [&[*c, *l, *count as u64][..], &bytes].concat();
            same("answer", code, 0).and(vector.holds("vector", found)).and(numbers.holds("numbers", &told))
        }
        Err(refusal) => same("answer", code, *refusal)
            .and(vector.holds("vector", vector.was()))
            .and(numbers.holds("numbers", numbers.was())),
    };
    with_case(outcome, || format!("  bytes: {}\n  lengths {lengths:?}", hex(&bytes)))
}

/// The bytes of a record whose fields may be out of range, which no writer writes.
fn bytes_of(answer: &AnswerRecord) -> Vec<u8> {
    let mut bytes: Vec<u8> = answer.vector.iter().flat_map(|w| w.to_be_bytes()).collect();
    bytes.extend(answer.c.to_be_bytes());
    bytes.extend(answer.l.to_be_bytes());
    bytes.extend(answer.count.to_be_bytes());
    bytes.extend([answer.kind, answer.n, answer.d, answer.s]);
    bytes
}
