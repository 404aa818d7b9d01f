//! Loss, cost, bound, split and labels.

use super::{code_of, row_of, same_answer, with_case, Outcome};
use crate::calls::{Calls, WRONG_LENGTH};
use crate::inputs::{self, any, Input};
use crate::lent::{same, Lent};
use crate::random::Random;

pub fn loss(calls: &dyn Calls, random: &mut Random) -> Outcome {
    let p = random.pick(&[0, 0, 1, 1, 2, 2, 2, 3, 255]);
    let any_epsilon = random.below(1 << 25) as u32;
    let epsilon = random.pick(&[0, 1, 2, 5, 1000, 16_777_214, 16_777_215, 16_777_216, any_epsilon, any_epsilon]);
    let near = epsilon as i64 + random.between(-2, 2);
    let size = match random.below(4) {
        0 => random.next() as i64,
        1 => random.pick(&[i64::MIN, i64::MIN + 1, i64::MAX, 5_368_709_120, 1 << 32, 1 << 33, 3_037_000_500]),
        _ => near,
    };
    let e = if random.once_in(2) { size } else { size.wrapping_neg() };
    let was = random.next();
    let mut value = was;
    let code = calls.loss(p, epsilon, e, &mut value);
    let outcome = same_answer(code, value, was, oracle::loss(p, epsilon, e));
    with_case(outcome, || format!("  p = {p}, epsilon = {epsilon}, e = {e}"))
}

/// Another number of elements than the call takes, once in a while.
pub(super) fn other_length(random: &mut Random, numbers: &[i16]) -> Vec<i16> {
    let mut other = numbers.to_vec();
    if random.once_in(20) {
        let length = numbers.len();
        other.resize(random.pick(&[0, 1, length / 2, length - 1, length + 1, 2 * length]), 0);
    }
    other
}

pub(super) fn with_numbers(input: &Input, numbers: &[i16]) -> String {
    format!("{input}\n  numbers as given: {numbers:?}")
}

pub fn cost(calls: &dyn Calls, random: &mut Random) -> Outcome {
    let input = any(random);
    let vector = other_length(random, &input.job.start);
    let was = random.next();
    let mut value = was;
    let code = calls.cost(&input.store, &input.job.model, &vector, &mut value);
    let outcome = match <&[i16; 8]>::try_from(&vector[..]) {
        Ok(eight) => same_answer(code, value, was, oracle::cost(&input.job.model, &input.store, eight)),
        Err(_) => same("answer", code, WRONG_LENGTH).and(same("value", value, was)),
    };
    with_case(outcome, || with_numbers(&input, &vector))
}

pub fn bound(calls: &dyn Calls, random: &mut Random) -> Outcome {
    let input = any(random);
    let corners = other_length(random, &row_of(&input.job.domain));
    let was = random.next();
    let mut value = was;
    let code = calls.bound(&input.store, &input.job.model, &corners, &mut value);
    let outcome = if corners.len() == 16 {
        same_answer(code, value, was, oracle::bound(&input.job.model, &input.store, &input.job.domain))
    } else {
        same("answer", code, WRONG_LENGTH).and(same("value", value, was))
    };
    with_case(outcome, || with_numbers(&input, &corners))
}

pub fn split(calls: &dyn Calls, random: &mut Random) -> Outcome {
    let mut input = any(random);
    let domain = &mut input.job.domain;
    match random.below(8) {
        0 => domain.high = domain.low,
        1 => {
            // Sides of equal length, where the lowest coordinate is cut.
            for k in 0..8 {
                domain.high[k] = domain.low[k].saturating_add((domain.high[k] != domain.low[k]) as i16 * 3);
            }
        }
        _ => {}
    }
    let (n, d) = (input.job.model.n, input.job.model.d);
    let corners = other_length(random, &row_of(domain));
    let length = random.pick(&[32, 32, 32, 32, 32, 32, 33, 48, 31, 16, 0]);
    let mut halves = Lent::new(length, |count| random.numbers(count));
    let code = calls.split(n, d, &corners, halves.part());
    let mut after = halves.was().to_vec();
    let answer = if corners.len() != 16 || length < 32 {
        WRONG_LENGTH
    } else {
        let expected = oracle::split(n, d, domain);
        if let Ok((left, right)) = &expected {
            after[..16].copy_from_slice(&row_of(left));
            after[16..32].copy_from_slice(&row_of(right));
        }
        code_of(&expected)
    };
    let outcome = same("answer", code, answer).and(halves.holds("halves", &after));
    with_case(outcome, || {
        format!("  n = {n}, d = {d}, {domain:?}\n  corners as given: {corners:?}, halves lent: {length}")
    })
}

pub fn labels(calls: &dyn Calls, random: &mut Random) -> Outcome {
    let mut input = any(random);
    match random.below(4) {
        0 => inputs::equal_lines(&mut input),
        1 => inputs::meet_the_second_line(random, &mut input),
        _ => {}
    }
    let records = input.store.len() / 12;
    let length = match random.below(6) {
        0 => records.saturating_sub(random.size(1, 3)),
        1 | 2 => records,
        3 => 0,
        _ => records + random.size(1, 9),
    };
    let vector = other_length(random, &input.job.start);
    let was = random.next();
    let mut value = was;
    let mut lent = Lent::new(length, |count| random.bytes(count));
    let code = calls.labels(&input.store, &input.job.model, &vector, lent.part(), &mut value);
    let mut after = lent.was().to_vec();
    let outcome = match <&[i16; 8]>::try_from(&vector[..]) {
        Ok(eight) => {
            let expected = oracle::labels(&input.job.model, &input.store, eight, &mut after);
            same_answer(code, value, was, expected.map(|count| count as u64))
        }
        Err(_) => same("answer", code, WRONG_LENGTH).and(same("value", value, was)),
    };
    let outcome = outcome.and(lent.holds("labels", &after));
    with_case(outcome, || format!("{}\n  labels lent: {length}", with_numbers(&input, &vector)))
}
