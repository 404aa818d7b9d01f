//! The cost by beacon: random stores, and values worked out by hand. There d = 1, x = 1 and S = 0, and record k has y = k,
//! so that at w = 0 with p = 1 and ε = 100 it costs k.

use super::bench::{one_line, store, vector};
use super::model::{other_length, with_numbers};
use super::{same_answer, with_case, Outcome};
use crate::calls::{Calls, WRONG_LENGTH};
use crate::inputs;
use crate::lent::{same, Lent};
use crate::random::Random;
use oracle::points::{store_of, Point};

/// Numbers of records at the ends of groups of 19 and beside them, and the largest stores, of 216 groups.
fn grouped_count(random: &mut Random) -> usize {
    let full = 19 * random.size(1, 6);
    match random.below(40) {
        0 => random.pick(&[4096, 4095, 4085, 4086, 4084]),
        1..15 => random.size(1, 130),
        _ => full + random.size(0, 2) - 1,
    }
}

/// Lists too short, just long enough, longer and of 216 entries.
pub fn any(calls: &dyn Calls, random: &mut Random) -> Outcome {
    let count = grouped_count(random);
    let mut input = inputs::sound_of(random, count);
    if random.below(5) >= 3 {
        inputs::damage(random, &mut input);
    }
    let groups = (input.store.len() / 12).div_ceil(19);
    let length = match random.below(8) {
        0 => groups.saturating_sub(1),
        1 => random.size(0, groups),
        2 | 3 => groups + random.size(1, 9),
        4 => 216,
        _ => groups,
    };
    let vector = other_length(random, &input.job.start);
    let was = random.next();
    let mut value = was;
    let mut lent = Lent::new(length, |count| random.words(count));
    let code = calls.cost_by_beacon(&input.store, &input.job.model, &vector, lent.part(), &mut value);
    let mut after = lent.was().to_vec();
    let outcome = match <&[i16; 8]>::try_from(&vector[..]) {
        Ok(eight) => {
            let expected = oracle::cost_by_beacon(&input.job.model, &input.store, eight, &mut after);
            same_answer(code, value, was, expected)
        }
        Err(_) => same("answer", code, WRONG_LENGTH).and(same("value", value, was)),
    };
    let outcome = outcome.and(lent.holds("sums", &after));
    with_case(outcome, || format!("{}\n  entries lent: {length}", with_numbers(&input, &vector)))
}

/// The number of records, and their sums: 0 to 18 are 171, 19 to 37 are 532.
const SUMS: &[(i16, &[u64])] = &[
    (1, &[0]),
    (18, &[153]),
    (19, &[171]),
    (20, &[171, 19]),
    (37, &[171, 495]),
    (38, &[171, 532]),
    (40, &[171, 532, 77]),
];

fn rising(count: i16) -> Vec<u8> {
    store(&(0..count).map(|y| (1, y)).collect::<Vec<_>>())
}

pub fn by_hand(calls: &dyn Calls, _: &mut Random) -> Outcome {
    let model = one_line(0, 1, 100);
    for &(count, expected) in SUMS {
        let total: u64 = expected.iter().sum();
        let (mut sums, mut value) = ([9; 4], 9);
        let code = calls.cost_by_beacon(&rising(count), &model, &vector(&[0]), &mut sums, &mut value);
        same("total", (code, value), (0, total))?;
        same("sums", &sums[..expected.len()], expected)?;
        same("further entries", sums[expected.len()..].iter().all(|&sum| sum == 9), true)?;
        let code = calls.cost(&rising(count), &model, &vector(&[0]), &mut value);
        same("plain cost", (code, value), (0, total))?;
    }
    Ok(())
}

/// Nineteen gaps fill the first group; a list is too small by its groups, gaps counted, and only after a stray x.
pub fn refused(calls: &dyn Calls, _: &mut Random) -> Outcome {
    let mut points = vec![Point { x: [1, 0, 0, 0], y: -32_768, frame: 0 }; 19];
    points.push(Point { y: 3, ..points[0] });
    let (mut sums, mut value) = ([9; 2], 9);
    let call = |points: &[Point], p, sums: &mut [u64], value: &mut u64| {
        calls.cost_by_beacon(&store_of(points), &one_line(0, p, 100), &vector(&[0]), sums, value)
    };
    same("one entry", (call(&points, 1, &mut sums[..1], &mut value), sums, value), (10, [9, 9], 9))?;
    same("p = 3", (call(&points, 3, &mut sums, &mut value), sums, value), (4, [9, 9], 9))?;
    same("two entries", (call(&points, 1, &mut sums, &mut value), sums, value), (0, [0, 3], 3))?;
    points[19].x[1] = 1;
    let code = call(&points, 1, &mut sums[..1], &mut value);
    same("a stray x and one entry", (code, sums, value), (7 + 19 * 256, [0, 3], 3))
}
