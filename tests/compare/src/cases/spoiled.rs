//! A limit on bad samples, p = 3: values worked out by hand, and stores of any number of records with every place of q. By
//! hand d = 1, x = 1 and S = 0 unless said, so that at w = 0 the size of a sample is |y|.

use super::bench::{fit_of, interval, one_line, row, store, vector};
use super::{row_of, same_answer, with_case, Outcome};
use crate::calls::Calls;
use crate::inputs::{self, Input};
use crate::lent::same;
use crate::random::Random;
use oracle::points::{store_of, Point, GAP_Y};
use oracle::Model;

/// A store with this y in each record and x = 1.
fn samples(y: &[i16]) -> Vec<u8> {
    store(&y.iter().map(|&y| (1, y)).collect::<Vec<_>>())
}

/// The y, and for every q the cost at w = 0 and the bound over 1..2; behind the last q is 4 refused.
const PLACES: &[(&[i16], &[u64], &[u64])] = &[
    // Least sizes over 1..2: 1, 5, 1, 3 and 1.
    (&[3, -4, 3, 5, 0], &[5, 4, 3, 3, 0], &[5, 3, 1, 1, 1]),
    // Equal sizes of both signs.
    (&[7, -7, 7], &[7, 7, 7], &[8, 5, 5]),
    // Gaps count as records of size 0, before and behind the samples.
    (&[GAP_Y, 3, GAP_Y, 5, GAP_Y], &[5, 3, 0, 0, 0], &[3, 1, 0, 0, 0]),
    (&[GAP_Y; 3], &[0, 0, 0], &[0, 0, 0]),
    (&[GAP_Y + 1, i16::MAX], &[32_767, 32_767], &[32_768, 32_765]),
    (&[6], &[6], &[4]),
];

/// Four x of −32,768 at w = −32,768 and S = 15: a gap, the largest size of a sample, and the size 2^32.
fn largest() -> (Vec<u8>, Model, [u64; 3]) {
    let least = Point { x: [-32_768; 4], y: -32_767, frame: 0 };
    let store = store_of(&[Point { y: GAP_Y, ..least }, least, Point { y: 0, ..least }]);
    (store, Model { d: 4, ..one_line(15, 3, 0) }, [5_368_676_352, 4_294_967_296, 0])
}

pub fn cost(calls: &dyn Calls, _: &mut Random) -> Outcome {
    let of = |store: &[u8], model: &Model, used: &[i16]| {
        let mut value = 9;
        (calls.cost(store, model, &vector(used), &mut value), value)
    };
    for &(y, costs, _) in PLACES {
        for (q, &cost) in costs.iter().enumerate() {
            same(&format!("y = {y:?}, q = {q}"), of(&samples(y), &one_line(0, 3, q as u32), &[0]), (0, cost))?;
        }
        for q in [y.len() as u32, y.len() as u32 + 1, 16_777_215, u32::MAX] {
            same(&format!("y = {y:?}, q = {q}"), of(&samples(y), &one_line(0, 3, q), &[0]), (4, 9))?;
        }
    }
    // Lines 0 and 10: the least sizes of 1, 9, 4 and 30 are 1, 1, 4 and 20.
    for (q, cost) in [(0, 20), (1, 4), (2, 1), (3, 1)] {
        let model = Model { n: 2, ..one_line(0, 3, q) };
        same("two lines", of(&samples(&[1, 9, 4, 30]), &model, &[0, 10]), (0, cost))?;
    }
    let (store, model, costs) = largest();
    for (q, cost) in costs.into_iter().enumerate() {
        let model = Model { epsilon: q as u32, ..model };
        same("the largest sizes", of(&store, &model, &[-32_768; 4]), (0, cost))?;
    }
    Ok(())
}

pub fn bound(calls: &dyn Calls, _: &mut Random) -> Outcome {
    let of = |store: &[u8], model: &Model, corners: &[i16]| {
        let mut value = 9;
        (calls.bound(store, model, corners, &mut value), value)
    };
    for &(y, _, bounds) in PLACES {
        for (q, &bound) in bounds.iter().enumerate() {
            let answer = of(&samples(y), &one_line(0, 3, q as u32), &row(&[1], &[2]));
            same(&format!("y = {y:?}, q = {q}"), answer, (0, bound))?;
        }
        let answer = of(&samples(y), &one_line(0, 3, y.len() as u32), &row(&[1], &[2]));
        same(&format!("y = {y:?}, q of all records"), answer, (4, 9))?;
    }
    let (store, model, costs) = largest();
    for (q, cost) in costs.into_iter().enumerate() {
        let model = Model { epsilon: q as u32, ..model };
        same("the largest sizes", of(&store, &model, &row(&[-32_768; 4], &[-32_768; 4])), (0, cost))?;
    }
    Ok(())
}

/// y = 2, 2, 9 over 0..3. With q = 0 the vectors cost 9, 8, 7 and 6; with q = 1 and q = 2 they cost 2, 1, 0 and 1. A gap more
/// and q = 3: nothing costs anything.
pub fn fit(calls: &dyn Calls, _: &mut Random) -> Outcome {
    let first = "solved cost=0 bound=0 splits=0 open=0 peak=0 w=0\n";
    let middle = "solved cost=0 bound=0 splits=1 open=0 peak=1 w=2\n";
    let last = "solved cost=6 bound=6 splits=2 open=0 peak=1 w=3\n";
    fit_of(calls, &interval(3, 3, 0, 10, 4), &[2, 2, 9], last)?;
    fit_of(calls, &interval(3, 3, 0, 0, 4), &[2, 2, 9], "spent cost=9 bound=6 splits=0 open=1 peak=1 w=0\n")?;
    fit_of(calls, &interval(3, 3, 1, 10, 4), &[2, 2, 9], middle)?;
    fit_of(calls, &interval(3, 3, 2, 10, 4), &[2, 2, 9], middle)?;
    fit_of(calls, &interval(3, 3, 3, 10, 4), &[2, 2, 9], "refused 4\n")?;
    fit_of(calls, &interval(3, 3, 3, 10, 4), &[2, GAP_Y, 2, 9], first)?;
    fit_of(calls, &interval(3, 3, 4, 10, 4), &[2, GAP_Y, 2, 9], "refused 4\n")
}

pub fn loss(calls: &dyn Calls, _: &mut Random) -> Outcome {
    for epsilon in [0, 1, 16_777_215, u32::MAX] {
        let mut value = 9;
        same("loss", (calls.loss(3, epsilon, -5, &mut value), value), (4, 9))?;
    }
    Ok(())
}

pub fn labels(calls: &dyn Calls, _: &mut Random) -> Outcome {
    for q in [0, 1, 2] {
        let (mut labels, mut value) = ([9; 3], 9);
        let code = calls.labels(&samples(&[3, GAP_Y]), &one_line(0, 3, q), &vector(&[3]), &mut labels, &mut value);
        same("labels", (code, labels, value), (4, [9; 3], 9))?;
    }
    Ok(())
}

pub fn beacon_sums(calls: &dyn Calls, _: &mut Random) -> Outcome {
    for q in [0, 1, 2] {
        let (mut sums, mut value) = ([9; 2], 9);
        let code = calls.cost_by_beacon(&samples(&[3, 4]), &one_line(0, 3, q), &vector(&[0]), &mut sums, &mut value);
        same("sums", (code, sums, value), (4, [9; 2], 9))?;
    }
    Ok(())
}

/// Stores of every length up to some groups, and the largest, with any q that check 4 takes or the first that it refuses.
fn places(random: &mut Random) -> Input {
    let count = if random.once_in(40) { random.pick(&[4096, 4095, 4033]) } else { random.size(1, 140) };
    let mut input = inputs::sound_of(random, count);
    input.limit_spoiled(random);
    if random.once_in(10) {
        input.job.model.epsilon = count as u32;
    }
    input
}

pub fn cost_places(calls: &dyn Calls, random: &mut Random) -> Outcome {
    let input = places(random);
    let mut value = 9;
    let code = calls.cost(&input.store, &input.job.model, &input.job.start, &mut value);
    let expected = oracle::cost(&input.job.model, &input.store, &input.job.start);
    with_case(same_answer(code, value, 9, expected), || input.to_string())
}

pub fn bound_places(calls: &dyn Calls, random: &mut Random) -> Outcome {
    let input = places(random);
    let mut value = 9;
    let code = calls.bound(&input.store, &input.job.model, &row_of(&input.job.domain), &mut value);
    let expected = oracle::bound(&input.job.model, &input.store, &input.job.domain);
    with_case(same_answer(code, value, 9, expected), || input.to_string())
}
