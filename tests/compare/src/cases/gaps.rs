//! Samples that the board didn't take, y = −32,768, with values worked out by hand: a line at w = 3, d = 1, x = 1 and
//! S = 0 unless said.

use super::bench::{fit_of, interval, one_line, row, store, vector};
use super::Outcome;
use crate::calls::Calls;
use crate::lent::same;
use crate::random::Random;
use oracle::points::{store_of, Point};
use oracle::{write_job, Model};

const GAP: i16 = -32_768;

/// A store with this y in each record and x = 1.
fn samples(y: &[i16]) -> Vec<u8> {
    store(&y.iter().map(|&y| (1, y)).collect::<Vec<_>>())
}

/// The first two records are gaps, and the third, a gap too, has an x4.
fn stray_gap() -> Vec<u8> {
    let gap = Point { x: [1, 0, 0, 0], y: GAP, frame: 0 };
    store_of(&[gap, gap, Point { x: [1, 0, 0, 1], ..gap }])
}

/// The stores, the losses and for each the cost at w = 3 and the bound over 2..5.
fn valued() -> Vec<(Vec<u8>, Model, u64, u64)> {
    let square = one_line(0, 2, 16_777_215);
    vec![
        (samples(&[GAP]), square, 0, 0),
        (samples(&[GAP; 4096]), square, 0, 0),
        (samples(&[GAP + 1]), square, 32_770 * 32_770, 32_769 * 32_769),
        (samples(&[i16::MAX]), square, 32_764 * 32_764, 32_762 * 32_762),
        (samples(&[GAP, 1, GAP, 8]), square, 4 + 25, 1 + 9),
        (samples(&[GAP, GAP + 1, i16::MAX, GAP]), one_line(0, 1, 7), 14, 14),
        (samples(&[GAP, GAP + 1, i16::MAX, GAP]), one_line(15, 0, 0), 2, 2),
    ]
}

pub fn cost(calls: &dyn Calls, _: &mut Random) -> Outcome {
    for (store, model, cost, _) in valued() {
        let mut value = 9;
        let code = calls.cost(&store, &model, &vector(&[3]), &mut value);
        same("cost", (code, value), (0, cost))?;
    }
    let mut value = 9;
    let code = calls.cost(&stray_gap(), &one_line(0, 0, 0), &vector(&[3]), &mut value);
    same("stray x in a gap", (code, value), (7 + 2 * 256, 9))
}

pub fn bound(calls: &dyn Calls, _: &mut Random) -> Outcome {
    for (store, model, _, bound) in valued() {
        let mut value = 9;
        let code = calls.bound(&store, &model, &row(&[2], &[5]), &mut value);
        same("bound", (code, value), (0, bound))?;
    }
    let mut value = 9;
    let code = calls.bound(&stray_gap(), &one_line(0, 0, 0), &row(&[2], &[5]), &mut value);
    same("stray x in a gap", (code, value), (7 + 2 * 256, 9))
}

/// The second line is at w = −32,768, on which both a gap and y = −32,767 lie within ε = 1.
pub fn labels(calls: &dyn Calls, _: &mut Random) -> Outcome {
    let model = Model { n: 2, ..one_line(0, 0, 1) };
    let lines = vector(&[3, -32_768]);
    let store = samples(&[GAP, 4, GAP + 1, GAP, 6, i16::MAX]);
    let (mut labels, mut value) = ([9; 7], 9);
    let code = calls.labels(&store, &model, &lines, &mut labels, &mut value);
    same("labels", (code, labels, value), (0, [6, 1, 2, 6, 0, 0, 9], 6))?;
    let code = calls.labels(&store, &model, &lines, &mut labels[..5], &mut value);
    same("a label short", (code, labels, value), (10, [6, 1, 2, 6, 0, 0, 9], 6))?;
    let code = calls.labels(&stray_gap(), &model, &lines, &mut labels, &mut value);
    same("stray x in a gap", (code, labels, value), (7 + 2 * 256, [6, 1, 2, 6, 0, 0, 9], 6))
}

/// Fit G with gaps between its points, stores of nothing but gaps, and a stray x in a gap.
pub fn fit(calls: &dyn Calls, _: &mut Random) -> Outcome {
    let line = "solved cost=2 bound=2 splits=1 open=0 peak=1 w=2\n";
    fit_of(calls, &interval(3, 1, 2, 10, 4), &[GAP, 2, 2, GAP, 9, GAP], line)?;
    for p in 0..3 {
        let line = "solved cost=0 bound=0 splits=0 open=0 peak=0 w=0\n";
        fit_of(calls, &interval(3, p, 2, 0, 1), &[GAP; 5], line)?;
    }
    let input = [&write_job(&interval(3, 1, 2, 10, 4))[..], &stray_gap()].concat();
    same("stray x in a gap", String::from_utf8_lossy(&calls.fit(&input)).as_ref(), "refused 7\n")
}
