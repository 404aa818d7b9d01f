//! Samples near more than one line, with labels worked out by hand: d = 1, x = 1 and S = 0, so that a line's value is its w.

use super::bench::{one_line, store, vector};
use super::Outcome;
use crate::calls::Calls;
use crate::lent::same;
use crate::random::Random;
use oracle::Model;

/// The lines, y, ε and the label, which p doesn't change.
const LABELLED: &[(&[i16], i16, u32, u8)] = &[
    // |e| of 1 and 3: the second line fits from 3 on.
    (&[2, 6], 3, 0, 0),
    (&[2, 6], 3, 1, 1),
    (&[2, 6], 3, 2, 1),
    (&[2, 6], 3, 3, 5),
    (&[6, 2], 3, 2, 2),
    (&[6, 2], 3, 4, 5),
    // Two equal lines; one line is never undecided.
    (&[7, 7], 7, 0, 5),
    (&[7, 7], 9, 1, 0),
    (&[7], 7, 5, 1),
    // Two of three, two of four, all of four, the last alone.
    (&[2, 90, 4], 3, 1, 5),
    (&[90, 3, 91, 5], 3, 2, 5),
    (&[1, 2, 3, 4], 3, 2, 5),
    (&[90, 91, 92, 5], 3, 2, 4),
    // A gap stays one, and its neighbour is a sample.
    (&[-32_768, -32_767], -32_768, 1, 6),
    (&[-32_768, -32_767], -32_767, 1, 5),
];

pub fn labels(calls: &dyn Calls, _: &mut Random) -> Outcome {
    for &(lines, y, epsilon, label) in LABELLED {
        for p in 0..if epsilon == 0 { 1 } else { 3 } {
            let model = Model { n: lines.len() as u8, ..one_line(0, p, epsilon) };
            let (mut labels, mut value) = ([9; 2], 9);
            let code = calls.labels(&store(&[(1, y)]), &model, &vector(lines), &mut labels, &mut value);
            let what = format!("lines {lines:?}, y = {y}, epsilon = {epsilon}, p = {p}");
            same(&what, (code, labels, value), (0, [label, 9], 1))?;
        }
    }
    Ok(())
}
