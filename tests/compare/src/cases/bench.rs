//! The paper's bench fits A to L, with the values as the paper has them, and for C as request 8 of document 02 has it.

use super::{row_of, Outcome};
use crate::calls::{Calls, Found};
use crate::lent::{same, Lent};
use crate::random::Random;
use oracle::points::{store_of, Point};
use oracle::{write_job, Box8, Job, Model};

/// Points of x1 and y.
pub(super) fn store(points: &[(i16, i16)]) -> Vec<u8> {
    let point = |&(x, y): &(i16, i16)| Point { x: [x, 0, 0, 0], y, frame: 0 };
    store_of(&points.iter().map(point).collect::<Vec<_>>())
}

pub(super) fn vector(used: &[i16]) -> [i16; 8] {
    std::array::from_fn(|k| used.get(k).copied().unwrap_or(0))
}

pub(super) fn row(low: &[i16], high: &[i16]) -> Vec<i16> {
    [vector(low), vector(high)].concat()
}

pub(super) fn one_line(s: u8, p: u8, epsilon: u32) -> Model {
    Model { n: 1, d: 1, s, p, epsilon }
}

pub fn a(calls: &dyn Calls, _: &mut Random) -> Outcome {
    for (epsilon, cost) in [(2, 0), (1, 1)] {
        let mut value = 9;
        let code = calls.cost(&store(&[(2, 3)]), &one_line(1, 0, epsilon), &vector(&[2]), &mut value);
        same("fit A", (code, value), (0, cost))?;
    }
    Ok(())
}

pub fn b(calls: &dyn Calls, _: &mut Random) -> Outcome {
    for (epsilon, loss) in [(4, 16), (5, 25), (6, 25)] {
        let mut value = 9;
        let code = calls.loss(2, epsilon, -5, &mut value);
        same("fit B", (code, value), (0, loss))?;
    }
    Ok(())
}

pub fn c(calls: &dyn Calls, _: &mut Random) -> Outcome {
    for (epsilon, label) in [(2, 5), (1, 0)] {
        let model = Model { n: 2, ..one_line(0, 0, epsilon) };
        let mut labels = [9];
        let code = calls.labels(&store(&[(1, 4)]), &model, &vector(&[2, 6]), &mut labels, &mut 0);
        same("fit C", (code, labels), (0, [label]))?;
    }
    Ok(())
}

/// The least size shows as the bound with p = 1 and a large threshold.
pub fn d(calls: &dyn Calls, _: &mut Random) -> Outcome {
    for (low, high, least) in [(-1, 3, 0), (1, 3, 3), (-3, -2, 3)] {
        let mut value = 9;
        let model = one_line(0, 1, 1000);
        let code = calls.bound(&store(&[(-2, 1)]), &model, &row(&[low], &[high]), &mut value);
        same("fit D", (code, value), (0, least))?;
    }
    Ok(())
}

pub fn e(calls: &dyn Calls, _: &mut Random) -> Outcome {
    let mut halves = [9; 32];
    let code = calls.split(1, 1, &row(&[-3], &[-2]), &mut halves);
    let expected = [row(&[-3], &[-3]), row(&[-2], &[-2])].concat();
    same("fit E", (code, &halves[..]), (0, &expected[..]))
}

pub fn f(calls: &dyn Calls, _: &mut Random) -> Outcome {
    let mut halves = [9; 32];
    let code = calls.split(1, 2, &row(&[0, 0], &[4, 4]), &mut halves);
    let expected = [row(&[0, 0], &[2, 4]), row(&[3, 0], &[4, 4])].concat();
    same("fit F", (code, &halves[..]), (0, &expected[..]))
}

pub(super) fn interval(high: i16, p: u8, epsilon: u32, budget: u32, rows: u32) -> Job {
    let domain = Box8 { low: [0; 8], high: vector(&[high]) };
    Job { model: one_line(0, p, epsilon), t: 0, budget, rows, domain, start: [0; 8] }
}

pub(super) fn fit_of(calls: &dyn Calls, job: &Job, y: &[i16], line: &str) -> Outcome {
    let mut input = write_job(job).to_vec();
    input.extend(store(&y.iter().map(|&y| (1, y)).collect::<Vec<_>>()));
    same("output", String::from_utf8_lossy(&calls.fit(&input)).as_ref(), line)
}

pub fn g(calls: &dyn Calls, _: &mut Random) -> Outcome {
    let line = "solved cost=2 bound=2 splits=1 open=0 peak=1 w=2\n";
    fit_of(calls, &interval(3, 1, 2, 10, 4), &[2, 2, 9], line)
}

pub fn h(calls: &dyn Calls, _: &mut Random) -> Outcome {
    let line = "spent cost=6 bound=2 splits=0 open=1 peak=1 w=0\n";
    fit_of(calls, &interval(3, 1, 2, 0, 4), &[2, 2, 9], line)
}

pub fn i(calls: &dyn Calls, _: &mut Random) -> Outcome {
    let line = "full cost=3 bound=0 splits=0 open=1 peak=1 w=0\n";
    fit_of(calls, &interval(7, 0, 0, 10, 1), &[1, 6, 6], line)
}

pub fn j(calls: &dyn Calls, _: &mut Random) -> Outcome {
    let line = "solved cost=1 bound=1 splits=2 open=0 peak=2 w=6\n";
    fit_of(calls, &interval(7, 0, 0, 10, 4), &[1, 6, 6], line)
}

/// Fits G to J by the call of the search: the kind, then C, L, count, open boxes and peak, then w.
pub fn searched(calls: &dyn Calls, _: &mut Random) -> Outcome {
    for (job, y, kind, numbers, w) in [
        (interval(3, 1, 2, 10, 4), [2, 2, 9], 1, [2, 2, 1, 0, 1], 2),
        (interval(3, 1, 2, 0, 4), [2, 2, 9], 2, [6, 2, 0, 1, 1], 0),
        (interval(7, 0, 0, 10, 1), [1, 6, 6], 3, [3, 0, 0, 1, 1], 0),
        (interval(7, 0, 0, 10, 4), [1, 6, 6], 1, [1, 1, 2, 0, 2], 6),
    ] {
        let (mut table, mut bounds) = (vec![9; 16 * job.rows as usize], vec![9; job.rows as usize]);
        let mut found = Found {
            vector: Lent::new(8, |count| vec![9; count]),
            numbers: Lent::new(5, |count| vec![9; count]),
            value: 9,
        };
        let points = store(&y.map(|y| (1, y)));
        let corners = row_of(&job.domain);
        let code = calls.search(&points, &job, &corners, &job.start, &mut table, &mut bounds, &mut found);
        same("search", (code, found.value), (0, kind))?;
        found.numbers.holds("numbers", &numbers)?;
        found.vector.holds("vector", &vector(&[w]))?;
    }
    Ok(())
}

pub fn k_written(calls: &dyn Calls, _: &mut Random) -> Outcome {
    for (w, s, pattern) in [(-3, 1, 0xBFC0_0000), (1, 15, 0x3800_0000)] {
        let mut patterns = [9; 4];
        let code = calls.write_line(1, s, &[w, 0, 0, 0], &mut patterns);
        same("fit K", (code, patterns), (0, [pattern, 0, 0, 0]))?;
    }
    Ok(())
}

pub fn k_read(calls: &dyn Calls, _: &mut Random) -> Outcome {
    for (w, s, pattern) in [(-3, 1, 0xBFC0_0000), (1, 15, 0x3800_0000)] {
        let mut coordinates = [9; 4];
        let code = calls.read_line(1, s, &[pattern, 0, 0, 0], &mut coordinates);
        same("fit K", (code, coordinates), (0, [w, 0, 0, 0]))?;
    }
    Ok(())
}

pub fn l(calls: &dyn Calls, _: &mut Random) -> Outcome {
    for (length, code, mark) in [(228, 0, 240), (240, 11, 9)] {
        let mut value = 9;
        let answer = calls.take_in(&mut [0; 480], 12, &vec![1; length], &mut value);
        same("fit L", (answer, value), (code, mark))?;
    }
    Ok(())
}
