//! Of equally good vectors the first, for t = 0: jobs whose ties a hasty change gets wrong, and all starts of small boxes.

use oracle::{search, Answer, Box8, Job, Kind, Model, Vector};

fn vector(used: &[i16]) -> Vector {
    let mut all = [0; 8];
    all[..used.len()].copy_from_slice(used);
    all
}

/// A store of points with one x.
fn store(points: &[(i16, i16)]) -> Vec<u8> {
    let record = |&(x, y): &(i16, i16)| [x, 0, 0, 0, y, 0].map(i16::to_be_bytes).concat();
    points.iter().flat_map(record).collect()
}

fn job(model: Model, low: &[i16], high: &[i16], start: &[i16]) -> Job {
    let domain = Box8 { low: vector(low), high: vector(high) };
    Job { model, t: 0, budget: 500, rows: 0, domain, start: vector(start) }
}

fn found(job: &Job, points: &[(i16, i16)]) -> Answer {
    search(job, &store(points), 16 * 64, 64).unwrap()
}

/// The left half's bound is above C, though a sum that ends at C reads as equal to it.
#[test]
fn a_bound_above_c_is_not_equal() {
    let model = Model { n: 1, d: 1, s: 0, p: 1, epsilon: 4 };
    let answer = found(&job(model, &[-2], &[-1], &[-2]), &[(-1, 1)]);
    assert_eq!((answer.kind, answer.vector, answer.c, answer.count), (Kind::Solved, vector(&[-1]), 0, 1));
}

/// C stays and best moves, so that another open box is dropped.
#[test]
fn best_moves_while_c_stays() {
    let model = Model { n: 2, d: 1, s: 1, p: 2, epsilon: 3 };
    let answer = found(&job(model, &[1, -3], &[2, -2], &[2, -2]), &[(-2, 2)]);
    assert_eq!((answer.kind, answer.vector, answer.c, answer.count), (Kind::Solved, vector(&[1, -2]), 0, 2));
}

/// C equals L and a box is open: spent, and with one split the first vector. For larger t the box is not even opened.
#[test]
fn equal_to_l_with_an_open_box() {
    let model = Model { n: 1, d: 1, s: 0, p: 0, epsilon: 9 };
    let mut asked = job(model, &[0], &[1], &[1]);
    asked.budget = 0;
    let answer = found(&asked, &[(1, 1)]);
    assert_eq!((answer.kind, answer.c, answer.l, answer.open.len()), (Kind::Spent, 0, 0, 1));
    asked.budget = 1;
    let answer = found(&asked, &[(1, 1)]);
    assert_eq!((answer.kind, answer.vector, answer.count), (Kind::Solved, vector(&[0]), 1));
    asked.t = 1;
    let answer = found(&asked, &[(1, 1)]);
    assert_eq!((answer.kind, answer.vector, answer.count, answer.peak), (Kind::Solved, vector(&[1]), 0, 0));
}

/// From every start of a box the same vector, the first of those of least cost, within V - 1 splits and V / 2 rows.
#[test]
fn every_start_finds_the_first() {
    let points = [(1, 2), (-2, 3), (3, -1)];
    for p in 0..=2 {
        for epsilon in 1..=3 {
            let model = Model { n: 2, d: 1, s: 0, p, epsilon };
            let mut asked = job(model, &[-2, -3], &[2, 1], &[0, 0]);
            let grid = asked.domain.grid();
            asked.budget = grid.len() as u32 - 1;
            let read = oracle::points::points_of(&store(&points));
            let first = *grid.iter().min_by_key(|&&v| (model.cost_of(&read, &v), v)).unwrap();
            for start in &grid {
                asked.start = *start;
                let answer =
                    search(&asked, &store(&points), 16 * grid.len().div_ceil(2), grid.len().div_ceil(2)).unwrap();
                assert_eq!(
                    (answer.kind, answer.vector),
                    (Kind::Solved, first),
                    "p {p}, epsilon {epsilon}, start {start:?}"
                );
            }
        }
    }
}
