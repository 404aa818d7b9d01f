//! A limit on bad samples, p = 3: costs, bounds and searches worked out by hand. One line, d = 1, x = 1 and S = 0 unless said,
//! so that at w = 0 the size of a sample is |y|.

use oracle::model::nth_largest;
use oracle::points::{store_of, Point};
use oracle::records::{COST_LIMIT, JOB};
use oracle::{bound, cost, cost_by_beacon, fit, labels, loss, search, write_answer, write_job};
use oracle::{AnswerRecord, Box8, Job, Kind, Model, Refusal, Vector};

const GAP: i16 = -32_768;

fn vector(used: &[i16]) -> Vector {
    std::array::from_fn(|k| used.get(k).copied().unwrap_or(0))
}

fn samples(y: &[i16]) -> Vec<u8> {
    store_of(&y.iter().map(|&y| Point { x: [1, 0, 0, 0], y, frame: 0 }).collect::<Vec<_>>())
}

fn limit(q: u32) -> Model {
    Model { n: 1, d: 1, s: 0, p: 3, epsilon: q }
}

fn interval(low: i16, high: i16) -> Box8 {
    Box8 { low: vector(&[low]), high: vector(&[high]) }
}

/// Box 0..3, start 0, t = 0, four rows.
fn job(q: u32, budget: u32) -> Job {
    Job { model: limit(q), t: 0, budget, rows: 4, domain: interval(0, 3), start: [0; 8] }
}

/// The example of source document 002, whose q-max is of a vector with a negative entry; 4 stands for that one.
#[test]
fn largest_with_repeats() {
    let places = |sizes: &[u64]| (0..sizes.len()).map(|q| nth_largest(q, sizes.to_vec())).collect::<Vec<_>>();
    assert_eq!(places(&[3, 4, 3, 5, 0]), [5, 4, 3, 3, 0]);
    assert_eq!(places(&[7, 7, 7]), [7, 7, 7]);
    assert_eq!(places(&[1 << 33, 1, 1 << 32]), [1 << 33, 1 << 32, 1]);
}

/// Over 1..2 the least sizes of 3, -4, 3, 5 and 0 are 1, 5, 1, 3 and 1.
#[test]
fn cost_and_bound_take_place_q() {
    let store = samples(&[3, -4, 3, 5, 0]);
    for (q, at, over) in [(0, 5, 5), (1, 4, 3), (2, 3, 1), (3, 3, 1), (4, 0, 1)] {
        assert_eq!(cost(&limit(q), &store, &[0; 8]), Ok(at));
        assert_eq!(bound(&limit(q), &store, &interval(1, 2)), Ok(over));
        assert_eq!(bound(&limit(q), &store, &interval(0, 0)), Ok(at));
    }
    for q in [5, 6, 16_777_215, u32::MAX] {
        assert_eq!(cost(&limit(q), &store, &[0; 8]), Err(Refusal::Loss));
        assert_eq!(bound(&limit(q), &store, &interval(1, 2)), Err(Refusal::Loss));
    }
}

/// Lines 0 and 10: the least sizes of 1, 9, 4 and 30 are 1, 1, 4 and 20.
#[test]
fn least_over_the_lines() {
    for (q, at) in [(0, 20), (1, 4), (2, 1), (3, 1)] {
        let model = Model { n: 2, ..limit(q) };
        assert_eq!(cost(&model, &samples(&[1, 9, 4, 30]), &vector(&[0, 10])), Ok(at));
    }
}

#[test]
fn a_gap_counts_as_a_record_of_size_0() {
    let store = samples(&[GAP, 3, GAP, 5, GAP]);
    for (q, at) in [(0, 5), (1, 3), (2, 0), (3, 0), (4, 0)] {
        assert_eq!(cost(&limit(q), &store, &[0; 8]), Ok(at));
    }
    assert_eq!(cost(&limit(5), &store, &[0; 8]), Err(Refusal::Loss));
    assert_eq!(cost(&limit(2), &samples(&[GAP; 3]), &[9, 0, 0, 0, 0, 0, 0, 0]), Ok(0));
    assert_eq!(bound(&limit(0), &samples(&[GAP; 3]), &interval(7, 9)), Ok(0));
}

/// y = -32,767 and x = -32,768 four times, at w = -32,768 and S = 15.
#[test]
fn sizes_over_32_bits() {
    let model = Model { n: 1, d: 4, s: 15, p: 3, epsilon: 0 };
    let least = Point { x: [-32_768; 4], y: -32_767, frame: 0 };
    let vector = vector(&[-32_768; 4]);
    let store = store_of(&[Point { y: GAP, ..least }, least, Point { y: 0, ..least }]);
    for (q, at) in [(0, 5_368_676_352), (1, 4_294_967_296), (2, 0)] {
        assert_eq!(cost(&Model { epsilon: q, ..model }, &store, &vector), Ok(at));
        let domain = Box8 { low: vector, high: vector };
        assert_eq!(bound(&Model { epsilon: q, ..model }, &store, &domain), Ok(at));
    }
    let answer = AnswerRecord { vector, c: 5_368_709_120, l: 5_368_709_120, count: 0, kind: 1, n: 1, d: 4, s: 15 };
    assert!(answer.c <= COST_LIMIT);
    assert_eq!(write_answer(&answer, &mut [0; 40]), Ok(()));
}

#[test]
fn calls_with_a_threshold_refuse_it() {
    let store = samples(&[3, 4]);
    for q in [0, 1, 2] {
        assert_eq!(loss(3, q, 0), Err(Refusal::Loss));
        assert_eq!(labels(&limit(q), &store, &[0; 8], &mut [0; 2]), Err(Refusal::Loss));
        assert_eq!(cost_by_beacon(&limit(q), &store, &[0; 8], &mut [0; 1]), Err(Refusal::Loss));
    }
}

#[test]
fn check_4_in_its_place() {
    let stray = store_of(&[Point { x: [1, 1, 0, 0], y: 0, frame: 0 }]);
    let mut model = Model { n: 1, d: 1, s: 16, p: 3, epsilon: 1 };
    assert_eq!(cost(&model, &[], &[1; 8]), Err(Refusal::Length));
    assert_eq!(cost(&model, &stray, &[1; 8]), Err(Refusal::Scale));
    model.s = 0;
    assert_eq!(cost(&model, &stray, &[1; 8]), Err(Refusal::Loss));
    assert_eq!(bound(&model, &stray, &interval(1, 0)), Err(Refusal::Loss));
    assert_eq!(search(&Job { model, ..job(0, 1) }, &stray, 0, 0), Err(Refusal::Loss));
    model.epsilon = 0;
    assert_eq!(cost(&model, &stray, &[1; 8]), Err(Refusal::Start));
    assert_eq!(bound(&model, &stray, &interval(1, 0)), Err(Refusal::Box));
    assert_eq!(cost(&model, &stray, &[0; 8]), Err(Refusal::Stray(0)));
}

/// y = 2, 2, 9 over 0..3. With q = 0 the vectors cost 9, 8, 7 and 6; with q = 1 and q = 2 they cost 2, 1, 0 and 1. A gap more
/// and q = 3: nothing costs anything.
#[test]
fn fits() {
    for (q, budget, y, line) in [
        (0, 10, &[2, 2, 9][..], "solved cost=6 bound=6 splits=2 open=0 peak=1 w=3\n"),
        (0, 0, &[2, 2, 9], "spent cost=9 bound=6 splits=0 open=1 peak=1 w=0\n"),
        (1, 10, &[2, 2, 9], "solved cost=0 bound=0 splits=1 open=0 peak=1 w=2\n"),
        (2, 10, &[2, 2, 9], "solved cost=0 bound=0 splits=1 open=0 peak=1 w=2\n"),
        (3, 10, &[2, 2, 9], "refused 4\n"),
        (3, 10, &[2, GAP, 2, 9], "solved cost=0 bound=0 splits=0 open=0 peak=0 w=0\n"),
    ] {
        let mut input: [u8; JOB + 48] = [0; JOB + 48];
        input[..JOB].copy_from_slice(&write_job(&job(q, budget)));
        input[JOB..JOB + 12 * y.len()].copy_from_slice(&samples(y));
        assert_eq!(fit(&input[..JOB + 12 * y.len()]), line, "q = {q}");
    }
}

/// Every vector of a box against the search, for every q: L is the least cost, and the vector the first that has it.
#[test]
fn searches_of_small_boxes() {
    let y = [4, -9, 13, 4, GAP, 30, -9, 2];
    for (n, q) in (1..=2).flat_map(|n| (0..8).map(move |q| (n, q))) {
        let used = n as usize;
        let domain = Box8 { low: vector(&[-6, -4][..used]), high: vector(&[5, 7][..used]) };
        let model = Model { n, ..limit(q) };
        let job = Job { model, t: 0, budget: u32::MAX, rows: 0, domain, start: domain.high };
        let answer = search(&job, &samples(&y), 16 * 72, 72).unwrap();
        let first = domain.grid().into_iter().map(|v| (cost(&model, &samples(&y), &v).unwrap(), v)).min().unwrap();
        assert_eq!((answer.kind, answer.c, answer.l), (Kind::Solved, first.0, first.0));
        assert_eq!((answer.c, answer.vector), first);
    }
}
