//! The paper's bench fits A to L.

use crate::boxes::{split, Box8};
use crate::coefficients::{read_line, write_line};
use crate::fit::fit;
use crate::model::{cost, labels, loss, Model};
use crate::points::{store_of, take_in, Point};
use crate::records::{write_job, Job};
use crate::refusal::Refusal;

fn point(x: i16, y: i16) -> Point {
    Point { x: [x, 0, 0, 0], y, frame: 0 }
}

fn vector(used: &[i16]) -> [i16; 8] {
    std::array::from_fn(|k| used.get(k).copied().unwrap_or(0))
}

fn interval(low: i16, high: i16) -> Box8 {
    Box8 { low: vector(&[low]), high: vector(&[high]) }
}

/// One line, d = 1, S = 0, x = 1, start 0, t = 0.
fn job(p: u8, epsilon: u32, high: i16, budget: u32, rows: u32) -> Job {
    Job {
        model: Model { n: 1, d: 1, s: 0, p, epsilon },
        t: 0,
        budget,
        rows,
        domain: interval(0, high),
        start: [0; 8],
    }
}

fn fit_of(job: &Job, y: &[i16]) -> String {
    let points: Vec<Point> = y.iter().map(|&y| point(1, y)).collect();
    let mut input = write_job(job).to_vec();
    input.extend(store_of(&points));
    fit(&input)
}

#[test]
fn a_residual_equal_to_epsilon_fits() {
    let mut model = Model { n: 1, d: 1, s: 1, p: 0, epsilon: 2 };
    let point = point(2, 3);
    assert_eq!(model.residual(&point, &vector(&[2]), 0), 2);
    assert_eq!(cost(&model, &store_of(&[point]), &vector(&[2])), Ok(0));
    model.epsilon = 1;
    assert_eq!(cost(&model, &store_of(&[point]), &vector(&[2])), Ok(1));
}

#[test]
fn b_square_cut_at_epsilon() {
    assert_eq!(loss(2, 4, -5), Ok(16));
    assert_eq!(loss(2, 5, -5), Ok(25));
    assert_eq!(loss(2, 6, -5), Ok(25));
}

#[test]
fn c_label_of_a_point_between_two_lines() {
    // As request 8 of document 02 has it.
    let store = store_of(&[point(1, 4)]);
    let mut out = [9];
    for (epsilon, label) in [(2, 5), (1, 0)] {
        let model = Model { n: 2, d: 1, s: 0, p: 0, epsilon };
        assert_eq!(labels(&model, &store, &vector(&[2, 6]), &mut out), Ok(1));
        assert_eq!(out, [label]);
    }
}

#[test]
fn d_least_sizes_where_x_is_negative() {
    let model = Model { n: 1, d: 1, s: 0, p: 1, epsilon: 100 };
    for (low, high, least) in [(-1, 3, 0), (1, 3, 3), (-3, -2, 3)] {
        assert_eq!(model.least_size(&point(-2, 1), &interval(low, high), 0), least);
    }
}

#[test]
fn e_split_of_negative_ends() {
    assert_eq!(split(1, 1, &interval(-3, -2)), Ok((interval(-3, -3), interval(-2, -2))));
}

#[test]
fn f_split_of_equal_sides() {
    let domain = |low: [i16; 2], high: [i16; 2]| Box8 { low: vector(&low), high: vector(&high) };
    let halves = (domain([0, 0], [2, 4]), domain([3, 0], [4, 4]));
    assert_eq!(split(1, 2, &domain([0, 0], [4, 4])), Ok(halves));
}

#[test]
fn g_solved() {
    let line = "solved cost=2 bound=2 splits=1 open=0 peak=1 w=2\n";
    assert_eq!(fit_of(&job(1, 2, 3, 10, 4), &[2, 2, 9]), line);
}

#[test]
fn h_spent() {
    let line = "spent cost=6 bound=2 splits=0 open=1 peak=1 w=0\n";
    assert_eq!(fit_of(&job(1, 2, 3, 0, 4), &[2, 2, 9]), line);
}

#[test]
fn i_full() {
    let line = "full cost=3 bound=0 splits=0 open=1 peak=1 w=0\n";
    assert_eq!(fit_of(&job(0, 0, 7, 10, 1), &[1, 6, 6]), line);
}

#[test]
fn j_solved_with_more_rows() {
    let line = "solved cost=1 bound=1 splits=2 open=0 peak=2 w=6\n";
    assert_eq!(fit_of(&job(0, 0, 7, 10, 4), &[1, 6, 6]), line);
}

/// Gaps change nothing of fit G but the records, and a store of nothing but gaps is solved before any split.
#[test]
fn searches_over_gaps() {
    let line = "solved cost=2 bound=2 splits=1 open=0 peak=1 w=2\n";
    assert_eq!(fit_of(&job(1, 2, 3, 10, 4), &[-32768, 2, -32768, 2, 9, -32768]), line);
    for p in 0..3 {
        let line = "solved cost=0 bound=0 splits=0 open=0 peak=0 w=0\n";
        assert_eq!(fit_of(&job(p, 2, 3, 10, 4), &[-32768; 5]), line);
        assert_eq!(fit_of(&job(p, 2, 3, 0, 1), &[-32768]), line);
    }
}

#[test]
fn k_patterns() {
    assert_eq!(write_line(1, 1, &[-3, 0, 0, 0]), Ok([0xBFC0_0000, 0, 0, 0]));
    assert_eq!(write_line(1, 15, &[1, 0, 0, 0]), Ok([0x3800_0000, 0, 0, 0]));
    assert_eq!(read_line(1, 1, &[0xBFC0_0000, 0, 0, 0]), Ok([-3, 0, 0, 0]));
    assert_eq!(read_line(1, 15, &[0x3800_0000, 0, 0, 0]), Ok([1, 0, 0, 0]));
}

#[test]
fn l_beacons() {
    let mut store = vec![0; 480];
    assert_eq!(take_in(&mut store, 240, &[1; 228]), Ok(468));
    assert_eq!(take_in(&mut store, 240, &[1; 240]), Err(Refusal::Beacon));
}

#[test]
fn fit_refuses_by_the_number_alone() {
    let good = job(1, 2, 3, 10, 4);
    assert_eq!(fit(&[0; 71]), "refused 1\n");
    assert_eq!(fit(&write_job(&good)), "refused 1\n");
    assert_eq!(fit_of(&good, &[0; 4097]), "refused 1\n");
    assert_eq!(fit_of(&Job { rows: 0, ..good }, &[2]), "refused 8\n");
    assert_eq!(fit_of(&Job { rows: 2049, ..good }, &[2]), "refused 8\n");
    assert_eq!(fit_of(&Job { start: vector(&[4]), ..good }, &[2]), "refused 6\n");
    assert_eq!(fit_of(&Job { domain: interval(1, 0), ..good }, &[2]), "refused 5\n");
    let mut input = write_job(&Job { rows: 0, ..good }).to_vec();
    input.extend(store_of(&[point(1, 1), Point { x: [1, 1, 0, 0], y: 0, frame: 0 }]));
    assert_eq!(fit(&input), "refused 7\n");
}

#[test]
fn a_table_of_fewer_than_sixteen_numbers() {
    let good = job(1, 2, 3, 10, 0);
    let store = store_of(&[point(1, 2)]);
    assert_eq!(crate::search(&good, &store, 15, 1), Err(Refusal::Table));
    assert!(crate::search(&good, &store, 16, 1).is_ok());
}

#[test]
fn fewer_entries_than_rows() {
    let good = job(1, 2, 3, 10, 0);
    let store = store_of(&[point(1, 2)]);
    assert_eq!(crate::search(&good, &store, 16, 0), Err(Refusal::Bounds));
    assert_eq!(crate::search(&good, &store, 47, 1), Err(Refusal::Bounds));
    assert!(crate::search(&good, &store, 31, 1).is_ok());
}
