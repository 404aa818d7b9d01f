//! Pairs of stores that differ in one record only, both solved with the same settings and box: "each cost is at most the
//! other, plus its own job's tolerance, plus a cap".

use super::bench::{one_line, vector};
use super::search::Run;
use super::{with_case, Outcome};
use crate::calls::Calls;
use crate::inputs::{self, Input, Size};
use crate::lent::same;
use crate::random::Random;
use oracle::points::{store_of, Point, GAP_Y, RECORD};
use oracle::{Box8, Job, Model};

/// "The cap is 1, ε or ε² by p."
fn cap(model: &Model) -> u64 {
    match model.p {
        0 => 1,
        1 => model.epsilon as u64,
        _ => (model.epsilon as u64).pow(2),
    }
}

/// Both inequalities, of two runs that are solved.
fn near(one: &Run, other: &Run) -> Outcome {
    let at_most = |run: &Run, from: &Run| {
        let most = from.cost() as u128 + run.job().t as u128 + cap(&run.job().model) as u128;
        run.cost() as u128 <= most
    };
    same("both solved", (one.is_solved(), other.is_solved()), (true, true))?;
    same("C is at most C' + t + cap", at_most(one, other), true)?;
    same("C' is at most C + t' + cap", at_most(other, one), true)
}

/// A gap, a sample at an end of y's range, or any other; its x keep to the first d.
fn other_record(random: &mut Random, d: u8) -> [u8; RECORD] {
    let size = Size::random(random);
    let mut point = inputs::points(random, d, 1, size)[0];
    point.y = random.pick(&[GAP_Y, GAP_Y, GAP_Y + 1, i16::MAX, point.y, point.y]);
    point.write()
}

/// A search of a small box that is solved, since budget and rows suffice, from any start and with any tolerance.
fn solved_run(calls: &dyn Calls, random: &mut Random, mut input: Input) -> Run {
    let grid = input.job.domain.grid();
    let volume = grid.len();
    input.job.start = grid[random.size(0, volume - 1)];
    input.job.t = random.pick(&[0, 0, 1, 2, 9, cap(&input.job.model), u64::MAX]);
    input.job.budget = random.pick(&[volume as u32 - 1, volume as u32 + 7, u32::MAX]);
    let rows = volume.div_ceil(2) + random.size(0, 3);
    let (length, entries) = (16 * rows + random.size(0, 15), rows + random.size(0, 2));
    let mut run = Run::new(random, input, length, entries);
    run.call(calls);
    run
}

/// One record of a small store is another in the second.
pub fn pairs(calls: &dyn Calls, random: &mut Random) -> Outcome {
    let limit = random.pick(&[1, 2, 8, 30, 100]);
    let input = inputs::small_with_threshold(random, limit);
    let mut changed = input.clone();
    let at = RECORD * random.size(0, input.store.len() / RECORD - 1);
    let record = other_record(random, input.job.model.d);
    changed.store[at..at + RECORD].copy_from_slice(&record);
    let one = solved_run(calls, random, input);
    let other = solved_run(calls, random, changed);
    let outcome = near(&one, &other).and_then(|()| one.compare()).and_then(|()| other.compare());
    with_case(outcome, || format!("{one}\n{other}"))
}

/// A line through (1, 0), then one of these two records, then (0, 0); w is 0 or 1.
fn run_with(calls: &dyn Calls, random: &mut Random, record: Point, model: Model, t: u64, start: i16) -> Run {
    let point = |x, y| Point { x: [x, 0, 0, 0], y, frame: 0 };
    let domain = Box8 { low: vector(&[0]), high: vector(&[1]) };
    let job = Job { model, t, budget: 1, rows: 1, domain, start: vector(&[start]) };
    let store = store_of(&[point(1, 0), record, point(0, 0)]);
    let mut run = Run::new(random, Input { job, store }, 16, 1);
    run.call(calls);
    run
}

/// The cap is reached: the other record is a gap or on the line, and this one off every line. The second search ends at its
/// start w = 1, whose cost is t = 1 more than the least.
pub fn cap_reached(calls: &dyn Calls, random: &mut Random) -> Outcome {
    for (model, y) in [
        (one_line(0, 0, 0), 7),
        (one_line(0, 1, 3), 7),
        (one_line(0, 2, 3), -7),
        (one_line(15, 1, 16_777_215), i16::MAX),
        (one_line(15, 2, 16_777_215), GAP_Y + 1),
    ] {
        for fitting in [GAP_Y, 0] {
            let record = |y| Point { x: [0; 4], y, frame: 9 };
            let one = run_with(calls, random, record(fitting), model, 0, 0);
            let other = run_with(calls, random, record(y), model, 1, 1);
            let outcome = near(&one, &other)
                .and_then(|()| same("C' = C + t' + cap", other.cost(), one.cost() + 1 + cap(&model)));
            with_case(outcome, || format!("{one}\n{other}"))?;
        }
    }
    Ok(())
}
