//! Searches for ranges: the proved one against plain Rust, and what a split takes beside one of the
//! search of the same job.
use crate::jobs::{Shape, SHAPES};
use crate::search::{Domain, Job, Kind};
use crate::{clock, rattle};
use std::hint::black_box;

/// What a search for ranges tells: the bits of both ends of each coordinate, or nothing, and its
/// numbers.
#[derive(Clone, Copy, Debug, PartialEq, Eq)]
pub struct Ranges {
    pub kind: Kind,
    pub ends: Option<[[u32; 2]; 8]>,
    pub count: u32,
    pub open: usize,
    pub peak: usize,
}

/// The least and the greatest values found, if any.
type Hull = Option<Domain>;

fn with_vector(hull: Hull, v: [i16; 8]) -> Hull {
    let mut ends = hull.unwrap_or(Domain { low: v, high: v });
    for k in 0..8 {
        ends.low[k] = ends.low[k].min(v[k]);
        ends.high[k] = ends.high[k].max(v[k]);
    }
    Some(ends)
}

/// A box whose bound is above the ceiling is dropped, one of one vector is found, and any other is
/// open.
fn look_at(job: &Job, ceiling: u64, domain: Domain, hull: &mut Hull, open: &mut Vec<Domain>) {
    if job.bound_up_to(&domain, ceiling.saturating_add(1)) > ceiling {
        return;
    }
    if domain.low == domain.high {
        *hull = with_vector(*hull, domain.low);
    } else {
        open.push(domain);
    }
}

/// Plain Rust, the last open box first.
fn plain(job: &Job, ceiling: u64) -> Ranges {
    let (mut hull, mut open) = (None, Vec::new());
    look_at(job, ceiling, job.domain, &mut hull, &mut open);
    let (mut count, mut peak) = (0, open.len());
    let kind = loop {
        let Some(last) = open.last().copied() else {
            break Kind::Solved;
        };
        if count == job.budget {
            break Kind::Spent;
        }
        let (mut wider, before) = (hull, open.len());
        open.pop();
        let (left, right) = last.cut();
        look_at(job, ceiling, left, &mut wider, &mut open);
        look_at(job, ceiling, right, &mut wider, &mut open);
        if open.len() > job.rows {
            open.truncate(before - 1);
            open.push(last);
            break Kind::Full;
        }
        hull = wider;
        count += 1;
        peak = peak.max(open.len());
    };
    let bits = |w: i16| (f32::from(w) / (1 << job.model.scale) as f32).to_bits();
    let told = |d: Domain| std::array::from_fn(|k| [bits(d.low[k]), bits(d.high[k])]);
    Ranges {
        kind,
        ends: hull.filter(|_| kind == Kind::Solved).map(told),
        count,
        open: open.len(),
        peak,
    }
}

/// Somewhat more than the cost of the best vector that the search of the job finds.
fn ceiling_of(job: &Job) -> u64 {
    let (mut table, mut bounds) = (vec![0; 16 * job.rows], vec![0; job.rows]);
    let cost = rattle::search(job, &mut table, &mut bounds).cost;
    cost + cost / 16
}

/// Both tell the same, before anything is timed.
fn compare(job: &Job, ceiling: u64) -> Ranges {
    let told = rattle::ranges(job, ceiling, &mut vec![0; 16 * job.rows]);
    assert_eq!(plain(job, ceiling), told);
    told
}

fn timed<T>(least: f64, call: impl FnOnce() -> T) -> f64 {
    let start = clock::processor_time();
    black_box(call());
    least.min((clock::processor_time() - start) as f64 / 1_000.0)
}

fn row(shape: &Shape, rounds: usize) -> [f64; 2] {
    let job = shape.job();
    let ceiling = ceiling_of(&job);
    let told = compare(&job, ceiling);
    let (mut table, mut bounds) = (vec![0; 16 * job.rows], vec![0; job.rows]);
    let searched = rattle::search(&job, &mut table, &mut bounds);
    let mut least = [f64::INFINITY; 3];
    for _ in 0..rounds {
        least[0] = timed(least[0], || rattle::ranges(&job, ceiling, &mut table));
        least[1] = timed(least[1], || plain(&job, ceiling));
        least[2] = timed(least[2], || rattle::search(&job, &mut table, &mut bounds));
    }
    let splits = f64::from(told.count.max(1));
    let split = least[0] / splits;
    let of_search = least[2] / f64::from(searched.count.max(1));
    let ratios = [least[0] / least[1], split / of_search];
    println!(
        "{} {} {} {:6}  {:6} {:6} {:6}  {split:8.2}  {:8.2}  {:6.2}   {of_search:8.2}  {:6.2}",
        shape.n,
        shape.d,
        shape.p,
        shape.points,
        format!("{:?}", told.kind),
        told.count,
        told.peak,
        least[1] / splits,
        ratios[0],
        ratios[1]
    );
    ratios
}

/// Prints microseconds for a split and ratios, the least of so many interleaved rounds.
pub fn table(rounds: usize) {
    println!("searches for ranges, least of {rounds} rounds, microseconds for a split");
    println!("n d p points  kind   splits   peak    Rattle      Rust   ratio     search   ratio");
    let rows: Vec<[f64; 2]> = SHAPES.iter().map(|shape| row(shape, rounds)).collect();
    let largest = |k: usize| rows.iter().map(|ratios| ratios[k]).fold(0.0, f64::max);
    println!(
        "largest ratios: {:.2} to Rust, {:.2} to the search",
        largest(0),
        largest(1)
    );
}

/// Compares all jobs without timing them, and says how many they are.
pub fn compare_all() -> usize {
    for shape in &SHAPES {
        let job = shape.job();
        compare(&job, ceiling_of(&job));
    }
    SHAPES.len()
}
