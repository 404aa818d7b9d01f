//! Whole searches: the proved one against plain Rust that keeps its bounds as well.
use crate::jobs::{self, Shape, SHAPES};
use crate::keeping::{self, Open};
use crate::search::{Answer, Job};
use crate::{clock, rattle};
use std::hint::black_box;

/// What a search of a job is lent.
struct Lent {
    table: Vec<i16>,
    bounds: Vec<u64>,
}

impl Lent {
    fn new(job: &Job) -> Lent {
        Lent {
            table: vec![0; 16 * job.rows],
            bounds: vec![0; job.rows],
        }
    }

    fn search(&mut self, job: &Job) -> Answer {
        rattle::search(job, &mut self.table, &mut self.bounds)
    }
}

fn plain(job: &Job) -> Answer {
    keeping::search(job, &mut Open::default())
}

/// Both give the same answer, the same open boxes and the same bounds, before anything is timed.
fn compare(job: &Job) -> Answer {
    let (mut lent, mut open) = (Lent::new(job), Open::default());
    let answer = lent.search(job);
    assert_eq!(keeping::search(job, &mut open), answer);
    let rows: Vec<i16> = open.domains.iter().flat_map(|d| d.corners()).collect();
    assert_eq!(lent.table[..16 * answer.open], rows);
    assert_eq!(lent.bounds[..answer.open], open.bounds);
    answer
}

/// The smaller of `least` and the milliseconds of processor time that a search takes.
fn timed(least: f64, search: impl FnOnce() -> Answer) -> f64 {
    let start = clock::processor_time();
    black_box(search());
    least.min((clock::processor_time() - start) as f64 / 1_000_000.0)
}

/// The least times of the proved search and of the plain one, over so many interleaved rounds.
fn least_times(job: &Job, rounds: usize) -> [f64; 2] {
    let mut lent = Lent::new(job);
    let mut least = [f64::INFINITY; 2];
    for _ in 0..rounds {
        least[0] = timed(least[0], || lent.search(job));
        least[1] = timed(least[1], || plain(job));
    }
    least
}

fn row(shape: &Shape, rounds: usize) -> f64 {
    let job = shape.job();
    let answer = compare(&job);
    let [proved, kept] = least_times(&job, rounds);
    println!(
        "{} {} {} {:6}  {:6} {:6} {:6} {:6}  {proved:8.2}  {kept:8.2}  {:6.2}",
        shape.n,
        shape.d,
        shape.p,
        shape.points,
        format!("{:?}", answer.kind),
        answer.count,
        answer.open,
        answer.peak,
        proved / kept
    );
    proved / kept
}

/// Prints times in milliseconds and ratios, the least of so many interleaved rounds.
pub fn table(rounds: usize) {
    println!("whole searches, least of {rounds} rounds, milliseconds for one");
    println!("n d p points  kind   splits   open   peak    Rattle      Rust   ratio");
    let largest = SHAPES
        .iter()
        .map(|shape| row(shape, rounds))
        .fold(0.0, f64::max);
    println!("largest ratio: {largest:.2}");
}

/// Prints what a split takes by how many boxes are open: of a search in which every split leaves
/// one more.
pub fn growth(rounds: usize) {
    println!("microseconds for a split, least of {rounds} rounds");
    println!("open boxes from  to    Rattle      Rust   ratio");
    let mut before = [0.0, 0.0];
    let mut from = 0;
    for splits in jobs::GROWTH {
        let job = jobs::growing(splits).job();
        let answer = compare(&job);
        let times = least_times(&job, rounds);
        let count = f64::from(splits - from) / 1000.0;
        let [proved, kept] = [0, 1].map(|k| (times[k] - before[k]) / count);
        println!(
            "{from:10} {:9}  {proved:8.2}  {kept:8.2}  {:6.2}",
            answer.open,
            proved / kept
        );
        (before, from) = (times, splits);
    }
}

/// Compares all jobs without timing them, and says how many they are.
pub fn compare_all() -> usize {
    for shape in &SHAPES {
        compare(&shape.job());
    }
    SHAPES.len()
}

/// One search of each kind, for counting instructions.
pub fn once(number: usize) {
    let shape = &SHAPES[number];
    println!("{} {} {} {}", shape.n, shape.d, shape.p, shape.points);
    compare(&shape.job());
}

/// One search with so many splits, for counting its instructions; says how many boxes are open in
/// the end.
pub fn once_growing(splits: u32) {
    let job = jobs::growing(splits).job();
    println!("{}", Lent::new(&job).search(&job).open);
}
