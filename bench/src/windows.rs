//! A pass through windows in one call against the same searches called one by one.
use crate::jobs::{passing, Shape};
use crate::search::{Answer, Job, Kind};
use crate::{clock, rattle};
use std::hint::black_box;

/// Bytes of a point record and of an answer record.
const RECORD: usize = 12;
const ANSWER: usize = 40;

/// Windows of `k` records, `h` apart, of a job's points.
struct Pass {
    shape: Shape,
    k: usize,
    h: usize,
}

static PASSES: [Pass; 8] = [
    Pass {
        shape: passing(1, 1, 1, 100),
        k: 1024,
        h: 512,
    },
    Pass {
        shape: passing(1, 2, 1, 60),
        k: 256,
        h: 128,
    },
    Pass {
        shape: passing(1, 2, 0, 60),
        k: 256,
        h: 16,
    },
    Pass {
        shape: passing(2, 2, 2, 60),
        k: 128,
        h: 128,
    },
    Pass {
        shape: passing(2, 2, 2, 20),
        k: 64,
        h: 64,
    },
    Pass {
        shape: passing(1, 4, 1, 20),
        k: 19,
        h: 19,
    },
    Pass {
        shape: passing(1, 1, 1, 5),
        k: 19,
        h: 1,
    },
    Pass {
        shape: passing(2, 1, 3, 60),
        k: 128,
        h: 64,
    },
];

/// A pass with what its searches are lent.
struct Run {
    job: Job,
    k: usize,
    h: usize,
    /// A job for each window, which has its records alone.
    alone: Vec<Job>,
    table: Vec<i16>,
    bounds: Vec<u64>,
    out: Vec<u8>,
}

impl Run {
    fn new(pass: &Pass) -> Run {
        let job = pass.shape.job();
        let count = (pass.shape.points - pass.k) / pass.h + 1;
        let window = |i: usize| {
            let from = RECORD * i * pass.h;
            Job {
                store: job.store[from..from + RECORD * pass.k].to_vec(),
                ..pass.shape.job()
            }
        };
        Run {
            alone: (0..count).map(window).collect(),
            k: pass.k,
            h: pass.h,
            table: vec![0; 16 * job.rows],
            bounds: vec![0; job.rows],
            out: vec![0; ANSWER * count],
            job,
        }
    }

    fn in_one_call(&mut self) -> u64 {
        let (table, bounds) = (&mut self.table, &mut self.bounds);
        rattle::windows(&self.job, [self.k, self.h], table, bounds, &mut self.out)
    }

    /// The last vector found.
    fn one_by_one(&mut self) -> [i16; 8] {
        let mut start = self.job.start;
        for job in &mut self.alone {
            job.start = start;
            start = rattle::search(job, &mut self.table, &mut self.bounds).vector;
        }
        start
    }

    /// Each record is that of the window's search, before anything is timed.
    fn compare(&mut self) {
        assert_eq!(self.in_one_call() as usize, self.alone.len());
        self.one_by_one();
        for (job, record) in self.alone.iter().zip(self.out.chunks_exact(ANSWER)) {
            let answer = rattle::search(job, &mut self.table, &mut self.bounds);
            assert_eq!(record, bytes(job, &answer));
        }
    }
}

/// The record of an answer.
fn bytes(job: &Job, answer: &Answer) -> Vec<u8> {
    let kind = match answer.kind {
        Kind::Solved => 1,
        Kind::Spent => 2,
        Kind::Full => 3,
    };
    let vector = answer.vector.iter().flat_map(|w| w.to_be_bytes());
    let mut bytes: Vec<u8> = vector.collect();
    bytes.extend(answer.cost.to_be_bytes());
    bytes.extend(answer.bound.to_be_bytes());
    bytes.extend(answer.count.to_be_bytes());
    bytes.extend([
        kind,
        job.model.n as u8,
        job.model.d as u8,
        job.model.scale as u8,
    ]);
    bytes
}

/// The smaller of `least` and the microseconds of processor time that it takes.
fn timed<T>(least: f64, call: impl FnOnce() -> T) -> f64 {
    let start = clock::processor_time();
    black_box(call());
    least.min((clock::processor_time() - start) as f64 / 1000.0)
}

fn row(pass: &Pass, rounds: usize) -> f64 {
    let mut run = Run::new(pass);
    run.compare();
    let mut least = [f64::INFINITY; 2];
    for _ in 0..rounds {
        least[0] = timed(least[0], || run.in_one_call());
        least[1] = timed(least[1], || run.one_by_one());
    }
    let (count, [one, each]) = (
        run.alone.len(),
        least.map(|all| all / run.alone.len() as f64),
    );
    let Shape { n, d, p, .. } = pass.shape;
    println!(
        "{n} {d} {p} {:6} {:6} {count:8}  {one:10.2}  {each:10.2}  {:6.3}",
        pass.k,
        pass.h,
        one / each
    );
    one / each
}

/// Prints times in microseconds and ratios, the least of so many interleaved rounds.
pub fn table(rounds: usize) {
    println!("windows of 4,096 points, least of {rounds} rounds, microseconds for one window");
    println!("n d p      k      h  windows    one call  one by one   ratio");
    let largest = PASSES
        .iter()
        .map(|pass| row(pass, rounds))
        .fold(0.0, f64::max);
    println!("largest ratio: {largest:.3}");
}

/// Compares all passes without timing them, and says how many they are.
pub fn compare_all() -> usize {
    for pass in &PASSES {
        Run::new(pass).compare();
    }
    PASSES.len()
}
