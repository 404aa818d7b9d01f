//! One evaluation of a cost and of a bound on 4,096 points, proved code against the same loops in
//! plain Rust.
use crate::checked;
use crate::plain::{self, Model};
use crate::random::Random;
use crate::rattle;
use crate::search::Domain;
use std::hint::black_box;
use std::time::Instant;

const POINTS: usize = 4096;
pub const SHAPES: [(usize, usize); 9] = [
    (1, 1),
    (1, 2),
    (1, 3),
    (1, 4),
    (2, 1),
    (2, 2),
    (2, 4),
    (4, 1),
    (4, 2),
];
const SCALE: u32 = 7;
const EPS: u32 = 40_000;
const NO_CAP: u64 = u64::MAX;

/// What an evaluation is handed.
struct Case {
    model: Model,
    store: Vec<u8>,
    lanes: Vec<rattle::Chunk>,
    domain: Domain,
    corners: [i16; 16],
}

/// Points of d dimensions anywhere.
fn store(random: &mut Random, d: usize) -> Vec<u8> {
    let mut store = Vec::with_capacity(12 * POINTS);
    for frame in 0..POINTS {
        let mut x = [0; 4];
        for field in &mut x[..d] {
            *field = random.between(-1000, 1000);
        }
        let y = random.between(-1000, 1000);
        for field in x.into_iter().chain([y]) {
            store.extend_from_slice(&field.to_be_bytes());
        }
        store.extend_from_slice(&(frame as u16).to_be_bytes());
    }
    store
}

/// A box with so many used coordinates.
fn domain(random: &mut Random, used: usize) -> Domain {
    let mut domain = Domain {
        low: [0; 8],
        high: [0; 8],
    };
    for k in 0..used {
        domain.low[k] = random.between(-200, 199);
        domain.high[k] = domain.low[k] + random.between(0, 99);
    }
    domain
}

fn case(n: usize, d: usize, p: u8) -> Case {
    let mut random = Random::new(12345);
    let store = store(&mut random, d);
    let domain = domain(&mut random, n * d);
    let model = Model {
        n,
        d,
        scale: SCALE,
        p,
        eps: EPS,
    };
    let mut lanes = vec![[[0.0; 80]; 5]; 54];
    rattle::decode(&mut lanes, &store, model);
    Case {
        model,
        store,
        lanes,
        corners: domain.corners(),
        domain,
    }
}

/// Both sides and the whole calls agree before anything is timed.
fn compare(c: &Case) {
    let cost = plain::cost(&c.store, c.model, &c.domain.low);
    let bound = plain::bound(&c.store, c.model, &c.domain.low, &c.domain.high);
    assert_eq!(
        rattle::cost(&c.store, &c.lanes, c.model, &c.corners, NO_CAP),
        cost
    );
    assert_eq!(
        rattle::bound(&c.store, &c.lanes, c.model, &c.corners, NO_CAP),
        bound
    );
    assert_eq!(checked::cost(&c.store, c.model, &c.domain.low), Ok(cost));
    assert_eq!(
        checked::bound(&c.store, c.model, &c.domain.low, &c.domain.high),
        Ok(bound)
    );
    assert_eq!(
        rattle::cost_call(&c.store, c.model, &c.domain.low),
        (0, cost)
    );
    assert_eq!(
        rattle::bound_call(&c.store, c.model, &c.corners),
        (0, bound)
    );
}

/// The smaller of `least` and the time that `f` takes, in nanoseconds.
pub fn timed(least: f64, f: impl FnOnce() -> u64) -> f64 {
    let start = Instant::now();
    black_box(f());
    least.min(start.elapsed().as_nanos() as f64)
}

fn cases() -> impl Iterator<Item = Case> {
    let of_shape = |(n, d)| (0..3).map(move |p| case(n, d, p));
    SHAPES.into_iter().flat_map(of_shape)
}

/// Compares all cases without timing them, and says how many they are.
pub fn compare_all() -> usize {
    let cases: Vec<Case> = cases().collect();
    cases.iter().for_each(compare);
    cases.len()
}

/// The least times over so many interleaved rounds, in nanoseconds: of the cost in Rust, over
/// lanes, in Rust with the checks of a call, and by the whole call; then of the bound.
fn least_times(c: &Case, rounds: usize) -> [f64; 8] {
    let mut least = [f64::INFINITY; 8];
    for _ in 0..rounds {
        let m = black_box(c.model);
        let (low, high) = (&c.domain.low, &c.domain.high);
        least[0] = timed(least[0], || plain::cost(&c.store, m, low));
        least[1] = timed(least[1], || {
            rattle::cost(&c.store, &c.lanes, m, &c.corners, NO_CAP)
        });
        least[2] = timed(least[2], || checked::cost(&c.store, m, low).unwrap_or(0));
        least[3] = timed(least[3], || rattle::cost_call(&c.store, m, low).1);
        least[4] = timed(least[4], || plain::bound(&c.store, m, low, high));
        least[5] = timed(least[5], || {
            rattle::bound(&c.store, &c.lanes, m, &c.corners, NO_CAP)
        });
        least[6] = timed(least[6], || {
            checked::bound(&c.store, m, low, high).unwrap_or(0)
        });
        least[7] = timed(least[7], || rattle::bound_call(&c.store, m, &c.corners).1);
    }
    least
}

/// Prints times and ratios: of lanes to Rust, and of the whole call to Rust that makes its checks.
pub fn table(rounds: usize) {
    println!("{POINTS} points, least of {rounds} rounds, microseconds for one evaluation: over lanes, and the whole call, which decodes, with its checks on both sides");
    println!(
        "                              cost                                              bound"
    );
    println!(
        "n d p      Rust    lanes ratio   checked     call ratio        Rust    lanes ratio   checked     call ratio"
    );
    let mut worst = [0f64; 4];
    for c in cases() {
        compare(&c);
        let Model { n, d, p, .. } = c.model;
        let times = least_times(&c, rounds).map(|t| t / 1000.0);
        let mut row = format!("{n} {d} {p}");
        for (k, pair) in times.chunks_exact(2).enumerate() {
            let ratio = pair[1] / pair[0];
            worst[k] = worst[k].max(ratio);
            let gap = if k == 2 { 12 } else { 10 };
            row += &format!("{:gap$.1} {:8.1} {ratio:5.2}", pair[0], pair[1]);
        }
        println!("{row}");
    }
    println!(
        "largest ratio: cost {:.2}, call {:.2}; bound {:.2}, call {:.2}",
        worst[0], worst[1], worst[2], worst[3]
    );
}

/// One evaluation of each, for counting instructions.
pub fn once(n: usize, d: usize, p: u8) {
    let c = case(n, d, p);
    let m = black_box(c.model);
    black_box(plain::cost(&c.store, m, &c.domain.low));
    black_box(rattle::cost(&c.store, &c.lanes, m, &c.corners, NO_CAP));
    black_box(plain::bound(&c.store, m, &c.domain.low, &c.domain.high));
    black_box(rattle::bound(&c.store, &c.lanes, m, &c.corners, NO_CAP));
}
