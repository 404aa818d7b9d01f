//! One evaluation with p = 3 on 4,096 points of hidden lines: against one with p = 1 and against
//! plain Rust that selects.
use crate::evaluations::{timed, SHAPES};
use crate::jobs::{Shape, SPOILED};
use crate::plain::{self, Model};
use crate::rattle;
use crate::search::Domain;
use std::hint::black_box;

/// How many samples may be spoiled; one in five is.
const SPOILT: [u32; 7] = [0, 1, 40, 409, 1000, 2047, 4095];
/// How far the box of a bound reaches from the hidden lines.
const REACH: i16 = 20;

/// What an evaluation is handed. The cap is the largest, or what a search with the hidden lines for
/// best asks for.
struct Case {
    model: Model,
    store: Vec<u8>,
    lanes: Vec<rattle::Chunk>,
    domain: Domain,
    corners: [i16; 16],
    caps: [u64; 2],
}

/// A box about the hidden lines.
fn about(hidden: [i16; 8], used: usize) -> Domain {
    let (mut low, mut high) = (hidden, hidden);
    low[..used].iter_mut().for_each(|w| *w -= REACH);
    high[..used].iter_mut().for_each(|w| *w += REACH);
    Domain { low, high }
}

fn case(n: usize, d: usize, q: u32) -> Case {
    let shape = Shape {
        n,
        d,
        offset: d > 1,
        eps: q,
        ..SPOILED
    };
    let job = shape.job();
    let domain = about(shape.hidden(), n * d);
    let mut lanes = vec![[[0.0; 80]; 5]; 54];
    rattle::decode(&mut lanes, &job.store, job.model);
    let best = plain::rank_cost(&job.store, job.model, &shape.hidden(), u64::MAX);
    Case {
        model: job.model,
        store: job.store,
        lanes,
        corners: domain.corners(),
        domain,
        caps: [u64::MAX, best + 1],
    }
}

fn cases() -> impl Iterator<Item = Case> {
    let of_shape = |(n, d)| SPOILT.into_iter().map(move |q| case(n, d, q));
    SHAPES.into_iter().flat_map(of_shape)
}

/// Both sides and the whole calls agree.
fn compare(c: &Case) {
    let (m, low, high) = (c.model, &c.domain.low, &c.domain.high);
    for cap in c.caps {
        let cost = plain::rank_cost(&c.store, m, low, cap);
        let bound = plain::rank_bound(&c.store, m, low, high, cap);
        assert_eq!(rattle::cost(&c.store, &c.lanes, m, &c.corners, cap), cost);
        assert_eq!(rattle::bound(&c.store, &c.lanes, m, &c.corners, cap), bound);
        if cap == u64::MAX {
            assert_eq!(rattle::cost_call(&c.store, m, low), (0, cost));
            assert_eq!(rattle::bound_call(&c.store, m, &c.corners), (0, bound));
        }
    }
}

/// Compares all cases without timing them, and says how many they are.
pub fn compare_all() -> usize {
    let cases: Vec<Case> = cases().collect();
    cases.iter().for_each(compare);
    cases.len()
}

/// The least times over so many interleaved rounds, in nanoseconds: of the cost with p = 1 over
/// lanes, with p = 3, and in Rust; then of the bound. p = 1 has the largest cap.
fn least_times(c: &Case, cap: u64, rounds: usize) -> [f64; 6] {
    let mut least = [f64::INFINITY; 6];
    for _ in 0..rounds {
        let m = black_box(c.model);
        let one = black_box(Model {
            p: 1,
            eps: 40_000,
            ..c.model
        });
        let (low, high) = (&c.domain.low, &c.domain.high);
        let over = |m: Model, cap: u64| rattle::cost(&c.store, &c.lanes, m, &c.corners, cap);
        least[0] = timed(least[0], || over(one, u64::MAX));
        least[1] = timed(least[1], || over(m, cap));
        least[2] = timed(least[2], || plain::rank_cost(&c.store, m, low, cap));
        let over = |m: Model, cap: u64| rattle::bound(&c.store, &c.lanes, m, &c.corners, cap);
        least[3] = timed(least[3], || over(one, u64::MAX));
        least[4] = timed(least[4], || over(m, cap));
        least[5] = timed(least[5], || plain::rank_bound(&c.store, m, low, high, cap));
    }
    least
}

/// Prints times and ratios.
pub fn table(rounds: usize) {
    println!("4096 points of hidden lines, p = 3 over lanes, least of {rounds} rounds, microseconds for one evaluation");
    println!("                         cost                                  bound");
    println!("n d     q  cap      p=1   p=3  Rust  /p=1 /Rust      p=1   p=3  Rust  /p=1 /Rust");
    let mut worst = [0f64; 4];
    for c in cases() {
        compare(&c);
        for (cap, name) in c.caps.into_iter().zip(["none", "best"]) {
            let [a, b, e, f, g, h] = least_times(&c, cap, rounds).map(|t| t / 1000.0);
            let ratios = [b / a, b / e, g / f, g / h];
            println!(
                "{} {} {:5}  {name}  {a:6.1}{b:6.1}{e:6.1}{:6.2}{:6.2}   {f:6.1}{g:6.1}{h:6.1}{:6.2}{:6.2}",
                c.model.n, c.model.d, c.model.eps, ratios[0], ratios[1], ratios[2], ratios[3]
            );
            (0..4).for_each(|k| worst[k] = worst[k].max(ratios[k]));
        }
    }
    println!(
        "largest ratio: cost {:.2} of p = 1, {:.2} of Rust; bound {:.2} of p = 1, {:.2} of Rust",
        worst[0], worst[1], worst[2], worst[3]
    );
}
