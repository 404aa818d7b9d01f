//! The jobs that the searches are timed on: points of hidden lines with noise and outliers, the
//! same in each run.
use crate::plain::Model;
use crate::random::Random;
use crate::search::{Domain, Job};

/// What a job is made from. Each side of its box goes from -side to side, the hidden lines lie from
/// -hidden to hidden in it, and each x goes from -reach to reach; with an offset the last x is a
/// constant. Noise and ε are in units of y, outliers in percent; with p = 3 ε is how many samples
/// may be spoiled.
#[derive(Clone, Copy)]
pub struct Shape {
    pub n: usize,
    pub d: usize,
    pub p: u8,
    pub points: usize,
    pub side: i16,
    pub hidden: i16,
    pub reach: i16,
    pub offset: bool,
    pub noise: i16,
    pub eps: u32,
    pub outliers: i16,
    pub t: u64,
    pub budget: u32,
    pub rows: usize,
}

const fn lines(n: usize, d: usize, p: u8, points: usize) -> Shape {
    Shape {
        n,
        d,
        p,
        points,
        side: 1000,
        hidden: 1000,
        reach: 100,
        offset: d > 1,
        noise: 10,
        eps: 10,
        outliers: 20,
        t: 0,
        budget: 400,
        rows: 2048,
    }
}

/// The same in a longer box, with more noise and more outliers.
const fn rough(shape: Shape) -> Shape {
    Shape {
        side: 32_000,
        hidden: 32_000,
        noise: 400,
        eps: 300,
        outliers: 70,
        ..shape
    }
}

/// The same with more noise.
const fn noisy(shape: Shape) -> Shape {
    Shape {
        noise: 100,
        eps: 60,
        ..shape
    }
}

const fn budget(budget: u32, shape: Shape) -> Shape {
    Shape { budget, ..shape }
}

const fn rows(rows: usize, shape: Shape) -> Shape {
    Shape { rows, ..shape }
}

/// The experiment of source document 000, section 5.1, with two modes, two dimensions and 500
/// points: parameters from -10 to 10, hidden ones and x from -5 to 5, noise of standard deviation
/// 0.1. Here a parameter w stands for w / 128 and one unit of y for 1/500, so each side has 2,561
/// values; the noise is uniform, and the tolerance is 0.001 of what it costs. No residual is over
/// the threshold.
const PUBLISHED: Shape = Shape {
    side: 1280,
    hidden: 640,
    reach: 2500,
    offset: false,
    noise: 87,
    eps: 131_071,
    outliers: 0,
    t: 20_000_000,
    budget: 30_000,
    rows: 32_768,
    ..lines(2, 2, 2, 500)
};

/// The same with a limit on the spoiled samples instead of a threshold.
const fn spoiled(q: u32, shape: Shape) -> Shape {
    Shape {
        p: 3,
        eps: q,
        ..shape
    }
}

/// The points that evaluations with p = 3 are timed on.
pub const SPOILED: Shape = spoiled(0, noisy(lines(1, 1, 3, 4096)));

pub static SHAPES: [Shape; 16] = [
    rough(lines(1, 1, 1, 1024)),
    rough(lines(1, 1, 2, 512)),
    noisy(lines(1, 2, 0, 256)),
    budget(300, noisy(lines(1, 2, 1, 512))),
    budget(150, noisy(lines(1, 2, 2, 1024))),
    noisy(lines(2, 1, 0, 256)),
    budget(300, noisy(lines(2, 1, 1, 512))),
    rows(200, noisy(lines(2, 1, 2, 256))),
    lines(2, 2, 0, 64),
    budget(300, lines(2, 2, 2, 128)),
    lines(1, 4, 1, 128),
    budget(200, lines(4, 2, 1, 128)),
    budget(300, spoiled(120, noisy(lines(1, 2, 3, 512)))),
    budget(300, spoiled(60, noisy(lines(2, 1, 3, 256)))),
    PUBLISHED,
    growing(12_000),
];

/// Budgets of the searches that say what a split takes by how many boxes are open.
pub const GROWTH: [u32; 6] = [500, 1_000, 2_000, 4_000, 8_000, 16_000];

/// A search in which nearly every split leaves one more box open.
pub const fn growing(splits: u32) -> Shape {
    rows(
        splits as usize + 1,
        budget(splits, noisy(lines(2, 4, 1, 128))),
    )
}

/// A job with 4,096 points whose windows are searched; with p = 3 a window has at most 13 spoiled
/// samples.
pub const fn passing(n: usize, d: usize, p: u8, splits: u32) -> Shape {
    let shape = rows(128, budget(splits, noisy(lines(n, d, p, 4096))));
    match p {
        3 => spoiled(13, shape),
        _ => shape,
    }
}

const SCALE: u32 = 7;
/// The last x where there are several, so that a line has an offset.
const OFFSET: i16 = 100;

const SEED: u64 = 4711;

impl Shape {
    fn hidden_by(&self, random: &mut Random) -> [i16; 8] {
        let mut hidden = [0; 8];
        for w in &mut hidden[..self.n * self.d] {
            *w = random.between(-self.hidden, self.hidden);
        }
        hidden
    }

    /// The lines that the points are made from.
    pub fn hidden(&self) -> [i16; 8] {
        self.hidden_by(&mut Random::new(SEED))
    }

    fn store(&self) -> Vec<u8> {
        let mut random = Random::new(SEED);
        let hidden = self.hidden_by(&mut random);
        let lines: Vec<&[i16]> = hidden.chunks_exact(self.d).collect();
        let mut store = Vec::with_capacity(12 * self.points);
        for frame in 0..self.points {
            let line = lines[frame % self.n];
            let mut x = [0; 4];
            for value in &mut x[..self.d] {
                *value = random.between(-self.reach, self.reach);
            }
            if self.offset {
                x[self.d - 1] = OFFSET;
            }
            let products = line
                .iter()
                .zip(x)
                .map(|(w, x)| i64::from(*w) * i64::from(x));
            let dot: i64 = products.sum();
            let noise = random.between(-self.noise, self.noise);
            let far = random.between(-5000, 5000);
            let y = if random.between(0, 99) < self.outliers {
                far
            } else {
                (dot >> SCALE) as i16 + noise
            };
            for field in x {
                store.extend_from_slice(&field.to_be_bytes());
            }
            store.extend_from_slice(&y.to_be_bytes());
            store.extend_from_slice(&(frame as u16).to_be_bytes());
        }
        store
    }

    pub fn job(&self) -> Job {
        let mut domain = Domain {
            low: [0; 8],
            high: [0; 8],
        };
        domain.low[..self.n * self.d].fill(-self.side);
        domain.high[..self.n * self.d].fill(self.side);
        Job {
            model: Model {
                n: self.n,
                d: self.d,
                scale: SCALE,
                p: self.p,
                eps: if self.p == 3 {
                    self.eps
                } else {
                    self.eps << SCALE
                },
            },
            t: self.t,
            budget: self.budget,
            rows: self.rows,
            domain,
            start: [0; 8],
            store: self.store(),
        }
    }
}
