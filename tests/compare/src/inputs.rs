//! Random jobs and stores, sound ones and damaged ones.

use crate::random::Random;
use oracle::points::{points_of, store_of, Point, GAP_Y, RECORD};
use oracle::{Box8, Job, Model, Vector};

/// The shapes that check 2 accepts.
const SHAPES: [(u8, u8); 12] =
    [(1, 1), (1, 2), (1, 3), (1, 4), (2, 1), (2, 2), (2, 3), (2, 4), (3, 1), (3, 2), (4, 1), (4, 2)];

/// How large the numbers of a case are.
#[derive(Clone, Copy)]
pub enum Size {
    Tiny,
    Medium,
    Any,
    Ends,
}

impl Size {
    pub fn random(random: &mut Random) -> Size {
        random.pick(&[Size::Tiny, Size::Tiny, Size::Medium, Size::Medium, Size::Any, Size::Ends])
    }

    pub fn number(self, random: &mut Random) -> i16 {
        match self {
            Size::Tiny => random.between(-3, 3) as i16,
            Size::Medium => random.between(-200, 200) as i16,
            Size::Any => random.next() as i16,
            Size::Ends => random.pick(&[-32768, -32767, -1, 0, 1, 32766, 32767]),
        }
    }
}

/// A job and its store, as a case has them.
#[derive(Clone, Debug)]
pub struct Input {
    pub job: Job,
    pub store: Vec<u8>,
}

impl Input {
    /// Keeps the first records; for p = 3 q stays below their number where it was.
    pub fn keep(&mut self, records: usize) {
        let before = self.store.len() / RECORD;
        self.store.truncate(RECORD.saturating_mul(records));
        let (model, after) = (&mut self.job.model, self.store.len() / RECORD);
        if model.p == 3 && after > 0 && (model.epsilon as usize) < before {
            model.epsilon = model.epsilon.min(after as u32 - 1);
        }
    }

    /// p = 3, with any q for the records that there are, often at an end of its range.
    pub fn limit_spoiled(&mut self, random: &mut Random) {
        let last = (self.store.len() / RECORD) as i64 - 1;
        let any = random.between(0, last);
        let few = last.min(random.between(0, 3));
        self.job.model.p = 3;
        self.job.model.epsilon = random.pick(&[0, last, any, any, few, last - few]) as u32;
    }
}

pub fn model(random: &mut Random) -> Model {
    let (n, d) = random.pick(&SHAPES);
    let s = match random.below(3) {
        0 => 0,
        1 => random.between(0, 3) as u8,
        _ => random.between(0, 15) as u8,
    };
    let p = random.below(3) as u8;
    let least = (p > 0) as i64;
    let epsilon = match random.below(6) {
        0 => least,
        1 => 16_777_215,
        2 => random.between(least, 16_777_215),
        3 => random.between(least, 20_000),
        _ => random.between(least, 30),
    };
    Model { n, d, s, p, epsilon: epsilon as u32 }
}

fn vector(random: &mut Random, used: usize, size: Size) -> Vector {
    std::array::from_fn(|k| if k < used { size.number(random) } else { 0 })
}

pub fn points(random: &mut Random, d: u8, count: usize, size: Size) -> Vec<Point> {
    let y_size = if random.once_in(4) { Size::random(random) } else { size };
    let mut point = || Point {
        x: std::array::from_fn(|k| if k < d as usize { size.number(random) } else { 0 }),
        y: y_size.number(random),
        frame: random.next() as u16,
    };
    (0..count).map(|_| point()).collect()
}

/// In one store of four, gaps: a few of the records, about half of them or all; the rest now and then at the ends of y's
/// range. A record's x and frame stay, so that a gap may have any.
fn put_gaps(random: &mut Random, points: &mut [Point]) {
    if random.once_in(4) {
        let eighths = random.pick(&[1, 4, 8]);
        for point in points {
            if random.below(8) < eighths {
                point.y = GAP_Y;
            } else if random.once_in(6) {
                point.y = random.pick(&[GAP_Y + 1, i16::MAX]);
            }
        }
    }
}

/// Every record of the store becomes a gap.
pub fn make_gaps(store: &mut [u8]) {
    for record in store.chunks_exact_mut(RECORD) {
        record[8..10].copy_from_slice(&GAP_Y.to_be_bytes());
    }
}

/// Mostly a few records, now and then the largest stores.
fn record_count(random: &mut Random) -> usize {
    match random.below(60) {
        0 => 4096,
        1 => 4095,
        2 => random.size(100, 600),
        _ => random.size(1, 12),
    }
}

fn domain_around(random: &mut Random, model: &Model, size: Size) -> Box8 {
    let (one, other) = (vector(random, model.used(), size), vector(random, model.used(), size));
    Box8 { low: std::array::from_fn(|k| one[k].min(other[k])), high: std::array::from_fn(|k| one[k].max(other[k])) }
}

fn inside(random: &mut Random, domain: &Box8) -> Vector {
    let ends = random.once_in(3);
    std::array::from_fn(|k| {
        let (low, high) = (domain.low[k], domain.high[k]);
        if ends {
            random.pick(&[low, high])
        } else {
            random.between(low as i64, high as i64) as i16
        }
    })
}

/// Sometimes makes ε the size of a residual of this case, or one beside it, where the losses turn.
fn meet_a_residual(random: &mut Random, model: &mut Model, points: &[Point], vector: &Vector) {
    if random.once_in(2) {
        let point = points[random.size(0, points.len() - 1)];
        let line = random.size(0, model.n as usize - 1);
        let near = model.residual(&point, vector, line).abs() + random.between(-1, 1);
        if (1..=16_777_215).contains(&near) {
            model.epsilon = near as u32;
        }
    }
}

/// The second line becomes the first.
pub fn equal_lines(input: &mut Input) {
    let d = input.job.model.d as usize;
    if input.job.model.n > 1 && 2 * d <= 8 {
        let (first, rest) = input.job.start.split_at_mut(d);
        rest[..d].copy_from_slice(first);
    }
}

/// Makes ε the size by which a second line fits one of the records, or one beside it, where that is a threshold.
pub fn meet_the_second_line(random: &mut Random, input: &mut Input) {
    let Input { job: Job { model, start, .. }, store } = input;
    let points = points_of(store);
    if model.check_threshold().is_err() || model.n == 1 || points.is_empty() {
        return;
    }
    let point = points[random.size(0, points.len() - 1)];
    let mut sizes: Vec<i64> = (0..model.n as usize).map(|j| model.residual(&point, start, j).abs()).collect();
    sizes.sort_unstable();
    let near = sizes[1] + random.between(-1, 1);
    if (1..=16_777_215).contains(&near) {
        model.epsilon = near as u32;
    }
}

/// A sound job of any size with its store.
pub fn sound(random: &mut Random) -> Input {
    let count = record_count(random);
    sound_of(random, count)
}

/// A sound job of any size with a store of so many records, once in five with a limit on spoiled samples.
pub fn sound_of(random: &mut Random, count: usize) -> Input {
    let size = Size::random(random);
    let mut model = model(random);
    let reach = Size::random(random);
    let domain = domain_around(random, &model, reach);
    let start = inside(random, &domain);
    let mut points = points(random, model.d, count, size);
    put_gaps(random, &mut points);
    meet_a_residual(random, &mut model, &points, &start);
    let t = random.pick(&[0, 1, 5, u64::MAX]);
    let job = Job { model, t, budget: random.below(40) as u32, rows: random.below(40) as u32, domain, start };
    let mut input = Input { job, store: store_of(&points) };
    if random.once_in(5) {
        input.limit_spoiled(random);
    }
    input
}

/// A sound job with a box of at most `limit` vectors, once in five with a limit on spoiled samples.
pub fn small(random: &mut Random, limit: u64) -> Input {
    let mut input = small_with_threshold(random, limit);
    if random.once_in(5) {
        input.limit_spoiled(random);
    }
    input
}

/// A sound job with a threshold and a box of at most `limit` vectors, whose points lie near the lines of a vector in it,
/// but for noise and outliers.
pub fn small_with_threshold(random: &mut Random, limit: u64) -> Input {
    let mut model = model(random);
    model.s = random.pick(&[0, 0, 0, 1, 2, 5]);
    small_of(random, model, limit)
}

/// A sound job that can be peeled, with a box of at most `limit` vectors: one line and p = 0, the points near several lines.
pub fn one_line(random: &mut Random, limit: u64) -> Input {
    let mut model = model(random);
    (model.n, model.p) = (1, 0);
    model.s = random.pick(&[0, 0, 0, 1, 2]);
    model.epsilon = random.pick(&[0, 0, 1, 2, 3, 8]);
    let mut input = small_of(random, model, limit);
    let mut points = points_of(&input.store);
    for _ in 0..random.size(0, 2) {
        let other = inside(random, &input.job.domain);
        let count = random.size(1, 8);
        points.extend(near_lines(random, &model, &other, count));
    }
    put_gaps(random, &mut points);
    input.store = store_of(&points);
    input
}

fn small_of(random: &mut Random, mut model: Model, limit: u64) -> Input {
    let used = model.used();
    let mut domain = Box8 { low: [0; 8], high: [0; 8] };
    let mut vectors = 1;
    for _ in 0..64 {
        let k = random.size(0, used - 1);
        let longer = vectors / side(&domain, k) * (side(&domain, k) + 1);
        if longer <= limit {
            domain.high[k] += 1;
            vectors = longer;
        }
    }
    for k in 0..used {
        let shift = random.between(-12, 12) as i16;
        domain.low[k] += shift;
        domain.high[k] += shift;
    }
    let hidden = inside(random, &domain);
    let start = if random.once_in(8) { hidden } else { inside(random, &domain) };
    let count = random.size(1, 14);
    let mut points = near_lines(random, &model, &hidden, count);
    put_gaps(random, &mut points);
    meet_a_residual(random, &mut model, &points, &start);
    let rows = random.below(20) as u32;
    Input { job: Job { model, t: 0, budget: 0, rows, domain, start }, store: store_of(&points) }
}

/// A sound job with at most four coordinates, a few records and a box so large that a search of it opens hundreds of boxes; once
/// in five with a limit on spoiled samples.
pub fn long(random: &mut Random) -> Input {
    let (n, d) =
        random.pick(&[(1, 2), (2, 1), (1, 3), (3, 1), (1, 4), (1, 4), (2, 2), (2, 2), (2, 2), (4, 1), (4, 1)]);
    let p = random.below(3) as u8;
    let epsilon = random.pick(&[1, 2, 5, 20, 60, 300]);
    let mut model = Model { n, d, s: random.pick(&[0, 0, 1, 3]), p, epsilon };
    let reach = random.pick(&[30, 60, 200, 600]);
    let used = model.used();
    let middle = vector(random, used, Size::Medium);
    let side = |w: i16, k: usize| if k < used { w } else { 0 };
    let low = std::array::from_fn(|k| side(middle[k] - reach, k));
    let high = std::array::from_fn(|k| side(middle[k] + reach, k));
    let domain = Box8 { low, high };
    let (hidden, start) = (inside(random, &domain), inside(random, &domain));
    let count = random.size(3, 12);
    let mut points = near_lines(random, &model, &hidden, count);
    // Where no line fits, bounds are far below costs.
    if random.once_in(2) {
        for point in &mut points {
            point.y = random.between(-300, 300) as i16;
        }
    }
    meet_a_residual(random, &mut model, &points, &start);
    let job = Job { model, t: 0, budget: 0, rows: 0, domain, start };
    let mut input = Input { job, store: store_of(&points) };
    if random.once_in(5) {
        input.limit_spoiled(random);
    }
    input
}

fn side(domain: &Box8, k: usize) -> u64 {
    (domain.high[k] as i64 - domain.low[k] as i64) as u64 + 1
}

/// Points on the lines of a vector, moved by noise, some of them anywhere.
fn near_lines(random: &mut Random, model: &Model, hidden: &Vector, count: usize) -> Vec<Point> {
    let noise = random.pick(&[0, 1, 3]);
    let reach = random.pick(&[1, 3, 9]);
    let mut points = points(random, model.d, count, Size::Tiny);
    for point in &mut points {
        for x in &mut point.x[..model.d as usize] {
            *x = random.between(-reach, reach) as i16;
        }
        point.y = 0;
        let line = random.size(0, model.n as usize - 1);
        let on_line = -model.residual(point, hidden, line) >> model.s;
        let y = on_line + random.between(-noise, noise);
        point.y = if random.once_in(5) { random.between(-60, 60) as i16 } else { y as i16 };
    }
    points
}

/// Damages up to four things, so that several checks fail at once and their order shows.
pub fn damage(random: &mut Random, input: &mut Input) {
    for _ in 0..random.size(1, 4) {
        let Input { job, store } = input;
        let model = &mut job.model;
        let used = (model.n as usize * model.d as usize).min(8);
        match random.below(7) {
            0 => damage_length(random, store),
            1 => {
                let number = random.pick(&[0, 3, 4, 5, 16, 64, 128, 255]);
                *random.pick_mut(&mut model.n, &mut model.d) = number;
            }
            2 => model.s = random.pick(&[16, 17, 31, 32, 64, 255]),
            3 => match random.below(4) {
                0 => model.p = random.pick(&[3, 4, 255]),
                1 => {
                    let records = (store.len() / RECORD) as u32;
                    (model.p, model.epsilon) =
                        (3, random.pick(&[records, records, records + 1, 16_777_215, u32::MAX]));
                }
                2 => model.epsilon = random.pick(&[16_777_216, 16_777_217, u32::MAX]),
                _ => (model.p, model.epsilon) = (random.pick(&[0, 1, 2]), 0),
            },
            4 => damage_box(random, &mut job.domain, used),
            5 => damage_vector(random, &mut job.start, used),
            _ => damage_fields(random, store, model.d),
        }
    }
}

fn damage_length(random: &mut Random, store: &mut Vec<u8>) {
    match random.below(4) {
        0 => store.clear(),
        1 => store.resize(49_152 + 12, 0),
        2 => store.truncate(store.len().saturating_sub(random.size(1, 11))),
        _ => store.extend(random.bytes(11).iter().take(random.size(1, 11))),
    }
}

/// Low over high somewhere, or an unused coordinate that is not 0.
fn damage_box(random: &mut Random, domain: &mut Box8, used: usize) {
    let k = random.size(0, 7);
    match random.below(4) {
        0 if used < 8 => {
            let unused = random.size(used, 7);
            (domain.low[unused], domain.high[unused]) = (-1, 1);
        }
        1 if used < 8 => {
            let unused = random.size(used, 7);
            *random.pick_mut(&mut domain.low[unused], &mut domain.high[unused]) = random.pick(&[-1, 1, 256]);
        }
        2 => domain.low[k] = domain.high[k].saturating_add(1),
        _ => (domain.low[k], domain.high[k]) = (32767, -32768),
    }
}

/// Another coordinate, used or not, by one or by much.
fn damage_vector(random: &mut Random, vector: &mut Vector, used: usize) {
    let k = if used < 8 && random.once_in(2) { random.size(used, 7) } else { random.size(0, 7) };
    let other = [vector[k].saturating_add(1), vector[k].saturating_sub(1), -32768, 32767, 256];
    vector[k] = random.pick(&other);
}

/// Puts something into fields after the d-th of one to three records.
fn damage_fields(random: &mut Random, store: &mut [u8], d: u8) {
    let records = store.len() / 12;
    if d < 4 && records > 0 {
        for _ in 0..random.size(1, 3) {
            let field = random.size(d as usize, 3);
            let record = random.size(0, records - 1);
            store[12 * record + 2 * field + random.size(0, 1)] = random.between(1, 255) as u8;
        }
    }
}

impl Random {
    fn pick_mut<'a, T>(&mut self, one: &'a mut T, other: &'a mut T) -> &'a mut T {
        if self.once_in(2) {
            one
        } else {
            other
        }
    }
}

/// Sound input three times in five, else damaged.
pub fn any(random: &mut Random) -> Input {
    let mut input = sound(random);
    if random.below(5) >= 3 {
        damage(random, &mut input);
    }
    input
}
