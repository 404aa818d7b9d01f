//! The same loops in plain Rust: the measure that the proved ones are held to.

/// What a job fixes of the loss and the shape. With p = 3 `eps` is how many samples may be spoiled.
#[derive(Clone, Copy, Debug)]
pub struct Model {
    pub n: usize,
    pub d: usize,
    pub scale: u32,
    pub p: u8,
    pub eps: u32,
}

fn field(record: &[u8], k: usize) -> i64 {
    i64::from(i16::from_be_bytes([record[2 * k], record[2 * k + 1]]))
}

fn loss(p: u8, eps: u64, size: u64) -> u64 {
    match p {
        0 => u64::from(size > eps),
        1 => size.min(eps),
        _ => {
            let cut = size.min(eps);
            cut * cut
        }
    }
}

/// The least |e| among the lines of a vector.
#[inline(always)]
fn nearest(record: &[u8], d: usize, power: i64, v: &[i16]) -> u64 {
    let y = field(record, 4) * power;
    let mut least = u64::MAX;
    for line in v.chunks_exact(d) {
        let mut e = y;
        for (k, w) in line.iter().enumerate() {
            e -= i64::from(*w) * field(record, k);
        }
        least = least.min(e.unsigned_abs());
    }
    least
}

/// The same with the least |e| of each line over a box.
#[inline(always)]
fn nearest_over(record: &[u8], d: usize, power: i64, low: &[i16], high: &[i16]) -> u64 {
    let y = field(record, 4) * power;
    let mut least = u64::MAX;
    for (lows, highs) in low.chunks_exact(d).zip(high.chunks_exact(d)) {
        let mut emin = y;
        let mut emax = y;
        for (k, (l, h)) in lows.iter().zip(highs).enumerate() {
            let x = field(record, k);
            let a = i64::from(*l) * x;
            let b = i64::from(*h) * x;
            emin -= a.max(b);
            emax -= a.min(b);
        }
        let size = if emin > 0 {
            emin as u64
        } else if emax < 0 {
            emax.unsigned_abs()
        } else {
            0
        };
        least = least.min(size);
    }
    least
}

/// The (q + 1)-th largest size, or `cap` if that is less: no more sizes are made once more than q
/// reach the cap.
#[inline(always)]
fn rank(sizes: impl ExactSizeIterator<Item = u64>, q: usize, cap: u64) -> u64 {
    let mut kept = Vec::with_capacity(sizes.len());
    let mut reached = 0;
    for size in sizes {
        reached += usize::from(size >= cap);
        if reached > q {
            return cap;
        }
        kept.push(size);
    }
    let place = kept.len() - 1 - q;
    *kept.select_nth_unstable(place).1
}

/// The cost of a vector with p = 3, or `cap` if that is less.
#[inline(never)]
pub fn rank_cost(store: &[u8], m: Model, v: &[i16; 8], cap: u64) -> u64 {
    let v = &v[..m.n * m.d];
    let power = 1i64 << m.scale;
    let records = store.chunks_exact(12);
    let sizes = records.map(|record| nearest(record, m.d, power, v));
    rank(sizes, m.eps as usize, cap)
}

/// The bound of a box with p = 3, or `cap` if that is less.
#[inline(never)]
pub fn rank_bound(store: &[u8], m: Model, low: &[i16; 8], high: &[i16; 8], cap: u64) -> u64 {
    let (low, high) = (&low[..m.n * m.d], &high[..m.n * m.d]);
    let power = 1i64 << m.scale;
    let records = store.chunks_exact(12);
    let sizes = records.map(|record| nearest_over(record, m.d, power, low, high));
    rank(sizes, m.eps as usize, cap)
}

/// The cost of a vector, where p is not 3.
#[inline(never)]
pub fn cost(store: &[u8], m: Model, v: &[i16; 8]) -> u64 {
    let v = &v[..m.n * m.d];
    let power = 1i64 << m.scale;
    let mut sum = 0;
    for record in store.chunks_exact(12) {
        sum += loss(m.p, u64::from(m.eps), nearest(record, m.d, power, v));
    }
    sum
}

/// The bound of a box, where p is not 3.
#[inline(never)]
pub fn bound(store: &[u8], m: Model, low: &[i16; 8], high: &[i16; 8]) -> u64 {
    let (low, high) = (&low[..m.n * m.d], &high[..m.n * m.d]);
    let power = 1i64 << m.scale;
    let mut sum = 0;
    for record in store.chunks_exact(12) {
        sum += loss(
            m.p,
            u64::from(m.eps),
            nearest_over(record, m.d, power, low, high),
        );
    }
    sum
}

/// The cost of a vector, or `cap` if that is less: the rest of the store is not read then.
#[inline(never)]
pub fn cost_up_to(store: &[u8], m: Model, v: &[i16; 8], cap: u64) -> u64 {
    if m.p == 3 {
        return rank_cost(store, m, v, cap);
    }
    let v = &v[..m.n * m.d];
    let power = 1i64 << m.scale;
    let mut sum = 0;
    for record in store.chunks_exact(12) {
        if sum >= cap {
            return cap;
        }
        sum += loss(m.p, u64::from(m.eps), nearest(record, m.d, power, v));
    }
    sum.min(cap)
}

/// The bound of a box, or `cap` if that is less.
#[inline(never)]
pub fn bound_up_to(store: &[u8], m: Model, low: &[i16; 8], high: &[i16; 8], cap: u64) -> u64 {
    if m.p == 3 {
        return rank_bound(store, m, low, high, cap);
    }
    let (low, high) = (&low[..m.n * m.d], &high[..m.n * m.d]);
    let power = 1i64 << m.scale;
    let mut sum = 0;
    for record in store.chunks_exact(12) {
        if sum >= cap {
            return cap;
        }
        sum += loss(
            m.p,
            u64::from(m.eps),
            nearest_over(record, m.d, power, low, high),
        );
    }
    sum.min(cap)
}
