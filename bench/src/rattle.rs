//! The proved code behind safe functions: the product's calls by tests/bindings, and what
//! crates/bench_kernels/src/lib.rt exports, which nothing checks these declarations against.
use crate::plain::Model;
use crate::ranges::Ranges;
use crate::search::{Answer, Job, Kind};
use bindings::{
    vengutari_bound, vengutari_cost, vengutari_ranges, vengutari_search, vengutari_windows,
};

extern "C" {
    fn bench_decode(
        lanes: *mut Chunk,
        lanes_len: usize,
        store: *const u8,
        store_len: usize,
        d: u8,
        scale: u8,
    );
    fn bench_cost_in(
        store: *const u8,
        store_len: usize,
        lanes: *const Chunk,
        lanes_len: usize,
        n: u8,
        d: u8,
        scale: u8,
        p: u8,
        eps: u32,
        corners: *const i16,
        corners_len: usize,
        cap: u64,
    ) -> u64;
    fn bench_bound_in(
        store: *const u8,
        store_len: usize,
        lanes: *const Chunk,
        lanes_len: usize,
        n: u8,
        d: u8,
        scale: u8,
        p: u8,
        eps: u32,
        corners: *const i16,
        corners_len: usize,
        cap: u64,
    ) -> u64;
}

/// Eighty points in five columns.
pub type Chunk = [[f64; 80]; 5];

/// A store decoded into lanes, as a search does once.
pub fn decode(lanes: &mut [Chunk], store: &[u8], m: Model) {
    // Each pointer comes with the length of what it points to, and nothing is kept.
    unsafe {
        bench_decode(
            lanes.as_mut_ptr(),
            lanes.len(),
            store.as_ptr(),
            store.len(),
            m.d as u8,
            m.scale as u8,
        )
    }
}

/// The cost of the low vector of a box over lanes, or `cap` if that is less, as a search asks for
/// it.
pub fn cost(store: &[u8], lanes: &[Chunk], m: Model, corners: &[i16; 16], cap: u64) -> u64 {
    // As above.
    unsafe {
        bench_cost_in(
            store.as_ptr(),
            store.len(),
            lanes.as_ptr(),
            lanes.len(),
            m.n as u8,
            m.d as u8,
            m.scale as u8,
            m.p,
            m.eps,
            corners.as_ptr(),
            corners.len(),
            cap,
        )
    }
}

/// The bound over lanes, or `cap` if that is less.
pub fn bound(store: &[u8], lanes: &[Chunk], m: Model, corners: &[i16; 16], cap: u64) -> u64 {
    // As above.
    unsafe {
        bench_bound_in(
            store.as_ptr(),
            store.len(),
            lanes.as_ptr(),
            lanes.len(),
            m.n as u8,
            m.d as u8,
            m.scale as u8,
            m.p,
            m.eps,
            corners.as_ptr(),
            corners.len(),
            cap,
        )
    }
}

/// The whole call of a cost, with its checks: the code and the value.
pub fn cost_call(store: &[u8], m: Model, vector: &[i16; 8]) -> (u32, u64) {
    let mut value = 0;
    // As above; `value` is lent for the call alone.
    let code = unsafe {
        vengutari_cost(
            store.as_ptr(),
            store.len(),
            m.n as u8,
            m.d as u8,
            m.scale as u8,
            m.p,
            m.eps,
            vector.as_ptr(),
            vector.len(),
            &mut value,
        )
    };
    (code, value)
}

/// The whole call of a bound.
pub fn bound_call(store: &[u8], m: Model, corners: &[i16; 16]) -> (u32, u64) {
    let mut value = 0;
    // As above.
    let code = unsafe {
        vengutari_bound(
            store.as_ptr(),
            store.len(),
            m.n as u8,
            m.d as u8,
            m.scale as u8,
            m.p,
            m.eps,
            corners.as_ptr(),
            corners.len(),
            &mut value,
        )
    };
    (code, value)
}

/// A whole search.
pub fn search(job: &Job, table: &mut [i16], bounds: &mut [u64]) -> Answer {
    let m = job.model;
    let corners = job.domain.corners();
    let mut vector = [0; 8];
    let mut numbers = [0; 5];
    let mut kind = 0;
    // As above; what is lent to be written is lent for the call alone and does not overlap.
    let code = unsafe {
        vengutari_search(
            job.store.as_ptr(),
            job.store.len(),
            m.n as u8,
            m.d as u8,
            m.scale as u8,
            m.p,
            m.eps,
            job.t,
            job.budget,
            corners.as_ptr(),
            corners.len(),
            job.start.as_ptr(),
            job.start.len(),
            table.as_mut_ptr(),
            table.len(),
            bounds.as_mut_ptr(),
            bounds.len(),
            vector.as_mut_ptr(),
            vector.len(),
            numbers.as_mut_ptr(),
            numbers.len(),
            &mut kind,
        )
    };
    assert_eq!(code, 0);
    answer(kind, vector, numbers)
}

/// A whole pass through windows of k records, h apart: how many there are.
pub fn windows(
    job: &Job,
    [k, h]: [usize; 2],
    table: &mut [i16],
    bounds: &mut [u64],
    out: &mut [u8],
) -> u64 {
    let m = job.model;
    let corners = job.domain.corners();
    let mut value = 0;
    // As above.
    let code = unsafe {
        vengutari_windows(
            job.store.as_ptr(),
            job.store.len(),
            m.n as u8,
            m.d as u8,
            m.scale as u8,
            m.p,
            m.eps,
            job.t,
            job.budget,
            corners.as_ptr(),
            corners.len(),
            job.start.as_ptr(),
            job.start.len(),
            k,
            h,
            table.as_mut_ptr(),
            table.len(),
            bounds.as_mut_ptr(),
            bounds.len(),
            out.as_mut_ptr(),
            out.len(),
            &mut value,
        )
    };
    assert_eq!(code, 0);
    value
}

/// An answer from what a search has put into lent memory.
fn answer(kind: u64, vector: [i16; 8], numbers: [u64; 5]) -> Answer {
    let [cost, bound, count, open, peak] = numbers;
    Answer {
        kind: [Kind::Solved, Kind::Spent, Kind::Full][kind as usize - 1],
        vector,
        cost,
        bound,
        count: count as u32,
        open: open as usize,
        peak: peak as usize,
    }
}

/// The whole call for ranges, with all checks.
pub fn ranges(job: &Job, ceiling: u64, table: &mut [i16]) -> Ranges {
    let m = job.model;
    let corners = job.domain.corners();
    let (mut patterns, mut cases, mut numbers) = ([0; 16], [0; 8], [0; 3]);
    let mut kind = 0;
    // As above.
    let code = unsafe {
        vengutari_ranges(
            job.store.as_ptr(),
            job.store.len(),
            m.n as u8,
            m.d as u8,
            m.scale as u8,
            m.p,
            m.eps,
            job.budget,
            ceiling,
            corners.as_ptr(),
            corners.len(),
            job.start.as_ptr(),
            job.start.len(),
            table.as_mut_ptr(),
            table.len(),
            patterns.as_mut_ptr(),
            patterns.len(),
            cases.as_mut_ptr(),
            cases.len(),
            numbers.as_mut_ptr(),
            numbers.len(),
            &mut kind,
        )
    };
    assert_eq!(code, 0);
    let [count, open, peak] = numbers;
    Ranges {
        kind: [Kind::Solved, Kind::Spent, Kind::Full][kind as usize - 1],
        ends: (cases[0] > 0)
            .then(|| std::array::from_fn(|k| [patterns[2 * k], patterns[2 * k + 1]])),
        count: count as u32,
        open: open as usize,
        peak: peak as usize,
    }
}
