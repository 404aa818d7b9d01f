//! A cost and a bound in plain Rust with the checks that the proved calls make, in the paper's
//! order: what a whole call is held to.
use crate::plain::{self, Model};

/// The paper's number of a refusal, and beside 7 the record's.
#[derive(Clone, Copy, Debug, PartialEq)]
pub struct Refusal {
    pub number: u8,
    pub record: usize,
}

fn refuse_if(wrong: bool, number: u8) -> Result<(), Refusal> {
    if wrong {
        return Err(Refusal { number, record: 0 });
    }
    Ok(())
}

/// Checks 1 to 4.
fn check_model(store: &[u8], m: Model) -> Result<(), Refusal> {
    let bytes = store.len();
    refuse_if(bytes == 0 || bytes % 12 != 0 || bytes > 49_152, 1)?;
    let in_range = (1..=4).contains(&m.n) && (1..=4).contains(&m.d);
    refuse_if(!in_range || m.n * m.d > 8, 2)?;
    refuse_if(m.scale > 15, 3)?;
    let fits = match m.p {
        0 => m.eps <= 16_777_215,
        1 | 2 => (1..=16_777_215).contains(&m.eps),
        3 => (m.eps as usize) < bytes / 12,
        _ => false,
    };
    refuse_if(!fits, 4)
}

/// Check 7: the first record with an x after the d-th that is not 0. As in the proved code all four
/// are counted, which is the fastest of the loops that were tried.
fn check_stray(store: &[u8], d: usize) -> Result<(), Refusal> {
    for (record, bytes) in store.chunks_exact(12).enumerate() {
        for k in 0..4 {
            if d <= k && bytes[2 * k..2 * k + 2] != [0, 0] {
                return Err(Refusal { number: 7, record });
            }
        }
    }
    Ok(())
}

fn unused_zero(m: Model, v: &[i16; 8]) -> bool {
    v[m.n * m.d..].iter().all(|w| *w == 0)
}

/// The cost of a vector: checks 1 to 4, 6 and 7.
#[inline(never)]
pub fn cost(store: &[u8], m: Model, v: &[i16; 8]) -> Result<u64, Refusal> {
    check_model(store, m)?;
    refuse_if(!unused_zero(m, v), 6)?;
    check_stray(store, m.d)?;
    Ok(plain::cost(store, m, v))
}

/// The bound of a box: checks 1 to 5 and 7.
#[inline(never)]
pub fn bound(store: &[u8], m: Model, low: &[i16; 8], high: &[i16; 8]) -> Result<u64, Refusal> {
    check_model(store, m)?;
    let ordered = low.iter().zip(high).all(|(l, h)| l <= h);
    refuse_if(!ordered || !unused_zero(m, low) || !unused_zero(m, high), 5)?;
    check_stray(store, m.d)?;
    Ok(plain::bound(store, m, low, high))
}
