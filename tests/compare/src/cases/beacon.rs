//! Taking in a beacon.

use super::{same_answer, with_case, Outcome};
use crate::calls::Calls;
use crate::lent::Lent;
use crate::random::Random;

pub fn take_in(calls: &dyn Calls, random: &mut Random) -> Outcome {
    let records = random.size(1, 19);
    let odd = random.size(0, 260);
    let beacon_length = random.pick(&[12 * records, 12 * records, 228, 240, 0, 236, 248, 252, odd]);
    let beacon_length = if random.once_in(50) { random.pick(&[49_140, 49_152, 49_164]) } else { beacon_length };
    let tight = beacon_length + 12 * random.size(0, 3) + random.size(0, 2);
    let small = random.size(0, 600);
    let large = random.pick(&[49_151, 49_152, 49_153, 50_000, 49_152 + 240]);
    let length = random.pick(&[tight, small, small, large]);
    let length = if random.once_in(3) { small } else { length };
    let near_end = length.saturating_sub(beacon_length) / 12 * 12;
    let near_limit = 49_152_usize.saturating_sub(beacon_length) / 12 * 12;
    let inside = random.size(0, length) / 12 * 12;
    let mark = match random.below(10) {
        0 => length + random.size(0, 13),
        1 => random.size(0, length),
        2 => random.pick(&[usize::MAX, usize::MAX - 3, usize::MAX / 12 * 12, 1 << 32, 1 << 63]),
        3 => near_end + 12,
        4 => near_limit,
        5 => near_limit + 12,
        6 => near_end,
        _ => inside,
    };
    let beacon = random.bytes(beacon_length);
    let was = random.next();
    let mut value = was;
    let mut lent = Lent::new(length, |count| random.bytes(count));
    let code = calls.take_in(lent.part(), mark, &beacon, &mut value);
    let mut after = lent.was().to_vec();
    let expected = oracle::take_in(&mut after, mark, &beacon).map(|mark| mark as u64);
    let outcome = same_answer(code, value, was, expected).and(lent.holds("store", &after));
    with_case(outcome, || {
        format!("  store of {length} bytes, mark {mark}, beacon of {beacon_length} bytes: {}", super::hex(&beacon))
    })
}
