//! Two stores made one, and what is then made of it.

use super::{hex, peel, same_answer, search, with_case, Outcome};
use crate::calls::Calls;
use crate::inputs::{self, Input};
use crate::lent::{same, Lent};
use crate::random::Random;
use oracle::points::RECORD;

type Record = [u8; RECORD];

/// Rising frame numbers, some of them next to each other, the ends and the middle of the range among them.
fn frames(random: &mut Random, count: usize) -> Vec<u16> {
    let mut frames: Vec<u16> = (0..count)
        .map(|k| match random.below(6) {
            0 => random.pick(&[0, 1, 255, 256, 32_767, 32_768, 65_534, 65_535]),
            1 => random.next() as u16,
            _ => 100 + k as u16,
        })
        .collect();
    frames.sort_unstable();
    frames.dedup();
    frames
}

fn record(random: &mut Random, frame: u16) -> Record {
    let mut record: Record = random.bytes(RECORD).try_into().unwrap();
    record[10..].copy_from_slice(&frame.to_be_bytes());
    record
}

/// Each frame's record goes into the first store, the second one or both; `common` of 4 go into both.
fn deal(
    random: &mut Random,
    frames: &[u16],
    common: u64,
    mut record_of: impl FnMut(&mut Random, u16) -> Record,
) -> [Vec<Record>; 2] {
    let mut stores = [vec![], vec![]];
    for &frame in frames {
        let record = record_of(random, frame);
        if random.below(4) < common {
            stores.iter_mut().for_each(|store| store.push(record));
        } else {
            stores[random.below(2) as usize].push(record);
        }
    }
    stores
}

/// One kind of damage, where the stores have what it takes.
fn damage(random: &mut Random, stores: &mut [Vec<Record>; 2]) {
    let side = random.below(2) as usize;
    let length = stores[side].len();
    match random.below(6) {
        // A record twice, or two in the wrong order.
        0 if length > 0 => {
            let k = random.size(0, length - 1);
            let twice = stores[side][k];
            stores[side].insert(k, twice);
        }
        1 if length > 1 => {
            let k = random.size(0, length - 2);
            stores[side].swap(k, k + 1);
        }
        // Another record with a frame of the other store: another y, a gap, or any other byte.
        2 | 3 if !stores[1 - side].is_empty() => {
            let there = random.size(0, stores[1 - side].len() - 1);
            let mut other = stores[1 - side][there];
            match random.below(3) {
                0 => other[9] ^= 1,
                1 => other[8..10].copy_from_slice(&i16::MIN.to_be_bytes()),
                _ => other[random.size(0, 9)] ^= 1 << random.below(8),
            }
            let frame = |record: &Record| u16::from_be_bytes([record[10], record[11]]);
            match stores[side].iter().position(|record| frame(record) >= frame(&other)) {
                Some(k) if frame(&stores[side][k]) == frame(&other) => stores[side][k] = other,
                Some(k) => stores[side].insert(k, other),
                None => stores[side].push(other),
            }
        }
        _ => {}
    }
}

fn compared(calls: &dyn Calls, random: &mut Random, stores: [Vec<Record>; 2]) -> Outcome {
    let mut stores = stores.map(|records| records.concat());
    if random.once_in(12) {
        let side = random.below(2) as usize;
        let odd = random.size(1, 13);
        stores[side].extend(random.bytes(odd));
    }
    let [first, second] = stores;
    let union = oracle::merge(&first, &second, &mut vec![0; 100_000]).unwrap_or(first.len());
    let length = match random.below(6) {
        0 => union.saturating_sub(1),
        1 => union + random.size(1, 40),
        2 => random.size(0, union),
        _ => union,
    };
    let was = random.next();
    let mut value = was;
    let mut lent = Lent::new(length, |count| random.bytes(count));
    let code = calls.merge(&first, &second, lent.part(), &mut value);
    let mut after = lent.was().to_vec();
    let expected = oracle::merge(&first, &second, &mut after).map(|length| length as u64);
    let outcome = same_answer(code, value, was, expected).and(lent.holds("output", &after));
    with_case(outcome, || format!("  first: {}\n  second: {}\n  output of {length} bytes", hex(&first), hex(&second)))
}

/// Up to some thirty frames, all, some or none of them common, one store empty now and then, up to three damages.
pub fn small(calls: &dyn Calls, random: &mut Random) -> Outcome {
    let count = random.pick(&[0, 1, 2, 5, 30]);
    let frames = frames(random, count);
    let common = random.pick(&[0, 1, 2, 3, 4]);
    let mut stores = deal(random, &frames, common, record);
    if random.once_in(10) {
        stores[random.below(2) as usize].clear();
    }
    for _ in 0..random.pick(&[0, 0, 0, 1, 1, 2, 3]) {
        damage(random, &mut stores);
    }
    compared(calls, random, stores)
}

/// Unions of 4,095 to 4,098 records, and stores of just as many.
pub fn large(calls: &dyn Calls, random: &mut Random) -> Outcome {
    let count = random.size(4095, 4098) as u16;
    let from = random.pick(&[0, 30_000, 65_535 - count + 1, 61_000]);
    let frames: Vec<u16> = (0..count).map(|k| from + k).collect();
    let common = random.pick(&[0, 1, 4]);
    let mut stores = deal(random, &frames, common, record);
    if random.once_in(4) {
        damage(random, &mut stores);
    }
    compared(calls, random, stores)
}

/// The records of a small job's store, with rising frame numbers, dealt to two stores and made one by the product. What it wrote is then
/// searched, with all that is promised of a search over all vectors of the box, and labelled under the vector found.
pub fn fitted(calls: &dyn Calls, random: &mut Random) -> Outcome {
    let limit = random.pick(&[2, 8, 30, 100]);
    let input = inputs::small_with_threshold(random, limit);
    let input = received(calls, random, input)?;
    let vector = search::over_all_vectors(calls, random, input.clone())?;
    labelled(calls, random, &input, vector)
}

/// And peeled.
pub fn peeled(calls: &dyn Calls, random: &mut Random) -> Outcome {
    let limit = random.pick(&[2, 8, 30, 100]);
    let input = inputs::one_line(random, limit);
    let input = received(calls, random, input)?;
    peel::over_all_vectors(calls, random, input)
}

/// The records of an input dealt to two stores, which the product makes one again.
fn received(calls: &dyn Calls, random: &mut Random, mut input: Input) -> Result<Input, String> {
    let frames = frames(random, input.store.len() / RECORD);
    input.keep(frames.len());
    for (record, frame) in input.store.chunks_exact_mut(RECORD).zip(&frames) {
        record[10..].copy_from_slice(&frame.to_be_bytes());
    }
    let common = random.pick(&[0, 1, 2, 4]);
    let mut records = input.store.chunks_exact(RECORD).map(|record| Record::try_from(record).unwrap());
    let stores = deal(random, &frames, common, |_, _| records.next().unwrap());
    let [first, second] = stores.map(|records| records.concat());
    let mut out = Lent::new(input.store.len() + random.size(0, 30), |count| random.bytes(count));
    let mut value = 0;
    let code = calls.merge(&first, &second, out.part(), &mut value);
    let merged = out.now()[..input.store.len()].to_vec();
    let outcome =
        same_answer(code, value, 0, Ok(merged.len() as u64)).and(same("merged store", &merged, &input.store));
    with_case(outcome, || format!("  first: {}\n  second: {}", hex(&first), hex(&second)))?;
    input.store = merged;
    Ok(input)
}

fn labelled(calls: &dyn Calls, random: &mut Random, input: &Input, vector: [i16; 8]) -> Outcome {
    let model = &input.job.model;
    let length = input.store.len() / RECORD + random.size(0, 5);
    let mut lent = Lent::new(length, |count| random.bytes(count));
    let mut value = 0;
    let code = calls.labels(&input.store, model, &vector, lent.part(), &mut value);
    let mut after = lent.was().to_vec();
    let expected = oracle::labels(model, &input.store, &vector, &mut after).map(|count| count as u64);
    let outcome = same_answer(code, value, 0, expected).and(lent.holds("labels", &after));
    with_case(outcome, || format!("{input}\n  labelled under {vector:?}"))
}
