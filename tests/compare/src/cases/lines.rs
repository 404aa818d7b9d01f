//! Lines of single-precision coefficients, written and read.

use super::{length_of, with_case, Outcome};
use crate::calls::{refusal_code, Calls, WRONG_LENGTH};
use crate::inputs::Size;
use crate::lent::{same, Lent};
use crate::random::Random;
use oracle::coefficients::pattern;

/// d and S, sound or not.
fn settings(random: &mut Random) -> (u8, u8) {
    let d = if random.once_in(12) { random.pick(&[0, 5, 128, 255]) } else { random.between(1, 4) as u8 };
    let s = if random.once_in(12) { random.pick(&[16, 32, 255]) } else { random.between(0, 15) as u8 };
    (d, s)
}

fn coordinates(random: &mut Random, d: u8) -> [i16; 4] {
    let size = Size::random(random);
    let beyond = random.once_in(8);
    std::array::from_fn(|k| if k < d as usize || beyond { size.number(random) } else { 0 })
}

/// The lengths of the two buffers, four each, or now and then others.
fn lengths(random: &mut Random) -> [usize; 2] {
    if random.once_in(16) {
        [4, 4].map(|right| length_of(random, right))
    } else {
        [4, 4]
    }
}

/// Sixty-four lines with neighbouring first coordinates.
pub fn write_line(calls: &dyn Calls, random: &mut Random) -> Outcome {
    let (d, s) = settings(random);
    let lengths = lengths(random);
    let mut coordinates = coordinates(random, d);
    for _ in 0..64 {
        coordinates[0] = coordinates[0].wrapping_add(1);
        let mut given = coordinates.to_vec();
        given.resize(lengths[0], 0);
        let mut patterns = Lent::new(lengths[1], |count| random.patterns(count));
        let code = calls.write_line(d, s, &given, patterns.part());
        let expected = match lengths {
            [4, 4] => oracle::write_line(d, s, &coordinates).map_err(refusal_code),
            _ => Err(WRONG_LENGTH),
        };
        let outcome = same_line(code, &patterns, &expected);
        with_case(outcome, || format!("  d = {d}, S = {s}, coordinates {given:?}, lengths {lengths:?}"))?;
    }
    Ok(())
}

/// The answer, and the lent buffer that takes the line.
fn same_line<T: Copy + PartialEq + std::fmt::Debug>(
    code: u32,
    lent: &Lent<T>,
    expected: &Result<[T; 4], u32>,
) -> Outcome {
    match expected {
        Ok(line) => same("answer", code, 0).and(lent.holds("line", line)),
        Err(refusal) => same("answer", code, *refusal).and(lent.holds("line", lent.was())),
    }
}

/// Every w at every scale, at each of the four places.
fn all_lines() -> impl Iterator<Item = (u8, [i16; 4])> {
    let at_places = |w: i16| [0, 0x2000, 0x4000, 0x6000].map(|shift| w.wrapping_add(shift));
    (0..16).flat_map(move |s| (i16::MIN..=i16::MAX).map(move |w| (s, at_places(w))))
}

/// Every w at every scale is written.
pub fn write_all(calls: &dyn Calls, random: &mut Random) -> Outcome {
    let mut patterns = Lent::new(4, |count| random.patterns(count));
    for (s, coordinates) in all_lines() {
        let code = calls.write_line(4, s, &coordinates, patterns.part());
        let outcome = same_line(code, &patterns, &Ok(coordinates.map(|w| pattern(w, s))));
        with_case(outcome, || format!("  d = 4, S = {s}, coordinates {coordinates:?}"))?;
    }
    Ok(())
}

/// Every w at every scale is read.
pub fn read_all(calls: &dyn Calls, random: &mut Random) -> Outcome {
    let mut read = Lent::new(4, |count| random.numbers(count));
    for (s, coordinates) in all_lines() {
        let patterns = coordinates.map(|w| pattern(w, s));
        let outcome = same_line(calls.read_line(4, s, &patterns, read.part()), &read, &Ok(coordinates));
        with_case(outcome, || format!("  d = 4, S = {s}, patterns {patterns:08X?}"))?;
    }
    Ok(())
}

/// A pattern of a coordinate, one beside it, one bit from it, of another scale, or any.
fn changed(random: &mut Random, bits: u32) -> u32 {
    let special = [0x8000_0000, 0x7F80_0000, 0xFF80_0000, 0x7FC0_0000, 1, 0x007F_FFFF, 0x0080_0000, 0xFFFF_FFFF];
    match random.below(8) {
        0 => bits.wrapping_add(1),
        1 => bits.wrapping_sub(1),
        2 => bits ^ 1 << random.below(32),
        3 => random.pick(&special),
        4 => random.next() as u32,
        5 => bits.wrapping_add(1 << 23),
        6 => bits.wrapping_sub(1 << 23),
        _ => bits ^ 0x8000_0000,
    }
}

pub fn read_line(calls: &dyn Calls, random: &mut Random) -> Outcome {
    let (d, s) = settings(random);
    let mut patterns = coordinates(random, d).map(|w| pattern(w, s.min(15)));
    if random.once_in(2) {
        let k = random.size(0, 3);
        patterns[k] = changed(random, patterns[k]);
    }
    let lengths = lengths(random);
    let mut given = patterns.to_vec();
    given.resize(lengths[0], 0);
    let mut read = Lent::new(lengths[1], |count| random.numbers(count));
    let code = calls.read_line(d, s, &given, read.part());
    let expected = match lengths {
        [4, 4] => oracle::read_line(d, s, &patterns).map_err(refusal_code),
        _ => Err(WRONG_LENGTH),
    };
    let outcome = same_line(code, &read, &expected);
    with_case(outcome, || format!("  d = {d}, S = {s}, patterns {given:08X?}, lengths {lengths:?}"))
}
