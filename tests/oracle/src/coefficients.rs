//! Lines of single-precision coefficients as bit patterns, by whole numbers alone: no floating point.

use crate::model::{check_scale, check_unused};
use crate::refusal::{refuse_if, Refusal};

/// The pattern of w / 2^S; 0 is +0.
pub fn pattern(w: i16, s: u8) -> u32 {
    if w == 0 {
        return 0;
    }
    let sign = (w < 0) as u32;
    let size = w.unsigned_abs() as u32;
    // The highest bit of the size is the leading 1 that the pattern leaves out.
    let highest = 31 - size.leading_zeros();
    let exponent = 127 + highest - s as u32;
    let fraction = (size << (23 - highest)) & 0x7F_FFFF;
    sign << 31 | exponent << 23 | fraction
}

/// The w whose pattern this is, if there is one.
pub fn coordinate(bits: u32, s: u8) -> Option<i16> {
    (i16::MIN..=i16::MAX).find(|&w| pattern(w, s) == bits)
}

/// The same w, found without trying all of them.
pub fn coordinate_of(bits: u32, s: u8) -> Option<i16> {
    if bits == 0 {
        return Some(0);
    }
    // The value is significand × 2^(exponent − 150), so w is significand × 2^(exponent − 150 + S).
    let exponent = (bits >> 23 & 0xFF) as i32;
    let significand = (bits & 0x7F_FFFF | 0x80_0000) as i64;
    let shift = exponent - 150 + s as i32;
    if exponent == 0 || !(-23..=0).contains(&shift) {
        return None;
    }
    let size = significand >> -shift;
    if size << -shift != significand {
        return None;
    }
    let w = if bits >> 31 == 1 { -size } else { size };
    i16::try_from(w).ok()
}

/// Check 2 of the line calls, which looks at d alone.
fn check_dimensions(d: u8) -> Result<(), Refusal> {
    refuse_if(!(1..=4).contains(&d), Refusal::Shape)
}

/// Writing a line; makes checks 2, 3 and 6.
pub fn write_line(d: u8, s: u8, coordinates: &[i16; 4]) -> Result<[u32; 4], Refusal> {
    check_dimensions(d)?;
    check_scale(s)?;
    check_unused(coordinates, d as usize)?;
    Ok(coordinates.map(|w| pattern(w, s)))
}

/// Reading a line; makes checks 2, 3 and 12.
pub fn read_line(d: u8, s: u8, patterns: &[u32; 4]) -> Result<[i16; 4], Refusal> {
    check_dimensions(d)?;
    check_scale(s)?;
    let mut coordinates = [0; 4];
    for k in 0..4 {
        if k < d as usize {
            coordinates[k] = coordinate_of(patterns[k], s).ok_or(Refusal::OffGrid)?;
        } else {
            refuse_if(patterns[k] != 0, Refusal::OffGrid)?;
        }
    }
    Ok(coordinates)
}

#[cfg(test)]
mod tests {
    use super::*;

    #[test]
    fn every_pattern_is_the_division_and_is_read_back() {
        for s in 0..=15 {
            for w in i16::MIN..=i16::MAX {
                let division = w as f32 / 2_f32.powi(s as i32);
                assert_eq!(pattern(w, s), division.to_bits());
                assert_eq!(coordinate_of(pattern(w, s), s), Some(w));
            }
        }
    }

    #[test]
    fn patterns_of_no_coordinate() {
        let floats = [0.5, 1.5, 32768.0, -32769.0, 1e-30, f32::MAX, f32::INFINITY, f32::NEG_INFINITY, f32::NAN];
        let mut patterns: Vec<u32> = floats.iter().map(|f: &f32| f.to_bits()).collect();
        patterns.extend([0x8000_0000, 1, 0x8000_0001, 0x007F_FFFF, 0x7F80_0001, 0xFFFF_FFFF]);
        for bits in patterns {
            assert_eq!(coordinate_of(bits, 0), None, "{bits:08X}");
            assert_eq!(coordinate(bits, 0), None, "{bits:08X}");
        }
        assert_eq!(coordinate_of((-32768_f32).to_bits(), 0), Some(-32768));
        assert_eq!(coordinate_of(1_f32.to_bits(), 15), None);
        assert_eq!(coordinate_of((-1_f32).to_bits(), 15), Some(-32768));
    }

    #[test]
    fn reading_agrees_with_trying_every_coordinate() {
        // Patterns next to, and one bit from, those of a coordinate.
        for s in [0, 1, 7, 15] {
            for w in [-32768_i16, -32767, -3, -1, 0, 1, 2, 3, 255, 256, 32767] {
                let bits = pattern(w, s);
                let mut near = vec![bits.wrapping_add(1), bits.wrapping_sub(1)];
                near.extend((0..32).map(|bit| bits ^ 1 << bit));
                for changed in near {
                    assert_eq!(coordinate_of(changed, s), coordinate(changed, s), "{changed:08X}");
                }
            }
        }
    }

    #[test]
    fn refusals_in_table_order() {
        assert_eq!(write_line(0, 16, &[1; 4]), Err(Refusal::Shape));
        assert_eq!(write_line(5, 0, &[0; 4]), Err(Refusal::Shape));
        assert_eq!(write_line(3, 16, &[1; 4]), Err(Refusal::Scale));
        assert_eq!(write_line(3, 15, &[1; 4]), Err(Refusal::Start));
        assert_eq!(write_line(4, 0, &[1; 4]), Ok([0x3F80_0000; 4]));
        assert_eq!(read_line(0, 16, &[1; 4]), Err(Refusal::Shape));
        assert_eq!(read_line(3, 16, &[1; 4]), Err(Refusal::Scale));
        assert_eq!(read_line(3, 0, &[0x3F80_0000; 4]), Err(Refusal::OffGrid));
        assert_eq!(read_line(3, 0, &[0x3F80_0000, 0, 0, 0x8000_0000]), Err(Refusal::OffGrid));
        assert_eq!(read_line(3, 0, &[0x3F80_0000, 0, 0, 0]), Ok([1, 0, 0, 0]));
    }
}
