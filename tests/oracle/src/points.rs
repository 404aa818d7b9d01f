//! Point records, the store and beacons.

use crate::refusal::{refuse_if, Refusal};

/// Bytes of a point record.
pub const RECORD: usize = 12;
/// Bytes of the longest store: 4,096 records.
pub const STORE_LIMIT: usize = 49_152;
/// Bytes of the longest beacon body.
pub const BEACON_LIMIT: usize = 236;
/// The y of a sample that the board didn't take, request 2 of document 02.
pub const GAP_Y: i16 = -32_768;

/// A point record: x1 to x4, y and the frame number, which no cost uses.
#[derive(Clone, Copy, Debug, PartialEq, Eq)]
pub struct Point {
    pub x: [i16; 4],
    pub y: i16,
    pub frame: u16,
}

impl Point {
    /// Whether this record is a gap: y says so alone.
    pub fn is_gap(&self) -> bool {
        self.y == GAP_Y
    }

    pub fn read(record: &[u8]) -> Point {
        let field = |k: usize| i16::from_be_bytes([record[2 * k], record[2 * k + 1]]);
        Point {
            x: [field(0), field(1), field(2), field(3)],
            y: field(4),
            frame: u16::from_be_bytes([record[10], record[11]]),
        }
    }

    pub fn write(&self) -> [u8; RECORD] {
        let mut record = [0; RECORD];
        for k in 0..4 {
            record[2 * k..2 * k + 2].copy_from_slice(&self.x[k].to_be_bytes());
        }
        record[8..10].copy_from_slice(&self.y.to_be_bytes());
        record[10..12].copy_from_slice(&self.frame.to_be_bytes());
        record
    }
}

/// The points of a store that passed check 1.
pub fn points_of(store: &[u8]) -> Vec<Point> {
    store.chunks_exact(RECORD).map(Point::read).collect()
}

/// The bytes of a store of these points.
pub fn store_of(points: &[Point]) -> Vec<u8> {
    points.iter().flat_map(|point| point.write()).collect()
}

/// Check 1 for a store or a beacon of this many bytes.
pub fn check_length(bytes: usize) -> Result<(), Refusal> {
    refuse_if(bytes == 0 || bytes % RECORD != 0 || bytes > STORE_LIMIT, Refusal::Length)
}

/// Check 7: the first record with an x after the d-th that is not 0.
pub fn check_stray(points: &[Point], d: u8) -> Result<(), Refusal> {
    match points.iter().position(|point| point.x[d as usize..].iter().any(|&x| x != 0)) {
        Some(record) => Err(Refusal::Stray(record)),
        None => Ok(()),
    }
}

/// Taking in a beacon: copies it behind the filled part of the store and returns the new mark.
pub fn take_in(store: &mut [u8], mark: usize, beacon: &[u8]) -> Result<usize, Refusal> {
    check_length(beacon.len())?;
    refuse_if(mark > store.len() || mark % RECORD != 0, Refusal::Length)?;
    let end = mark + beacon.len();
    refuse_if(end > store.len() || end > STORE_LIMIT, Refusal::Short)?;
    refuse_if(beacon.len() > BEACON_LIMIT, Refusal::Beacon)?;
    store[mark..end].copy_from_slice(beacon);
    Ok(end)
}

#[cfg(test)]
mod tests {
    use super::*;

    #[test]
    fn record_fields_are_big_endian() {
        let bytes = [0x00, 0x01, 0xFF, 0xFF, 0x7F, 0xFF, 0x80, 0x00, 0x12, 0x34, 0xFE, 0xDC];
        let point = Point { x: [1, -1, 32767, -32768], y: 0x1234, frame: 0xFEDC };
        assert_eq!(Point::read(&bytes), point);
        assert_eq!(point.write(), bytes);
    }

    #[test]
    fn a_gap_is_told_by_y_alone() {
        let record = |y: [u8; 2]| Point::read(&[0x80, 0x00, 0, 0, 0, 0, 0, 0, y[0], y[1], 0x80, 0x00]);
        assert!(record([0x80, 0x00]).is_gap());
        for y in [[0x80, 0x01], [0x00, 0x80], [0x7F, 0xFF], [0x00, 0x00]] {
            assert!(!record(y).is_gap());
        }
    }

    #[test]
    fn lengths() {
        for bytes in [12, 24, 49_140, 49_152] {
            assert_eq!(check_length(bytes), Ok(()));
        }
        for bytes in [0, 1, 11, 13, 236, 49_151, 49_153, 49_164] {
            assert_eq!(check_length(bytes), Err(Refusal::Length));
        }
    }

    #[test]
    fn first_stray_record() {
        let clean = Point { x: [5, 0, 0, 0], y: 1, frame: 9 };
        let stray = Point { x: [5, 0, 0, -1], y: 1, frame: 9 };
        assert_eq!(check_stray(&[clean, stray, stray], 1), Err(Refusal::Stray(1)));
        assert_eq!(check_stray(&[clean, stray, stray], 3), Err(Refusal::Stray(1)));
        assert_eq!(check_stray(&[clean, stray, stray], 4), Ok(()));
        assert_eq!(check_stray(&[clean, clean], 1), Ok(()));
    }

    #[test]
    fn gaps_are_records_and_their_x_are_checked() {
        let gap = Point { x: [5, 0, 0, 0], y: GAP_Y, frame: 9 };
        let stray = Point { x: [5, 0, 1, 0], ..gap };
        assert_eq!(check_stray(&[gap, gap, stray], 1), Err(Refusal::Stray(2)));
        assert_eq!(check_stray(&[gap, gap, stray], 3), Ok(()));
    }

    #[test]
    fn beacon_checks_go_in_table_order() {
        let mut store = vec![7; 300];
        assert_eq!(take_in(&mut store, 12, &[1; 240]), Err(Refusal::Beacon));
        assert_eq!(take_in(&mut store, 72, &[1; 240]), Err(Refusal::Short));
        assert_eq!(take_in(&mut store, 13, &[1; 240]), Err(Refusal::Length));
        assert_eq!(take_in(&mut store, 312, &[1; 12]), Err(Refusal::Length));
        assert_eq!(take_in(&mut store, 300, &[1; 12]), Err(Refusal::Short));
        assert_eq!(take_in(&mut store, 0, &[1; 236]), Err(Refusal::Length));
        assert_eq!(take_in(&mut store, 0, &[]), Err(Refusal::Length));
        assert!(store.iter().all(|&b| b == 7));
        assert_eq!(take_in(&mut store, 72, &[1; 228]), Ok(300));
        assert!(store[..72].iter().all(|&b| b == 7) && store[72..].iter().all(|&b| b == 1));
    }

    #[test]
    fn a_longer_store_is_still_filled_to_the_limit_only() {
        let mut store = vec![0; STORE_LIMIT + 100];
        assert_eq!(take_in(&mut store, STORE_LIMIT - 12, &[1; 12]), Ok(STORE_LIMIT));
        assert_eq!(take_in(&mut store, STORE_LIMIT - 12, &[1; 24]), Err(Refusal::Short));
        assert_eq!(take_in(&mut store, STORE_LIMIT + 96, &[1; 12]), Err(Refusal::Short));
    }
}
