//! The cost beacon by beacon, request 10 of document 02.

use crate::model::{check_unused, Model, Vector};
use crate::points::{check_length, check_stray, points_of, BEACON_LIMIT, RECORD};
use crate::refusal::{refuse_if, Refusal};

/// The records of a full beacon, 19.
pub const BEACON_RECORDS: usize = BEACON_LIMIT / RECORD;

/// The cost of each group of 19 records, the last group taking what is left, into the front of `sums`, whose further
/// entries are kept; returns their total. Makes checks 1 to 4, where p is 0, 1 or 2, then 6, 7 and 10.
pub fn cost_by_beacon(model: &Model, store: &[u8], vector: &Vector, sums: &mut [u64]) -> Result<u64, Refusal> {
    check_length(store.len())?;
    model.check_threshold()?;
    check_unused(vector, model.used())?;
    let points = points_of(store);
    check_stray(&points, model.d)?;
    let groups: Vec<u64> = points.chunks(BEACON_RECORDS).map(|group| model.cost_of(group, vector)).collect();
    refuse_if(sums.len() < groups.len(), Refusal::Short)?;
    sums[..groups.len()].copy_from_slice(&groups);
    Ok(groups.iter().sum())
}

#[cfg(test)]
mod tests {
    use super::*;
    use crate::model::cost;
    use crate::points::{store_of, Point};

    const ONE: Model = Model { n: 1, d: 1, s: 0, p: 1, epsilon: 100 };

    /// Record k has y = k, x = 1, so that at w = 0 it costs k, up to 100.
    fn rising(count: i16) -> Vec<u8> {
        store_of(&(0..count).map(|y| Point { x: [1, 0, 0, 0], y, frame: 0 }).collect::<Vec<_>>())
    }

    #[test]
    fn groups_of_19_the_last_takes_what_is_left() {
        // 0 to 18 are 171, 19 to 37 are 532, and 38, 39 are 77.
        for (count, expected) in [
            (1, &[0][..]),
            (18, &[153]),
            (19, &[171]),
            (20, &[171, 19]),
            (37, &[171, 495]),
            (38, &[171, 532]),
            (40, &[171, 532, 77]),
        ] {
            let mut sums = [7; 5];
            let total = cost_by_beacon(&ONE, &rising(count), &[0; 8], &mut sums);
            assert_eq!(total, Ok(expected.iter().sum()));
            assert_eq!(total, cost(&ONE, &rising(count), &[0; 8]));
            assert_eq!(&sums[..expected.len()], expected);
            assert!(sums[expected.len()..].iter().all(|&sum| sum == 7));
            assert_eq!(cost_by_beacon(&ONE, &rising(count), &[0; 8], &mut sums[..expected.len()]), total);
        }
    }

    #[test]
    fn the_largest_store_has_216_groups() {
        let model = Model { p: 2, epsilon: 16_777_215, s: 15, ..ONE };
        let store = store_of(&vec![Point { x: [0; 4], y: 32767, frame: 0 }; 4096]);
        let mut sums = [7; 217];
        assert_eq!(cost_by_beacon(&model, &store, &[0; 8], &mut sums), Ok(1_152_921_367_167_897_600));
        let square = 281_474_943_156_225;
        assert!(sums[..215].iter().all(|&sum| sum == 19 * square));
        assert_eq!(sums[215..], [11 * square, 7]);
        assert_eq!(cost_by_beacon(&model, &store, &[0; 8], &mut sums[..215]), Err(Refusal::Short));
    }

    #[test]
    fn gaps_are_records_of_their_group() {
        let mut points = vec![Point { x: [1, 0, 0, 0], y: -32768, frame: 0 }; 19];
        points.push(Point { y: 3, ..points[0] });
        let mut sums = [7; 3];
        assert_eq!(cost_by_beacon(&ONE, &store_of(&points), &[0; 8], &mut sums), Ok(3));
        assert_eq!(sums, [0, 3, 7]);
    }

    #[test]
    fn checks_in_order_and_nothing_written() {
        let stray = store_of(&[Point { x: [1, 1, 0, 0], y: 5, frame: 0 }]);
        let (unused, mut model) = ([0, 0, 0, 1, 0, 0, 0, 0], Model { n: 0, d: 1, s: 16, p: 3, epsilon: 1 });
        assert_eq!(cost_by_beacon(&model, &stray[1..], &unused, &mut []), Err(Refusal::Length));
        assert_eq!(cost_by_beacon(&model, &stray, &unused, &mut []), Err(Refusal::Shape));
        model.n = 1;
        assert_eq!(cost_by_beacon(&model, &stray, &unused, &mut []), Err(Refusal::Scale));
        model.s = 0;
        assert_eq!(cost_by_beacon(&model, &stray, &unused, &mut []), Err(Refusal::Loss));
        model.p = 2;
        assert_eq!(cost_by_beacon(&model, &stray, &unused, &mut []), Err(Refusal::Start));
        assert_eq!(cost_by_beacon(&model, &stray, &[0; 8], &mut []), Err(Refusal::Stray(0)));
        model.d = 2;
        assert_eq!(cost_by_beacon(&model, &stray, &[0; 8], &mut []), Err(Refusal::Short));
        let mut sums = [7; 1];
        assert_eq!(cost_by_beacon(&model, &rising(20), &[0; 8], &mut sums), Err(Refusal::Short));
        assert_eq!(sums, [7]);
    }
}
