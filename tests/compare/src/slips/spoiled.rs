//! The slips of a stand-in about p = 3: in check 4, in the calls that refuse it, and in the place that is taken.

use super::stand_in::StandIn;
use super::Slip::*;
use oracle::model::nth_largest;
use oracle::points::points_of;
use oracle::Model;

impl StandIn {
    /// The model that is checked in place of the one given; a q that is refused is over every number of records.
    pub fn checked(&self, model: &Model, store: &[u8]) -> Model {
        let points = points_of(store);
        let (records, q) = (points.len() as u32, model.epsilon);
        let samples = points.iter().filter(|point| !point.is_gap()).count() as u32;
        let epsilon = match self.slip {
            _ if model.p != 3 => q,
            SpoiledAllTaken if q == records => records.saturating_sub(1),
            SpoiledGapsUncounted if q >= samples => u32::MAX,
            SpoiledNoneRefused if q == 0 => u32::MAX,
            _ => q,
        };
        Model { epsilon, ..*model }
    }

    /// The model of a call with a threshold, which lets p = 3 through as p = 0 where the stand-in slips so.
    pub fn with_threshold(&self, model: &Model, slips: bool) -> Model {
        if slips && model.p == 3 {
            Model { p: 0, ..*model }
        } else {
            *model
        }
    }

    /// A cost from the points' least sizes.
    pub fn cost_made(&self, model: &Model, sizes: impl Iterator<Item = i64>) -> u64 {
        if model.p == 3 {
            self.place(model.epsilon as usize, sizes.map(i64::unsigned_abs).collect())
        } else {
            model.made_of(sizes)
        }
    }

    /// A bound from the points' least sizes.
    pub fn bound_made(&self, model: &Model, sizes: impl Iterator<Item = i64>) -> u64 {
        if model.p == 3 && self.slips(SpoiledBoundBySum) {
            sizes.map(i64::unsigned_abs).sum()
        } else {
            self.cost_made(model, sizes)
        }
    }

    fn place(&self, q: usize, mut sizes: Vec<u64>) -> u64 {
        let place = match self.slip {
            SpoiledPlaceBefore => q.saturating_sub(1),
            SpoiledPlaceBehind => q + 1,
            _ => q,
        };
        match self.slip {
            SpoiledDistinct => {
                sizes.sort_unstable();
                sizes.dedup();
            }
            SpoiledCutAtQ => sizes.iter_mut().for_each(|size| *size = (*size).min(q as u64 + 1)),
            Spoiled32Bits => sizes.iter_mut().for_each(|size| *size = *size as u32 as u64),
            _ => {}
        }
        if place < sizes.len() {
            nth_largest(place, sizes)
        } else {
            0
        }
    }
}
