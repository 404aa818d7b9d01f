//! The cost by beacon of a stand-in, with its slips.

use super::stand_in::StandIn;
use super::Slip::*;
use oracle::points::{points_of, Point};
use oracle::{Model, Refusal, Vector};

impl StandIn {
    fn groups(&self, model: &Model, points: &[Point], vector: &Vector) -> Vec<u64> {
        let length = match self.slip {
            BeaconsOf18 => 18,
            BeaconsOf20 => 20,
            _ => 19,
        };
        let mut points = points.to_vec();
        if self.slips(BeaconsOfSamples) {
            points.retain(|point| !point.is_gap());
        }
        let mut groups: Vec<u64> = points.chunks(length).map(|group| self.cost_of(model, group, vector)).collect();
        if self.slips(BeaconLastMissing) && points.len() % length > 0 {
            groups.pop();
        }
        groups
    }

    fn put_groups(&self, groups: &[u64], sums: &mut [u64]) {
        let mut running = 0;
        for (sum, group) in sums.iter_mut().zip(groups) {
            running += group;
            *sum = if self.slips(BeaconSumsRunning) { running } else { *group };
        }
        if self.slips(Beacons216Written) {
            sums.iter_mut().take(216).skip(groups.len()).for_each(|sum| *sum = 0);
        }
    }

    /// Writes the sums and gives their total.
    pub fn put_sums(&self, model: &Model, store: &[u8], vector: &Vector, sums: &mut [u64]) -> Result<u64, Refusal> {
        let mut model = *model;
        if self.slips(BeaconLoss3Taken) && model.p == 3 {
            model.p = 2;
        }
        let checked = self.counted(store, oracle::cost_by_beacon(&model, store, vector, &mut [0; 216]));
        let entries = if self.slips(Beacons216Needed) { 216 } else { store.len().div_ceil(12 * 19) };
        let short = if sums.len() < entries { Err(Refusal::Short) } else { Ok(()) };
        if self.slips(BeaconShortBeforeStray) && matches!(checked, Err(Refusal::Stray(_))) {
            short?;
        }
        checked?;
        let groups = self.groups(&model, &points_of(store), vector);
        if short.is_ok() || self.slips(BeaconShortWritten) {
            self.put_groups(&groups, sums);
        }
        short.map(|()| groups.iter().sum())
    }
}
