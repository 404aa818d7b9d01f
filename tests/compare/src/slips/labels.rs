//! The labels of a stand-in, with its slips.

use super::stand_in::StandIn;
use super::Slip::*;
use oracle::points::{points_of, Point};
use oracle::{Model, Refusal, Vector};

impl StandIn {
    /// Labels the records and says how many they are.
    pub fn put_labels(
        &self,
        model: &Model,
        store: &[u8],
        vector: &Vector,
        labels: &mut [u8],
    ) -> Result<u64, Refusal> {
        let model = &self.with_threshold(model, self.slips(SpoiledLabelled));
        self.counted(store, oracle::labels(model, store, vector, &mut [0; 4096]))?;
        let mut points = points_of(store);
        if self.slips(GapsUncountedInLabels) {
            points.retain(|point| !point.is_gap());
        }
        if labels.len() < points.len() {
            return Err(Refusal::Short);
        }
        for (label, point) in labels.iter_mut().zip(&points) {
            *label = self.label_of(model, point, vector);
        }
        if self.slips(LabelsClearTheRest) {
            labels[points.len()..].fill(0);
        }
        Ok(points.len() as u64)
    }

    fn label_of(&self, model: &Model, point: &Point, vector: &Vector) -> u8 {
        let size = |j: &usize| model.residual(point, vector, *j).unsigned_abs();
        let lines: Vec<usize> = (0..model.n as usize).collect();
        let nearest = *lines.iter().min_by_key(|j| size(j)).unwrap();
        let (least, epsilon) = (size(&nearest), model.epsilon as u64);
        let of_nearest = (nearest as u8 + 1) * (least <= epsilon) as u8;
        let fit = |fits: &dyn Fn(u64) -> bool| lines.iter().filter(|j| fits(size(j))).count();
        let undecided = |wrong: bool| if wrong { of_nearest } else { 5 };
        let label = model.label_of(point, vector);
        match self.slip {
            UndecidedBeforeGap if fit(&|e| e <= epsilon) > 1 => 5,
            GapLabelledOutlier if point.is_gap() => 0,
            GapLabelledByNearestLine if point.is_gap() => of_nearest,
            _ if point.is_gap() => label,
            LabelsWithoutThreshold => label.max(1),
            EpsilonItselfIsOut if least == epsilon => 0,
            UndecidedAsNearestLine => of_nearest,
            UndecidedOnlyWhereEqual if label == 5 => undecided(fit(&|e| e == least) < 2),
            UndecidedOnlyWhereAllFit if label == 5 => undecided(fit(&|e| e <= epsilon) < lines.len()),
            UndecidedBelowEpsilon if label == 5 => undecided(fit(&|e| e < epsilon) < 2),
            _ => label,
        }
    }
}
