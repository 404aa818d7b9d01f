//! Peeling of a stand-in, with its slips.

use super::stand_in::StandIn;
use super::Slip::*;
use oracle::points::{points_of, store_of, Point};
use oracle::{Job, Kind, Refusal};

/// The rounds told, and the number of them.
pub struct Peels {
    pub vectors: Vec<i16>,
    pub numbers: Vec<u64>,
    pub rounds: u64,
}

impl StandIn {
    /// The checks, by the oracle's: a job that it would accept but for a slip's own check.
    fn check_peel(&self, job: &Job, store: &[u8], limit: u8, lent: [usize; 3]) -> Result<(), Refusal> {
        let mut taken = *job;
        let records = store.len() / 12;
        match self.slip {
            PeelTwoLinesTaken if job.model.n == 2 => taken.model.n = 1,
            PeelLossTaken if job.model.p == 1 => taken.model.p = 0,
            _ => {}
        }
        let limit = if self.slips(PeelLimit5Taken) && limit == 5 { 4 } else { limit };
        let mut room = lent;
        if self.slips(PeelGapsUncounted) {
            let gaps = points_of(store).iter().filter(|point| point.is_gap()).count();
            room[2] += gaps;
        }
        // Without the slip's check the oracle says what comes before it.
        let checked = |limit, lent| oracle::peel(&Job { budget: 0, ..taken }, store, limit, lent).map(|_| ());
        match (self.slip, checked(limit, room)) {
            (PeelLimitAfterBox, Err(Refusal::Rounds)) => match checked(1, room) {
                Err(Refusal::Box) => Err(Refusal::Box),
                _ => Err(Refusal::Rounds),
            },
            (PeelShortBeforeBounds, Err(Refusal::Bounds)) if lent[2] < records => Err(Refusal::Short),
            (_, outcome) => outcome,
        }
    }

    /// The points that a round is run on: those with label 0, or with a slip others.
    fn round_points(&self, points: &[Point], labels: &[u8]) -> Vec<usize> {
        let left = |i: &usize| match self.slip {
            PeelsAGap => labels[*i] == 0 || labels[*i] == 6,
            PeelsOnAllPoints => labels[*i] != 6,
            _ => labels[*i] == 0,
        };
        (0..points.len()).filter(left).collect()
    }

    /// Peels with the slips; a refusal changes nothing.
    pub fn peels(
        &self,
        job: &Job,
        store: &[u8],
        limit: u8,
        table: &mut [i16],
        bounds: &mut [u64],
        out: &mut [u8],
    ) -> Result<Peels, Refusal> {
        self.check_peel(job, store, limit, [table.len(), bounds.len(), out.len()])?;
        let points = points_of(store);
        let mut labels: Vec<u8> = points.iter().map(|point| if point.is_gap() { 6 } else { 0 }).collect();
        let mut told = Peels { vectors: vec![0; 32], numbers: vec![0; 24], rounds: 0 };
        let most = (limit as u64 + self.slips(PeelsOnePastTheLimit) as u64).min(4);
        let mut job = *job;
        while told.rounds < most {
            let left = self.round_points(&points, &labels);
            let gaps_alone = self.slips(PeelGapsAloneRun) && labels.iter().all(|&label| label == 6);
            if !labels.contains(&0) && !gaps_alone {
                break;
            }
            let mut those: Vec<Point> = left.iter().map(|&i| points[i]).collect();
            if gaps_alone {
                those = points.clone();
            }
            if self.slips(PeelsAGap) {
                those.iter_mut().filter(|point| point.is_gap()).for_each(|point| point.y += 1);
            }
            let those = points_of(&store_of(&those));
            let answer = self.run(&job, &those, table, bounds);
            let k = told.rounds as usize;
            let fits = |i: &usize| {
                let size = job.model.residual(&points[*i], &answer.vector, 0).unsigned_abs();
                size < job.model.epsilon as u64 + !self.slips(PeelsBelowEpsilon) as u64
            };
            let removed: Vec<usize> = left.into_iter().filter(|&i| labels[i] == 0 && fits(&i)).collect();
            let solved = matches!(answer.kind, Kind::Solved);
            let last = !solved || removed.is_empty();
            if !(last && self.slips(PeelLastRoundUntold)) {
                told.rounds += 1;
                told.vectors[8 * k..8 * k + 8].copy_from_slice(&answer.vector);
                let numbers = [&[answer.kind as u64][..], &answer.numbers].concat();
                told.numbers[6 * k..6 * k + 6].copy_from_slice(&numbers);
            }
            if solved || self.slips(PeelsUnsolved) {
                removed.iter().for_each(|&i| labels[i] = k as u8 + 1);
            }
            if last && !(self.slips(PeelsOnOnNothing) && solved) {
                break;
            }
            if self.slips(PeelsFromTheLastVector) {
                job.start = answer.vector;
            }
            if self.slips(PeelsOneBudget) {
                job.budget -= answer.numbers[2] as u32;
            }
        }
        for (to, &label) in out.iter_mut().zip(&labels) {
            *to = label;
        }
        if self.slips(PeelClearsTheRest) {
            out.iter_mut().skip(labels.len()).for_each(|rest| *rest = 0);
        }
        Ok(told)
    }
}
