//! The pass through windows of a stand-in, with its slips.

use super::stand_in::StandIn;
use super::Slip::*;
use crate::calls::Passed;
use oracle::points::RECORD;
use oracle::records::ANSWER;
use oracle::search::{check_job_over, check_lent};
use oracle::{AnswerRecord, Job, Kind, Refusal};

impl StandIn {
    fn check_windows(&self, job: &Job, store: &[u8], [k, h]: [usize; 2]) -> Result<(), Refusal> {
        let records = store.len() / RECORD;
        let too_far = self.slips(WindowsHopPastStoreRefused) && h > records;
        let wrong = k == 0 || h == 0 || k > records || too_far;
        if self.slips(WindowsLengthFirst) && wrong {
            return Err(Refusal::Window);
        }
        let over = if self.slips(WindowsRankByStore) { records } else { k };
        let end = match self.slip {
            // Only the records of windows, the first one's alone, are looked through.
            WindowsStrayInFirst if !wrong => RECORD * k,
            _ => store.len(),
        };
        check_job_over(job, store, over).or_else(|refusal| match refusal {
            Refusal::Stray(record) if RECORD * record >= end => Ok(vec![]),
            Refusal::Loss if self.slips(WindowsLengthBeforeRank) && wrong => Err(Refusal::Window),
            _ => Err(refusal),
        })?;
        if wrong {
            return Err(Refusal::Window);
        }
        Ok(())
    }

    /// Where the windows begin.
    fn begins(&self, records: usize, [k, h]: [usize; 2]) -> Vec<usize> {
        let last = match self.slip {
            WindowsPastTheEnd => records - 1,
            WindowsLastMissed => (records - k).saturating_sub(1),
            _ => records - k,
        };
        let hop = if self.slips(WindowsHopByLength) { k } else { h };
        (0..=last).step_by(hop.min(records + 1)).collect()
    }

    pub fn passed(&self, job: &Job, store: &[u8], window: [usize; 2], lent: &mut Passed) -> Result<u64, Refusal> {
        let (table, bounds, out) = (lent.table.part(), lent.bounds.part(), lent.out.part());
        self.check_windows(job, store, window)?;
        let begins = self.begins(store.len() / RECORD, window);
        let short = out.len() < ANSWER * begins.len();
        if self.slips(WindowsShortBeforeTable) && short {
            return Err(Refusal::Short);
        }
        check_lent(table.len(), bounds.len())?;
        if short && !self.slips(WindowsShortWritten) {
            return Err(Refusal::Short);
        }
        let mut next = *job;
        for (i, begin) in begins.iter().enumerate() {
            let end = (begin + window[0]).min(store.len() / RECORD);
            let points = oracle::points::points_of(&store[RECORD * begin..RECORD * end]);
            let mut model = next.model;
            model.epsilon = if model.p == 3 { model.epsilon.min(points.len() as u32 - 1) } else { model.epsilon };
            let told = self.run(&Job { model, ..next }, &points, table, bounds);
            let [c, l, count, ..] = told.numbers;
            let (vector, kind) = (told.vector, told.kind as u8);
            let (n, d, s) = (job.model.n, job.model.d, job.model.s);
            let place = out.get_mut(ANSWER * i..).unwrap_or_default();
            oracle::write_answer(&AnswerRecord { vector, c, l, count: count as u32, kind, n, d, s }, place)?;
            match self.slip {
                WindowsFromTheJobsStart => {}
                WindowsFromSolvedAlone if told.kind != Kind::Solved => {}
                _ => next.start = vector,
            }
            if self.slips(WindowsOneBudget) {
                next.budget -= count as u32;
            }
        }
        if self.slips(WindowsClearTheRest) {
            out[ANSWER * begins.len()..].fill(0);
        }
        Ok(if self.slips(WindowsCountInBytes) { ANSWER * begins.len() } else { begins.len() } as u64)
    }
}
