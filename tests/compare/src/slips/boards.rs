//! The boards of a stand-in, with their slips.

use super::stand_in::{put, StandIn};
use super::Slip::*;
use crate::calls::{refusal_code, Jobs, Slots, WRONG_LENGTH};
use oracle::records::JOB;
use oracle::Refusal;

impl StandIn {
    fn refuses(&self, jobs: &Jobs) -> bool {
        let count = jobs.count as usize;
        let outside = if self.slips(BoardsNineTaken) { !(1..=9).contains(&count) } else { !(1..=8).contains(&count) };
        let few_records = jobs.records.len() < JOB * count;
        outside || (few_records && !self.slips(BoardsRecordsUnchecked)) || jobs.lengths.len() < count
    }

    /// The store of job k, or a refusal. `skipped` are the bytes of refused jobs before it.
    fn store_of<'a>(&self, jobs: &'a Jobs, k: usize, skipped: u64) -> Result<&'a [u8], Refusal> {
        let before = jobs.lengths[..k].iter().map(|&length| length as u64).sum::<u64>();
        let begin = match self.slip {
            BoardsStoreSkipsRefused => before - skipped,
            BoardsSum32Bits => before as u32 as u64,
            _ => before,
        };
        let end = begin + jobs.lengths[k] as u64;
        match self.slip {
            BoardsStoreCutShort if begin <= jobs.stores.len() as u64 => {
                Ok(&jobs.stores[begin as usize..(end as usize).min(jobs.stores.len())])
            }
            _ if end > jobs.stores.len() as u64 => Err(Refusal::Length),
            _ => Ok(&jobs.stores[begin as usize..end as usize]),
        }
    }

    fn budget(&self, own: u32, left: u32, jobs: &Jobs, k: usize) -> u32 {
        let waiting = jobs.count as u32 - k as u32;
        match self.slip {
            BoardsEqualShares => own.min(jobs.total / jobs.count as u32),
            BoardsOthersAlone if waiting > 1 => own.min(left / (waiting - 1)),
            BoardsShareRoundedUp => own.min(left.div_ceil(waiting)),
            BoardsAllThatIsLeft => own.min(left),
            BoardsOwnIgnored => left / waiting,
            _ => own.min(left / waiting),
        }
    }

    fn spent(&self, budget: u32, outcome: &Result<u64, Refusal>) -> u32 {
        match (outcome, self.slip) {
            (_, BoardsAllottedSpent) => budget,
            (Err(_), BoardsRefusedShareLost) => budget,
            (Err(_), _) => 0,
            (Ok(count), _) => *count as u32,
        }
    }

    pub fn boards_of(&self, jobs: &Jobs, table: &mut [i16], bounds: &mut [u64], slots: &mut Slots) -> u32 {
        let (codes, budgets) = (slots.codes.part(), slots.budgets.part());
        let (vectors, numbers) = (slots.vectors.part(), slots.numbers.part());
        let lengths = [(codes.len(), 8), (budgets.len(), 8), (vectors.len(), 64), (numbers.len(), 48)];
        if !self.takes(&lengths) {
            return WRONG_LENGTH;
        }
        if self.refuses(jobs) {
            return refusal_code(Refusal::Jobs);
        }
        let (mut all_codes, mut all_budgets, mut all_vectors, mut all_numbers) = (vec![], vec![], vec![], vec![]);
        let (mut left, mut skipped) = (jobs.total, 0);
        for k in 0..jobs.count as usize {
            let record = jobs.records.get(JOB * k..JOB * k + JOB).unwrap_or(&[0; JOB]);
            let mut job = oracle::read_job(record.try_into().unwrap());
            job.budget = self.budget(job.budget, left, jobs, k);
            let few = self.slips(BoardsRowsOfTheRecord) && table.len() / 16 > job.rows as usize;
            let rows = if few { 16 * job.rows as usize } else { table.len() };
            let store = self.store_of(jobs, k, skipped);
            let checked = store.and_then(|store| self.check_search(&job, store, rows, bounds.len()));
            let outcome = checked.map(|points| {
                let told = self.run(&job, &points, &mut table[..rows], bounds);
                all_vectors.extend(told.vector);
                all_numbers.push(told.kind as u64);
                all_numbers.extend(told.numbers);
                told.numbers[2]
            });
            if let Err(refusal) = outcome {
                if self.slips(BoardsOneBadRefusesAll) {
                    return refusal_code(refusal);
                }
                skipped += jobs.lengths[k] as u64;
                if self.slips(BoardsRefusedClearsTable) {
                    table.fill(0);
                }
                all_vectors.extend([0; 8]);
                all_numbers.extend([0; 6]);
            }
            all_codes.push(outcome.err().map_or(0, refusal_code));
            all_budgets.push(if self.slips(BoardsRefusedBudget0) && outcome.is_err() { 0 } else { job.budget });
            left = left.saturating_sub(self.spent(job.budget, &outcome));
        }
        let unused = if self.slips(BoardsUnused18) { 18 } else { 0 };
        all_codes.resize(8, unused);
        all_budgets.resize(8, 0);
        all_vectors.resize(64, 0);
        all_numbers.resize(48, 0);
        put(codes, &all_codes);
        put(budgets, &all_budgets);
        put(vectors, &all_vectors);
        put(numbers, &all_numbers);
        0
    }
}
