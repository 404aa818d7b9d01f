//! Several boards within one split budget, as document 02 has it: job after job, each with its own store.

use crate::records::{read_job, JOB};
use crate::refusal::{refuse_if, Refusal};
use crate::search::{search, Answer};

/// What becomes of one of the jobs: the budget that it got, and its answer or refusal.
#[derive(Clone, Debug, PartialEq, Eq)]
pub struct Board {
    pub budget: u32,
    pub outcome: Result<Answer, Refusal>,
}

/// Searches with one table of `numbers` signed 16-bit numbers and one list of `entries` bounds. 18 refuses the whole call.
pub fn boards(
    count: u8,
    total: u32,
    jobs: &[u8],
    stores: &[u8],
    lengths: &[u32],
    numbers: usize,
    entries: usize,
) -> Result<Vec<Board>, Refusal> {
    refuse_if(!(1..=8).contains(&count), Refusal::Jobs)?;
    let count = count as usize;
    refuse_if(jobs.len() / JOB < count || lengths.len() < count, Refusal::Jobs)?;
    let mut left = total;
    let mut boards = vec![];
    for k in 0..count {
        let mut job = read_job(jobs[JOB * k..].first_chunk().unwrap());
        job.budget = job.budget.min(left / (count - k) as u32);
        let begin: u64 = lengths[..k].iter().map(|&length| length as u64).sum();
        let end = begin + lengths[k] as u64;
        let outcome = if end > stores.len() as u64 {
            Err(Refusal::Length)
        } else {
            search(&job, &stores[begin as usize..end as usize], numbers, entries)
        };
        left -= outcome.as_ref().map_or(0, |answer| answer.count);
        boards.push(Board { budget: job.budget, outcome });
    }
    Ok(boards)
}
