//! All of the program fit but its reading and writing.

use crate::records::{read_job, Job, JOB};
use crate::refusal::{refuse_if, Refusal};
use crate::search::{check_job, search, Answer, Kind};

/// The rows that fit has.
pub const ROWS_LIMIT: u32 = 2_048;

fn solve(input: &[u8]) -> Result<(Job, Answer), Refusal> {
    let (record, store) = input.split_first_chunk::<JOB>().ok_or(Refusal::Length)?;
    let job = read_job(record);
    check_job(&job, store)?;
    refuse_if(job.rows < 1 || job.rows > ROWS_LIMIT, Refusal::Table)?;
    let answer = search(&job, store, 16 * job.rows as usize, ROWS_LIMIT as usize)?;
    Ok((job, answer))
}

/// The line of an answer, without its end.
pub fn answer_line(answer: &Answer, used: usize) -> String {
    let word = match answer.kind {
        Kind::Solved => "solved",
        Kind::Spent => "spent",
        Kind::Full => "full",
    };
    let coordinates: Vec<String> = answer.vector[..used].iter().map(|w| w.to_string()).collect();
    format!(
        "{word} cost={} bound={} splits={} open={} peak={} w={}",
        answer.c,
        answer.l,
        answer.count,
        answer.open.len(),
        answer.peak,
        coordinates.join(",")
    )
}

/// What fit writes for this input: one line, ended by byte 10.
pub fn fit(input: &[u8]) -> String {
    match solve(input) {
        Ok((job, answer)) => answer_line(&answer, job.model.used()) + "\n",
        Err(refusal) => format!("refused {}\n", refusal.number()),
    }
}
