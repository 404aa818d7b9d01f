//! A whole pass through the fitter, request 9 of document 02.

use crate::points::RECORD;
use crate::records::{write_answer, AnswerRecord, Job, ANSWER};
use crate::refusal::{refuse_if, Refusal};
use crate::search::{check_job_over, check_lent, search, Answer};

/// The records where windows of k records begin, h apart, as long as they lie wholly in so many records.
fn begins(records: usize, k: usize, h: usize) -> Vec<usize> {
    let all = std::iter::successors(Some(0), |begin: &usize| begin.checked_add(h));
    all.take_while(|begin| *begin <= records - k).collect()
}

/// Searches each window alone, the first from the job's start vector and each later one from the vector before it, and
/// writes an answer record for each into the front of `out`; makes checks 1 to 7, with p = 3 for k records, then 17, 8, 14
/// and 10 before the first search.
pub fn windows(
    job: &Job,
    store: &[u8],
    [k, h]: [usize; 2],
    [numbers, entries]: [usize; 2],
    out: &mut [u8],
) -> Result<Vec<Answer>, Refusal> {
    check_job_over(job, store, k)?;
    let records = store.len() / RECORD;
    refuse_if(k == 0 || h == 0 || k > records, Refusal::Window)?;
    check_lent(numbers, entries)?;
    let begins = begins(records, k, h);
    refuse_if(out.len() < ANSWER * begins.len(), Refusal::Short)?;
    let mut answers: Vec<Answer> = Vec::new();
    for (begin, place) in begins.into_iter().zip(out.chunks_exact_mut(ANSWER)) {
        let start = answers.last().map_or(job.start, |before| before.vector);
        let answer = search(&Job { start, ..*job }, &store[RECORD * begin..RECORD * (begin + k)], numbers, entries)?;
        let Answer { kind, vector, c, l, count, .. } = answer;
        let (n, d, s) = (job.model.n, job.model.d, job.model.s);
        write_answer(&AnswerRecord { vector, c, l, count, kind: kind as u8, n, d, s }, place)?;
        answers.push(answer);
    }
    Ok(answers)
}

#[cfg(test)]
mod tests {
    use super::*;
    use crate::boxes::Box8;
    use crate::model::Model;
    use crate::points::{store_of, Point};

    fn job(p: u8, epsilon: u32) -> Job {
        let mut domain = Box8 { low: [0; 8], high: [0; 8] };
        domain.high[0] = 15;
        let model = Model { n: 1, d: 1, s: 0, p, epsilon };
        Job { model, t: 0, budget: 15, rows: 0, domain, start: [0; 8] }
    }

    /// Six records with x = 1.
    fn store() -> Vec<u8> {
        store_of(&[2, 2, 9, 9, 9, 4].map(|y| Point { x: [1, 0, 0, 0], y, frame: 0 }))
    }

    fn passed(job: &Job, window: [usize; 2], lent: [usize; 2], room: usize) -> Result<Vec<(i16, u64)>, Refusal> {
        let answers = windows(job, &store(), window, lent, &mut vec![0; room])?;
        Ok(answers.iter().map(|answer| (answer.vector[0], answer.c)).collect())
    }

    #[test]
    fn where_windows_begin() {
        assert_eq!(begins(6, 3, 1), [0, 1, 2, 3]);
        assert_eq!(begins(6, 3, 2), [0, 2]);
        assert_eq!(begins(7, 3, 2), [0, 2, 4]);
        assert_eq!(begins(6, 6, 1), [0]);
        assert_eq!(begins(6, 1, usize::MAX), [0]);
    }

    #[test]
    fn each_window_alone() {
        let all = vec![(2, 2), (9, 2), (9, 0), (9, 2)];
        assert_eq!(passed(&job(1, 2), [3, 1], [128, 8], 160), Ok(all.clone()));
        assert_eq!(passed(&job(1, 2), [3, 3], [128, 8], 80), Ok(vec![all[0], all[3]]));
    }

    #[test]
    fn a_vector_is_handed_on_whatever_the_answer() {
        // No split is made, so that each window keeps the start.
        let mut spent = job(1, 2);
        (spent.budget, spent.start[0]) = (0, 9);
        assert_eq!(passed(&spent, [3, 1], [16, 1], 160), Ok(vec![(9, 4), (9, 2), (9, 0), (9, 2)]));
    }

    #[test]
    fn checks_in_order() {
        let refused = |job: Job, window, lent, room| passed(&job, window, lent, room).unwrap_err();
        assert_eq!(refused(job(3, 0), [0, 0], [0, 0], 0), Refusal::Loss);
        assert_eq!(refused(job(3, 3), [3, 1], [128, 8], 160), Refusal::Loss);
        assert_eq!(refused(job(3, 6), [7, 1], [128, 8], 160), Refusal::Window);
        assert_eq!(refused(job(1, 2), [0, 1], [0, 0], 0), Refusal::Window);
        assert_eq!(refused(job(1, 2), [1, 0], [0, 0], 0), Refusal::Window);
        assert_eq!(refused(job(1, 2), [7, 1], [0, 0], 0), Refusal::Window);
        assert_eq!(refused(job(1, 2), [1, 1], [15, 0], 0), Refusal::Table);
        assert_eq!(refused(job(1, 2), [1, 1], [32, 1], 0), Refusal::Bounds);
        assert_eq!(refused(job(1, 2), [1, 1], [32, 2], 239), Refusal::Short);
        let mut outside = job(1, 2);
        outside.start[0] = 16;
        assert_eq!(refused(outside, [0, 0], [0, 0], 0), Refusal::Start);
    }
}
