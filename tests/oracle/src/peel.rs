//! Peeling, request 1 of document 02: one line after another.

use crate::boxes::check_box;
use crate::model::{check_loss, check_scale, check_shape};
use crate::points::{check_length, check_stray, points_of, store_of, Point};
use crate::records::Job;
use crate::refusal::{refuse_if, Refusal};
use crate::search::{search, Answer, Kind};

/// The answers of all rounds run, and a label for each record.
#[derive(Clone, Debug, PartialEq, Eq)]
pub struct Peeled {
    pub rounds: Vec<Answer>,
    pub labels: Vec<u8>,
}

/// Checks 1 to 4, 13, 5 to 8, 14 and 10.
fn check(job: &Job, store: &[u8], limit: u8, lent: [usize; 3]) -> Result<Vec<Point>, Refusal> {
    let [numbers, entries, room] = lent;
    let model = &job.model;
    check_length(store.len())?;
    check_shape(model.n, model.d)?;
    refuse_if(model.n != 1, Refusal::Shape)?;
    check_scale(model.s)?;
    check_loss(model.p, model.epsilon)?;
    refuse_if(model.p != 0, Refusal::Loss)?;
    refuse_if(!(1..=4).contains(&limit), Refusal::Rounds)?;
    check_box(&job.domain, model.used())?;
    refuse_if(!job.domain.contains(&job.start), Refusal::Start)?;
    let points = points_of(store);
    check_stray(&points, model.d)?;
    refuse_if(numbers < 16, Refusal::Table)?;
    refuse_if(entries < numbers / 16, Refusal::Bounds)?;
    refuse_if(room < points.len(), Refusal::Short)?;
    Ok(points)
}

/// Solves, removes the points that the line fits within ε, and solves again on those left; `lent` are the table's
/// numbers, the entries beside it and the labels that there is room for.
pub fn peel(job: &Job, store: &[u8], limit: u8, lent: [usize; 3]) -> Result<Peeled, Refusal> {
    let points = check(job, store, limit, lent)?;
    let mut labels: Vec<u8> = points.iter().map(|point| if point.is_gap() { 6 } else { 0 }).collect();
    let mut rounds = Vec::new();
    while rounds.len() < limit as usize {
        let left: Vec<usize> = (0..points.len()).filter(|&i| labels[i] == 0).collect();
        if left.is_empty() {
            break;
        }
        let those: Vec<Point> = left.iter().map(|&i| points[i]).collect();
        let answer = search(job, &store_of(&those), lent[0], lent[1]).unwrap();
        let (solved, vector) = (answer.kind == Kind::Solved, answer.vector);
        rounds.push(answer);
        let fits = |i: &usize| job.model.residual(&points[*i], &vector, 0).unsigned_abs() <= job.model.epsilon as u64;
        let fitted: Vec<usize> = left.into_iter().filter(fits).collect();
        if !solved || fitted.is_empty() {
            break;
        }
        for i in fitted {
            labels[i] = rounds.len() as u8;
        }
    }
    Ok(Peeled { rounds, labels })
}
