//! A search in plain Rust that keeps the bounds beside its open boxes, so that each is found once:
//! the measure that the proved one is held to.
use crate::search::{Answer, Best, Domain, Job, Kind, Progress};

/// The open boxes in list order, and their bounds.
#[derive(Default)]
pub struct Open {
    pub domains: Vec<Domain>,
    pub bounds: Vec<u64>,
}

impl Open {
    fn push(&mut self, domain: Domain, bound: u64) {
        self.domains.push(domain);
        self.bounds.push(bound);
    }

    /// The place of the first box with the smallest bound, and that bound; C where no box is open.
    fn smallest(&self, cost: u64) -> (usize, u64) {
        let (mut at, mut least) = (0, cost);
        for (i, bound) in self.bounds.iter().enumerate() {
            if *bound < least {
                (at, least) = (i, *bound);
            }
        }
        (at, least)
    }

    /// How many boxes but the one at `at` are kept.
    fn kept(&self, at: usize, t: u64, best: &Best) -> usize {
        let others = self.bounds[..at].iter().chain(&self.bounds[at + 1..]);
        let below = others.filter(|bound| **bound < best.cost).count();
        if t > 0 {
            return below;
        }
        let all = self.bounds.iter().zip(&self.domains).enumerate();
        let tied = all.filter(|(i, (bound, domain))| {
            **bound == best.cost && *i != at && domain.low < best.vector
        });
        below + tied.count()
    }

    /// Takes out the box at `at`, and those that are not kept: `kept` of the others are.
    fn close_up(&mut self, at: usize, kept: usize, t: u64, best: &Best) {
        self.domains.remove(at);
        self.bounds.remove(at);
        if kept == self.bounds.len() {
            return;
        }
        let mut stay = 0;
        for i in 0..self.bounds.len() {
            if best.is_behind(t, self.bounds[i], &self.domains[i].low) {
                self.domains[stay] = self.domains[i];
                self.bounds[stay] = self.bounds[i];
                stay += 1;
            }
        }
        self.domains.truncate(stay);
        self.bounds.truncate(stay);
    }
}

/// The open boxes are left in `open`, which is empty before.
#[inline(never)]
pub fn search(job: &Job, open: &mut Open) -> Answer {
    let best = job.start();
    let first = job.bound_up_to(&job.domain, best.cost + 1);
    if best.is_behind(job.t, first, &job.domain.low) {
        open.push(job.domain, first);
    }
    let peak = open.bounds.len();
    let mut progress = Progress {
        best,
        count: 0,
        peak,
    };
    loop {
        let (at, bound) = open.smallest(progress.best.cost);
        if let Some(kind) = progress.ended(job, bound, open.bounds.len()) {
            return progress.answer(kind, bound, open.bounds.len());
        }
        let (left, right) = open.domains[at].cut();
        let new = job.tried(job.tried(progress.best, left.low), right.low);
        let halves = [left, right].map(|half| (half, job.bound_up_to(&half, new.cost + 1)));
        let kept = halves
            .iter()
            .filter(|(half, bound)| new.is_behind(job.t, *bound, &half.low));
        let stay = open.kept(at, job.t, &new);
        if stay + kept.clone().count() > job.rows {
            return progress.answer(Kind::Full, bound, open.bounds.len());
        }
        open.close_up(at, stay, job.t, &new);
        kept.for_each(|(half, bound)| open.push(*half, *bound));
        progress.split(new, open.bounds.len());
    }
}
