//! The slips of a stand-in about gaps: in how it reads records, what it adds up and what it counts.

use super::stand_in::StandIn;
use super::Slip::*;
use oracle::points::{points_of, Point, GAP_Y, RECORD};
use oracle::{Box8, Model, Refusal, Vector};

/// The points with each gap as a sample, of the y next to its mark.
fn as_samples(points: &[Point]) -> Vec<Point> {
    points.iter().map(|point| Point { y: point.y.max(GAP_Y + 1), ..*point }).collect()
}

impl StandIn {
    /// The store as the stand-in reads it, for d coordinates.
    pub fn read(&self, store: &[u8], d: u8) -> Vec<u8> {
        let mut read = store.to_vec();
        for record in read.chunks_exact_mut(RECORD) {
            let point = Point::read(record);
            match self.slip {
                GapMarkOneOff if point.y <= GAP_Y + 1 => {
                    let other = GAP_Y + point.is_gap() as i16;
                    record[8..10].copy_from_slice(&other.to_be_bytes());
                }
                GapStrayTaken if point.is_gap() => record[2 * d.min(4) as usize..8].fill(0),
                _ => {}
            }
        }
        read
    }

    /// An outcome by the stand-in's own count of the store's records.
    pub fn counted<T>(&self, store: &[u8], outcome: Result<T, Refusal>) -> Result<T, Refusal> {
        let points = points_of(store);
        match outcome {
            Err(Refusal::Stray(record)) if self.slips(GapsUncountedInStray) => {
                Err(Refusal::Stray(points[..record].iter().filter(|point| !point.is_gap()).count()))
            }
            _ if self.slips(GapsAloneRefused) && points.iter().all(Point::is_gap) => Err(Refusal::Length),
            _ => outcome,
        }
    }

    pub fn cost_of(&self, model: &Model, points: &[Point], vector: &Vector) -> u64 {
        let points = if self.slips(GapCosts) { as_samples(points) } else { points.to_vec() };
        self.cost_made(model, points.iter().map(|point| model.least_at(point, vector)))
    }

    pub fn bound_over(&self, model: &Model, points: &[Point], domain: &Box8) -> u64 {
        let points = if self.slips(GapBoundedAsASample) { as_samples(points) } else { points.to_vec() };
        self.bound_made(model, points.iter().map(|point| model.least_over(point, domain)))
    }
}
