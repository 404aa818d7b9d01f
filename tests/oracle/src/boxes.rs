//! Boxes: their check, their number of grid vectors and the cut.

use crate::model::{check_shape, Vector};
use crate::refusal::{refuse_if, Refusal};

/// A box: all vectors between its low and its high vector, ends included.
#[derive(Clone, Copy, Debug, PartialEq, Eq)]
pub struct Box8 {
    pub low: Vector,
    pub high: Vector,
}

/// Check 5, but for its last words, which are about splitting alone.
pub fn check_box(domain: &Box8, used: usize) -> Result<(), Refusal> {
    let over = (0..8).any(|k| domain.low[k] > domain.high[k]);
    let unused = domain.low[used..].iter().chain(&domain.high[used..]).any(|&w| w != 0);
    refuse_if(over || unused, Refusal::Box)
}

impl Box8 {
    /// high − low of coordinate k, at most 65,535.
    fn side(&self, k: usize) -> i32 {
        self.high[k] as i32 - self.low[k] as i32
    }

    pub fn contains(&self, vector: &Vector) -> bool {
        (0..8).all(|k| self.low[k] <= vector[k] && vector[k] <= self.high[k])
    }

    pub fn is_one_vector(&self) -> bool {
        self.low == self.high
    }

    /// V, or nothing where it exceeds 128 bits.
    pub fn volume(&self) -> Option<u128> {
        (0..8).try_fold(1_u128, |v, k| v.checked_mul(self.side(k) as u128 + 1))
    }

    /// Cuts the longest side, the lowest coordinate among equals, at m = floor((low + high) / 2).
    pub fn cut(&self) -> (Box8, Box8) {
        let k = (0..8).max_by_key(|&k| (self.side(k), std::cmp::Reverse(k))).unwrap();
        let m = (self.low[k] as i32 + self.high[k] as i32).div_euclid(2);
        let (mut left, mut right) = (*self, *self);
        left.high[k] = m as i16;
        right.low[k] = (m + 1) as i16;
        (left, right)
    }

    /// All grid vectors; for small boxes.
    pub fn grid(&self) -> Vec<Vector> {
        let mut vectors = vec![[0; 8]];
        for k in 0..8 {
            let with = |vector: &Vector, w: i16| {
                let mut longer = *vector;
                longer[k] = w;
                longer
            };
            let values = self.low[k]..=self.high[k];
            vectors = vectors.iter().flat_map(|v| values.clone().map(move |w| with(v, w))).collect();
        }
        vectors
    }
}

/// Splitting one box; makes checks 2 and 5.
pub fn split(n: u8, d: u8, domain: &Box8) -> Result<(Box8, Box8), Refusal> {
    check_shape(n, d)?;
    check_box(domain, n as usize * d as usize)?;
    refuse_if(domain.is_one_vector(), Refusal::Box)?;
    Ok(domain.cut())
}

#[cfg(test)]
mod tests {
    use super::*;

    fn domain(low: &[i16], high: &[i16]) -> Box8 {
        let mut domain = Box8 { low: [0; 8], high: [0; 8] };
        domain.low[..low.len()].copy_from_slice(low);
        domain.high[..high.len()].copy_from_slice(high);
        domain
    }

    #[test]
    fn the_longest_side_is_cut() {
        let (left, right) = split(2, 2, &domain(&[0, -5, 1, 0], &[4, 0, 6, 5])).unwrap();
        assert_eq!(left, domain(&[0, -5, 1, 0], &[4, -3, 6, 5]));
        assert_eq!(right, domain(&[0, -2, 1, 0], &[4, 0, 6, 5]));
    }

    #[test]
    fn the_widest_side() {
        let (left, right) = split(1, 1, &domain(&[-32768], &[32767])).unwrap();
        assert_eq!((left, right), (domain(&[-32768], &[-1]), domain(&[0], &[32767])));
    }

    #[test]
    fn refused_boxes() {
        assert_eq!(split(3, 3, &domain(&[1], &[0])), Err(Refusal::Shape));
        assert_eq!(split(1, 1, &domain(&[1], &[0])), Err(Refusal::Box));
        assert_eq!(split(1, 1, &domain(&[0, 0], &[1, 1])), Err(Refusal::Box));
        assert_eq!(split(1, 1, &domain(&[0, -1], &[1, 0])), Err(Refusal::Box));
        assert_eq!(split(1, 1, &domain(&[7], &[7])), Err(Refusal::Box));
    }

    #[test]
    fn grid_and_volume() {
        let small = domain(&[-1, 3], &[1, 4]);
        let grid = small.grid();
        assert_eq!(grid.len() as u128, small.volume().unwrap());
        assert_eq!(grid[0][..2], [-1, 3]);
        assert_eq!(grid[5][..2], [1, 4]);
        assert!(grid.iter().all(|vector| small.contains(vector)));
        assert_eq!(domain(&[-32768; 7], &[32767; 7]).volume(), Some(1 << 112));
        assert_eq!(domain(&[-32768; 8], &[32767; 8]).volume(), None);
    }
}
