//! Memory lent to a call: filled with a pattern, with guards on both sides that no call may touch.

use std::fmt::Debug;

const GUARD: usize = 24;

pub struct Lent<T> {
    before: Vec<T>,
    after: Vec<T>,
}

impl<T: Copy + PartialEq + Debug> Lent<T> {
    /// `fill` gives the pattern of so many elements.
    pub fn new(length: usize, fill: impl FnOnce(usize) -> Vec<T>) -> Lent<T> {
        let before = fill(length + 2 * GUARD);
        Lent { after: before.clone(), before }
    }

    fn range(&self) -> std::ops::Range<usize> {
        GUARD..self.before.len() - GUARD
    }

    /// The part that the call is lent.
    pub fn part(&mut self) -> &mut [T] {
        let range = self.range();
        &mut self.after[range]
    }

    /// The lent part as it was.
    pub fn was(&self) -> &[T] {
        &self.before[self.range()]
    }

    pub fn now(&self) -> &[T] {
        &self.after[self.range()]
    }

    /// The lent part is to hold `expected`, and the guards what they held.
    pub fn holds(&self, what: &str, expected: &[T]) -> Result<(), String> {
        let range = self.range();
        for (k, (&product, &was)) in self.after.iter().zip(&self.before).enumerate() {
            if !range.contains(&k) && product != was {
                return Err(format!("{what}: element {} outside the lent part changed", k as i64 - GUARD as i64));
            }
        }
        same(&format!("{what}, elements lent"), self.now().len(), expected.len())?;
        match (0..expected.len()).find(|&k| self.now()[k] != expected[k]) {
            Some(k) => Err(format!("{what}[{k}]: product {:?}, expected {:?}", self.now()[k], expected[k])),
            None => Ok(()),
        }
    }
}

/// Equal values, or a message that has both.
pub fn same<T: PartialEq + Debug>(what: &str, product: T, expected: T) -> Result<(), String> {
    if product == expected {
        Ok(())
    } else {
        Err(format!("{what}: product {product:?}, expected {expected:?}"))
    }
}

#[cfg(test)]
mod tests {
    use super::Lent;

    #[test]
    fn another_length_or_element_or_guard_is_noticed() {
        let mut lent = Lent::new(3, |count| vec![7; count]);
        lent.part()[1] = 8;
        assert_eq!(lent.holds("buffer", &[7, 8, 7]), Ok(()));
        for expected in [&[7, 8][..], &[7, 8, 7, 7], &[7, 7, 7]] {
            assert!(lent.holds("buffer", expected).is_err());
        }
        lent.after[2] = 8;
        assert!(lent.holds("buffer", &[7, 8, 7]).is_err());
    }
}
