//! Shape, scale and loss; the residual, the cost of a vector, the bound of a box and the labels.

use crate::boxes::{check_box, Box8};
use crate::points::{check_length, check_stray, points_of, Point, RECORD};
use crate::refusal::{refuse_if, Refusal};

/// A vector: line after line, d coordinates each, then zeros.
pub type Vector = [i16; 8];
/// The label of a gap, request 2 of document 02.
pub const GAP_LABEL: u8 = 6;
/// The label of a sample that is undecided between lines, request 8 of document 02.
pub const UNDECIDED_LABEL: u8 = 5;

/// What a cost is made with: n lines in d dimensions, the scale S, the loss p and its threshold ε, which for p = 3 is q, the
/// number of samples that may be spoiled.
#[derive(Clone, Copy, Debug, PartialEq, Eq)]
pub struct Model {
    pub n: u8,
    pub d: u8,
    pub s: u8,
    pub p: u8,
    pub epsilon: u32,
}

/// Check 2.
pub fn check_shape(n: u8, d: u8) -> Result<(), Refusal> {
    let in_range = |number: u8| (1..=4).contains(&number);
    refuse_if(!in_range(n) || !in_range(d) || n * d > 8, Refusal::Shape)
}

/// Check 3.
pub fn check_scale(s: u8) -> Result<(), Refusal> {
    refuse_if(s > 15, Refusal::Scale)
}

/// Check 4 of calls with a threshold: the loss of a single e, labels and the cost by beacon, which refuse p = 3.
pub fn check_loss(p: u8, epsilon: u32) -> Result<(), Refusal> {
    let least = if p == 0 { 0 } else { 1 };
    refuse_if(p > 2 || epsilon < least || epsilon > 16_777_215, Refusal::Loss)
}

/// Check 4 of a cost, a bound, a search and fit: with p = 3, request 5 of document 02, ε carries q, from 0 to one less than
/// the number of records, gaps included.
pub fn check_loss_over(p: u8, epsilon: u32, records: usize) -> Result<(), Refusal> {
    match p {
        3 => refuse_if(epsilon as usize >= records, Refusal::Loss),
        _ => check_loss(p, epsilon),
    }
}

/// The (q + 1)-th largest, as q-max in source document 002: sorted downward with repeats, place q counted from 0.
pub fn nth_largest(q: usize, mut sizes: Vec<u64>) -> u64 {
    sizes.sort_by(|one, other| other.cmp(one));
    sizes[q]
}

/// Check 6 of calls without a box: the coordinates after n × d are 0.
pub fn check_unused(coordinates: &[i16], used: usize) -> Result<(), Refusal> {
    refuse_if(coordinates[used..].iter().any(|&w| w != 0), Refusal::Start)
}

impl Model {
    /// The number of used coordinates, n × d.
    pub fn used(&self) -> usize {
        self.n as usize * self.d as usize
    }

    /// Checks 2, 3 and 4, over so many records.
    pub fn check(&self, records: usize) -> Result<(), Refusal> {
        check_shape(self.n, self.d)?;
        check_scale(self.s)?;
        check_loss_over(self.p, self.epsilon, records)
    }

    /// Checks 2, 3 and 4 of calls with a threshold.
    pub fn check_threshold(&self) -> Result<(), Refusal> {
        check_shape(self.n, self.d)?;
        check_scale(self.s)?;
        check_loss(self.p, self.epsilon)
    }

    /// The coordinates of line j, counted from 0.
    fn line<'a>(&self, vector: &'a Vector, j: usize) -> &'a [i16] {
        let d = self.d as usize;
        &vector[j * d..(j + 1) * d]
    }

    fn lines(&self) -> std::ops::Range<usize> {
        0..self.n as usize
    }

    fn scaled_y(&self, point: &Point) -> i64 {
        point.y as i64 * 2_i64.pow(self.s as u32)
    }

    /// e = y × 2^S − Σ w_k × x_k for line j.
    pub fn residual(&self, point: &Point, vector: &Vector, j: usize) -> i64 {
        let line = self.line(vector, j);
        let sum: i64 = line.iter().zip(&point.x).map(|(&w, &x)| w as i64 * x as i64).sum();
        self.scaled_y(point) - sum
    }

    /// The least |e| of line j over the box.
    pub fn least_size(&self, point: &Point, domain: &Box8, j: usize) -> i64 {
        let mut emin = self.scaled_y(point);
        let mut emax = emin;
        let sides = self.line(&domain.low, j).iter().zip(self.line(&domain.high, j));
        for ((&low, &high), &x) in sides.zip(&point.x) {
            let products = [low as i64 * x as i64, high as i64 * x as i64];
            emin -= products[0].max(products[1]);
            emax -= products[0].min(products[1]);
        }
        if emin > 0 {
            emin
        } else if emax < 0 {
            -emax
        } else {
            0
        }
    }

    /// The least |e| of a point over the lines of a vector, 0 for a gap.
    pub fn least_at(&self, point: &Point, vector: &Vector) -> i64 {
        if point.is_gap() {
            0
        } else {
            self.lines().map(|j| self.residual(point, vector, j).abs()).min().unwrap()
        }
    }

    /// The least size of a point over the lines and the box, 0 for a gap.
    pub fn least_over(&self, point: &Point, domain: &Box8) -> i64 {
        if point.is_gap() {
            0
        } else {
            self.lines().map(|j| self.least_size(point, domain, j)).min().unwrap()
        }
    }

    /// A cost or bound from the points' least sizes: for p = 3 the (q + 1)-th largest, else the sum of their losses. No
    /// loss falls where |e| grows, so that the least loss among the lines is that of the least |e|.
    pub fn made_of(&self, sizes: impl Iterator<Item = i64>) -> u64 {
        match self.p {
            3 => nth_largest(self.epsilon as usize, sizes.map(i64::unsigned_abs).collect()),
            _ => sizes.map(|size| self.loss_of(size)).sum(),
        }
    }

    /// The cost of a vector over points, without checks.
    pub fn cost_of(&self, points: &[Point], vector: &Vector) -> u64 {
        self.made_of(points.iter().map(|point| self.least_at(point, vector)))
    }

    /// The bound of a box over points, without checks.
    pub fn bound_of(&self, points: &[Point], domain: &Box8) -> u64 {
        self.made_of(points.iter().map(|point| self.least_over(point, domain)))
    }

    /// The loss of e, where p is 0, 1 or 2, without checks.
    pub fn loss_of(&self, e: i64) -> u64 {
        let size = e.unsigned_abs();
        let epsilon = self.epsilon as u64;
        match self.p {
            0 => (size > epsilon) as u64,
            1 => size.min(epsilon),
            2 => {
                let square = size as u128 * size as u128;
                square.min(epsilon as u128 * epsilon as u128) as u64
            }
            p => panic!("p = {p} has no loss of a single e"),
        }
    }

    /// A point's label: 6 for a gap; 5 for a sample within ε of more than one line; the line (1 to n) with the least |e|,
    /// lowest among equals, if that |e| ≤ ε; else 0.
    pub fn label_of(&self, point: &Point, vector: &Vector) -> u8 {
        if point.is_gap() {
            return GAP_LABEL;
        }
        let size = |j: usize| self.residual(point, vector, j).unsigned_abs();
        if self.lines().filter(|&j| size(j) <= self.epsilon as u64).count() > 1 {
            return UNDECIDED_LABEL;
        }
        let nearest = self.lines().min_by_key(|&j| (size(j), j)).unwrap();
        if size(nearest) <= self.epsilon as u64 {
            nearest as u8 + 1
        } else {
            0
        }
    }
}

/// The loss of any signed 64-bit e; makes check 4, where p is 0, 1 or 2.
pub fn loss(p: u8, epsilon: u32, e: i64) -> Result<u64, Refusal> {
    check_loss(p, epsilon)?;
    Ok(Model { n: 1, d: 1, s: 0, p, epsilon }.loss_of(e))
}

/// The cost of a vector; makes checks 1 to 4, 6 and 7.
pub fn cost(model: &Model, store: &[u8], vector: &Vector) -> Result<u64, Refusal> {
    check_length(store.len())?;
    model.check(store.len() / RECORD)?;
    check_unused(vector, model.used())?;
    let points = points_of(store);
    check_stray(&points, model.d)?;
    Ok(model.cost_of(&points, vector))
}

/// The bound of a box; makes checks 1 to 5 and 7.
pub fn bound(model: &Model, store: &[u8], domain: &Box8) -> Result<u64, Refusal> {
    check_length(store.len())?;
    model.check(store.len() / RECORD)?;
    check_box(domain, model.used())?;
    let points = points_of(store);
    check_stray(&points, model.d)?;
    Ok(model.bound_of(&points, domain))
}

/// Labels the points, one byte each, and keeps the rest of `out`; makes checks 1 to 4, where p is 0, 1 or 2, then 6, 7 and 10.
/// Returns the number of points.
pub fn labels(model: &Model, store: &[u8], vector: &Vector, out: &mut [u8]) -> Result<usize, Refusal> {
    check_length(store.len())?;
    model.check_threshold()?;
    check_unused(vector, model.used())?;
    let points = points_of(store);
    check_stray(&points, model.d)?;
    refuse_if(out.len() < points.len(), Refusal::Short)?;
    for (label, point) in out.iter_mut().zip(&points) {
        *label = model.label_of(point, vector);
    }
    Ok(points.len())
}

#[cfg(test)]
mod tests {
    use super::*;
    use crate::points::store_of;

    #[test]
    fn loss_takes_every_residual() {
        for e in [i64::MIN, i64::MIN + 1, i64::MAX] {
            assert_eq!(loss(0, 0, e), Ok(1));
            assert_eq!(loss(1, 16_777_215, e), Ok(16_777_215));
            assert_eq!(loss(2, 16_777_215, e), Ok(281_474_943_156_225));
        }
        assert_eq!(loss(0, 0, 0), Ok(0));
        assert_eq!(loss(2, 5, -4), Ok(16));
    }

    #[test]
    fn loss_parameters_out_of_range() {
        for (p, epsilon) in [(1, 0), (2, 0), (3, 1), (255, 1), (0, 16_777_216), (1, u32::MAX)] {
            assert_eq!(loss(p, epsilon, 1), Err(Refusal::Loss));
        }
    }

    #[test]
    fn shapes() {
        let accepted = (0..=255_u8).flat_map(|n| (0..=255_u8).map(move |d| (n, d)));
        let accepted: Vec<_> = accepted.filter(|&(n, d)| check_shape(n, d).is_ok()).collect();
        let expected =
            [(1, 1), (1, 2), (1, 3), (1, 4), (2, 1), (2, 2), (2, 3), (2, 4), (3, 1), (3, 2), (4, 1), (4, 2)];
        assert_eq!(accepted, expected);
    }

    #[test]
    fn largest_residual_and_cost() {
        let model = Model { n: 1, d: 4, s: 15, p: 2, epsilon: 16_777_215 };
        let gap = Point { x: [-32768; 4], y: -32768, frame: 0 };
        let vector = [-32768, -32768, -32768, -32768, 0, 0, 0, 0];
        assert_eq!(model.residual(&gap, &vector, 0), -5_368_709_120);
        assert_eq!(cost(&model, &store_of(&[gap]), &vector), Ok(0));
        let least = Point { y: -32767, ..gap };
        assert_eq!(model.residual(&least, &vector, 0), -5_368_676_352);
        assert_eq!(cost(&model, &store_of(&vec![least; 4096]), &vector), Ok(1_152_921_367_167_897_600));
    }

    /// One line, d = 1, S = 0; line 3 at x = 1 and the box 2..5.
    #[test]
    fn a_gap_has_loss_0_for_every_vector_and_box() {
        let vector = [3, 0, 0, 0, 0, 0, 0, 0];
        let domain = Box8 { low: [2, 0, 0, 0, 0, 0, 0, 0], high: [5, 0, 0, 0, 0, 0, 0, 0] };
        let store =
            |y: &[i16]| store_of(&y.iter().map(|&y| Point { x: [1, 0, 0, 0], y, frame: 0 }).collect::<Vec<_>>());
        let square = Model { n: 1, d: 1, s: 0, p: 2, epsilon: 16_777_215 };
        for (y, at, over) in [
            (&[-32768][..], 0, 0),
            (&[-32768; 9], 0, 0),
            (&[-32767], 32770 * 32770, 32769 * 32769),
            (&[32767], 32764 * 32764, 32762 * 32762),
            (&[-32768, 1, -32768, 8], 4 + 25, 1 + 9),
        ] {
            assert_eq!(cost(&square, &store(y), &vector), Ok(at));
            assert_eq!(bound(&square, &store(y), &domain), Ok(over));
        }
        for (p, of_sample) in [(0, 1), (1, 2)] {
            let model = Model { p, epsilon: 2, ..square };
            assert_eq!(cost(&model, &store(&[-32768, -32768]), &vector), Ok(0));
            assert_eq!(cost(&model, &store(&[-32767, -32768]), &vector), Ok(of_sample));
            assert_eq!(bound(&model, &store(&[-32768, -32768]), &domain), Ok(0));
            assert_eq!(bound(&model, &store(&[32767, -32768]), &domain), Ok(of_sample));
        }
    }

    /// S = 15 and x = 32,767: line 1 at w = -32,768 has e = -32,768 for y = -32,768, and e = 0 for y = -32,767.
    #[test]
    fn a_gap_is_labelled_6_even_on_a_line() {
        let model = Model { n: 1, d: 1, s: 15, p: 0, epsilon: 32_768 };
        let point = |y| Point { x: [32767, 0, 0, 0], y, frame: 0 };
        let vector = [-32768, 0, 0, 0, 0, 0, 0, 0];
        let mut out = [9; 4];
        assert_eq!(labels(&model, &store_of(&[-32768, -32767, 32767].map(point)), &vector, &mut out), Ok(3));
        assert_eq!(out, [6, 1, 0, 9]);
        assert_eq!(model.residual(&point(-32768), &vector, 0), -32_768);
    }

    /// d = 1, S = 0, x = 1: a line's value is its w.
    #[test]
    fn a_sample_within_epsilon_of_two_lines_is_undecided() {
        let label = |lines: &[i16], y, epsilon, p| {
            let vector = std::array::from_fn(|k| lines.get(k).copied().unwrap_or(0));
            let model = Model { n: lines.len() as u8, d: 1, s: 0, p, epsilon };
            let mut out = [9];
            labels(&model, &store_of(&[Point { x: [1, 0, 0, 0], y, frame: 0 }]), &vector, &mut out).unwrap();
            out[0]
        };
        for p in 1..3 {
            // |e| of 1 and 3: the second line fits from 3 on.
            for (epsilon, expected) in [(1, 1), (2, 1), (3, 5), (4, 5)] {
                assert_eq!(label(&[2, 6], 3, epsilon, p), expected);
                assert_eq!(label(&[6, 2], 3, epsilon, p), if expected == 1 { 2 } else { 5 });
            }
            assert_eq!(label(&[7, 7], 7, 1, p), 5);
            assert_eq!(label(&[7, 7], 9, 1, p), 0);
            assert_eq!(label(&[7], 7, 1, p), 1);
        }
        assert_eq!(label(&[7, 7], 7, 0, 0), 5);
        // Two of three, two of four, all of four, the last alone.
        assert_eq!(label(&[2, 90, 4], 3, 1, 0), 5);
        assert_eq!(label(&[90, 3, 91, 5], 3, 2, 0), 5);
        assert_eq!(label(&[1, 2, 3, 4], 3, 2, 0), 5);
        assert_eq!(label(&[90, 91, 92, 5], 3, 2, 0), 4);
    }

    #[test]
    fn a_gap_near_two_lines_is_a_gap() {
        let model = Model { n: 2, d: 1, s: 0, p: 0, epsilon: 1 };
        let vector = [-32768, -32767, 0, 0, 0, 0, 0, 0];
        let point = |y| Point { x: [1, 0, 0, 0], y, frame: 0 };
        assert_eq!([-32768, -32767, -32766].map(|y| model.label_of(&point(y), &vector)), [6, 5, 2]);
    }

    #[test]
    fn gaps_are_records() {
        let model = Model { n: 1, d: 1, s: 0, p: 1, epsilon: 5 };
        let gap = Point { x: [1, 0, 0, 0], y: -32768, frame: 0 };
        let store = store_of(&[gap, gap, gap]);
        assert_eq!(labels(&model, &store, &[0; 8], &mut [0; 2]), Err(Refusal::Short));
        assert_eq!(labels(&model, &store, &[0; 8], &mut [0; 3]), Ok(3));
        let stray = store_of(&[gap, gap, Point { x: [1, 0, 0, 7], ..gap }]);
        assert_eq!(cost(&model, &stray, &[0; 8]), Err(Refusal::Stray(2)));
        assert_eq!(bound(&model, &stray, &Box8 { low: [0; 8], high: [0; 8] }), Err(Refusal::Stray(2)));
        assert_eq!(labels(&model, &stray, &[0; 8], &mut [0; 3]), Err(Refusal::Stray(2)));
        assert_eq!(cost(&model, &store_of(&vec![gap; 4097]), &[0; 8]), Err(Refusal::Length));
    }

    #[test]
    fn a_box_of_one_vector_has_its_cost_as_bound() {
        let model = Model { n: 2, d: 2, s: 3, p: 1, epsilon: 50 };
        let points: Vec<Point> = (-9..9).map(|k| Point { x: [k, 3 - k, 0, 0], y: 2 * k, frame: 0 }).collect();
        let vector = [5, -6, -7, 8, 0, 0, 0, 0];
        let domain = Box8 { low: vector, high: vector };
        let store = store_of(&points);
        assert_eq!(bound(&model, &store, &domain), cost(&model, &store, &vector));
    }

    #[test]
    fn checks_go_in_table_order() {
        let stray = store_of(&[Point { x: [1, 1, 0, 0], y: 0, frame: 0 }]);
        let bad = [1; 8];
        let box_over = Box8 { low: [1; 8], high: [0; 8] };
        let mut model = Model { n: 0, d: 1, s: 16, p: 3, epsilon: 1 };
        assert_eq!(cost(&model, &stray[1..], &bad), Err(Refusal::Length));
        assert_eq!(cost(&model, &stray, &bad), Err(Refusal::Shape));
        model.n = 1;
        assert_eq!(cost(&model, &stray, &bad), Err(Refusal::Scale));
        model.s = 0;
        assert_eq!(cost(&model, &stray, &bad), Err(Refusal::Loss));
        model.p = 0;
        assert_eq!(cost(&model, &stray, &bad), Err(Refusal::Start));
        assert_eq!(bound(&model, &stray, &box_over), Err(Refusal::Box));
        assert_eq!(labels(&model, &stray, &[0; 8], &mut []), Err(Refusal::Stray(0)));
        model.d = 2;
        assert_eq!(labels(&model, &stray, &[0; 8], &mut []), Err(Refusal::Short));
        let mut out = [9; 3];
        assert_eq!(labels(&model, &stray, &[0; 8], &mut out), Ok(1));
        assert_eq!(out, [1, 9, 9]);
    }
}
