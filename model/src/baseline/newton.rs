//! Verify by Newton's form of the samples, with one inversion for two values.

use super::verify::{Correction, Level, Samples, MOST_ROOTS, MOST_SAMPLES};
use super::Prime;

impl<const P: u64, const TUNED: bool> Prime<P, TUNED> {
    /// A(x) and V(x) by Newton's form.
    fn newton(self, points: &[u32], coefficients: &[u32], x: u32) -> (u32, u32) {
        points
            .iter()
            .zip(coefficients)
            .rev()
            .fold((0, 1), |(value, vanish), (&a, &c)| {
                (
                    self.add_product(value, c, vanish),
                    self.mul(self.sub(x, a), vanish),
                )
            })
    }

    /// A and V at two points.
    fn newton_pair(
        self,
        points: &[u32],
        coefficients: &[u32],
        x: u32,
        y: u32,
    ) -> ((u32, u32), (u32, u32)) {
        if !TUNED {
            return (
                self.newton(points, coefficients, x),
                self.newton(points, coefficients, y),
            );
        }
        let (mut at_x, mut at_y) = ((0, 1), (0, 1));
        for (&a, &c) in points.iter().zip(coefficients).rev() {
            at_x.0 = self.add_product(at_x.0, c, at_x.1);
            at_x.1 = self.mul(self.sub(x, a), at_x.1);
            at_y.0 = self.add_product(at_y.0, c, at_y.1);
            at_y.1 = self.mul(self.sub(y, a), at_y.1);
        }
        (at_x, at_y)
    }

    /// Newton's coefficients through points and values, last to first, two a turn.
    fn newton_coefficients(self, points: &[u32], values: &[u32], out: &mut [u32]) {
        let mut left = points.len();
        while left >= 2 {
            let (i, j) = (left - 1, left - 2);
            let (at_i, at_j) =
                self.newton_pair(&points[left..], &out[left..], points[i], points[j]);
            let vanish = self.mul(self.sub(points[j], points[i]), at_j.1);
            let (inverse_i, inverse_j) = self.inverse_pair(at_i.1, vanish);
            out[i] = self.mul(self.sub(values[i], at_i.0), inverse_i);
            let value = self.add_product(at_j.0, out[i], at_j.1);
            out[j] = self.mul(self.sub(values[j], value), inverse_j);
            left -= 2;
        }
        if left == 1 {
            let (value, vanish) = self.newton(&points[1..], &out[1..], points[0]);
            out[0] = self.mul(self.sub(values[0], value), self.inv(vanish));
        }
    }

    /// 1 + cx + .. + (cx)^e by doubling.
    fn geometric(self, c: u32, e: usize, x: u32) -> u32 {
        let (mut sum, mut factor) = (0, 1);
        let mut q = self.mul(x, c);
        let mut left = e + 1;
        while left > 0 {
            if left & 1 == 1 {
                sum = self.add(sum, factor);
                factor = self.mul(factor, q);
            }
            factor = self.mul(factor, self.add(1, q));
            q = self.mul(q, q);
            left >>= 1;
        }
        sum
    }
}

/// The points of a round's samples, with Newton's coefficients.
pub struct Newton {
    points: [u32; MOST_SAMPLES],
    coefficients: [u32; MOST_SAMPLES],
    count: usize,
    coin: u32,
}

impl Newton {
    /// The values at points m and n.
    fn values<const P: u64, const TUNED: bool>(
        &self,
        level: &Level<P, TUNED>,
        m: usize,
        n: usize,
    ) -> (u32, u32) {
        let f = level.prime;
        let (x, y) = (level.powers[level.scale * m], level.powers[level.scale * n]);
        let (points, coefficients) = (&self.points[..self.count], &self.coefficients[..self.count]);
        let (at_x, at_y) = f.newton_pair(points, coefficients, x, y);
        let (inverse_x, inverse_y) = f.inverse_pair(at_x.1, at_y.1);
        let corrected = |x, value, a, inverse| {
            f.mul(
                f.mul(f.sub(value, a), inverse),
                f.geometric(self.coin, self.count, x),
            )
        };
        (
            corrected(x, level.table[m], at_x.0, inverse_x),
            corrected(y, level.table[n], at_y.0, inverse_y),
        )
    }
}

impl<const P: u64, const TUNED: bool> Correction<P, TUNED> for Newton {
    fn new(prime: Prime<P, TUNED>, samples: &Samples, coin: u32, _: usize) -> Self {
        let Samples {
            points,
            values,
            count,
        } = *samples;
        let mut coefficients = [0; MOST_SAMPLES];
        prime.newton_coefficients(
            &points[..count],
            &values[..count],
            &mut coefficients[..count],
        );
        Newton {
            points,
            coefficients,
            count,
            coin,
        }
    }

    fn folds(
        correction: Option<&Self>,
        level: &Level<P, TUNED>,
        indices: &[u32],
        r: u32,
        out: &mut [u32],
    ) {
        let (step, half) = (level.step, level.k / 2);
        for (&j, out) in indices.iter().zip(out) {
            let j = j as usize;
            let mut values = [0; MOST_ROOTS];
            for m in 0..half {
                let (low, high) = (j + m * step, j + (m + half) * step);
                (values[m], values[m + half]) = match correction {
                    None => (level.table[low], level.table[high]),
                    Some(newton) => newton.values(level, low, high),
                };
            }
            *out = level.fold(j, r, &mut values);
        }
    }
}
