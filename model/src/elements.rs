//! What tables, coefficients and coins are of: an element of a prime field is one word,
//! one of field 3 is four words, over the largest prime (document 02, CR 11).

use crate::field::Field;
use std::fmt::Debug;

/// The arithmetic of elements that are spelt by a number of words.
pub trait Elements: Copy {
    type Element: Copy + Ord + Debug;

    /// Words of an element.
    const WIDTH: usize;

    /// The element that is a number below p, as the points of domains are.
    fn number(self, x: u64) -> Self::Element;

    /// The element of so many words, each below p.
    fn spelt(self, words: &[u32]) -> Self::Element;

    fn words(self, x: Self::Element) -> Vec<u32>;

    fn add(self, a: Self::Element, b: Self::Element) -> Self::Element;

    fn sub(self, a: Self::Element, b: Self::Element) -> Self::Element;

    fn mul(self, a: Self::Element, b: Self::Element) -> Self::Element;

    /// The inverse; there is none for 0.
    fn inv(self, a: Self::Element) -> Option<Self::Element>;

    /// The sum of elements, each times a number below p.
    fn weighted(self, terms: impl Iterator<Item = (Self::Element, u64)>) -> Self::Element;

    /// a / b, where b is not 0.
    fn div(self, a: Self::Element, b: Self::Element) -> Self::Element {
        self.mul(a, self.inv(b).expect("a divisor other than 0"))
    }

    /// a to the given exponent, from the exponent's highest bit down; 0^0 is 1.
    fn pow(self, a: Self::Element, exponent: u64) -> Self::Element {
        let bits = u64::BITS - exponent.leading_zeros();
        (0..bits).rev().fold(self.number(1), |result, bit| {
            let squared = self.mul(result, result);
            if exponent >> bit & 1 == 1 {
                self.mul(squared, a)
            } else {
                squared
            }
        })
    }

    /// The elements that words spell, without any left over.
    fn list(self, words: &[u32]) -> Vec<Self::Element> {
        let each = words.chunks_exact(Self::WIDTH);
        assert!(each.remainder().is_empty(), "whole elements");
        each.map(|words| self.spelt(words)).collect()
    }
}

impl Elements for Field {
    type Element = u64;

    const WIDTH: usize = 1;

    fn number(self, x: u64) -> u64 {
        x
    }

    fn spelt(self, words: &[u32]) -> u64 {
        u64::from(words[0])
    }

    fn words(self, x: u64) -> Vec<u32> {
        vec![x as u32]
    }

    fn add(self, a: u64, b: u64) -> u64 {
        (a + b) % self.p
    }

    fn sub(self, a: u64, b: u64) -> u64 {
        (a + self.p - b) % self.p
    }

    fn mul(self, a: u64, b: u64) -> u64 {
        a * b % self.p
    }

    /// By the extended Euclidean algorithm.
    fn inv(self, a: u64) -> Option<u64> {
        // Kept: factor * a = remainder (modulo p) for both pairs.
        let (mut remainder, mut next_remainder) = (self.p as i64, a as i64);
        let (mut factor, mut next_factor) = (0_i64, 1_i64);
        while next_remainder != 0 {
            let quotient = remainder / next_remainder;
            (remainder, next_remainder) = (next_remainder, remainder - quotient * next_remainder);
            (factor, next_factor) = (next_factor, factor - quotient * next_factor);
        }
        // The greatest common divisor is 1, except p itself when a is 0.
        (remainder == 1).then(|| factor.rem_euclid(self.p as i64) as u64)
    }

    fn weighted(self, terms: impl Iterator<Item = (u64, u64)>) -> u64 {
        let sum: u128 = terms.map(|(a, x)| u128::from(a * x)).sum();
        (sum % u128::from(self.p)) as u64
    }
}

/// a + bX + cX² + dX³, its words from a on.
pub type Four = [u64; 4];

/// Field 3: four words over a prime field, where X⁴ = 11.
#[derive(Debug, Clone, Copy, PartialEq, Eq)]
pub struct Quartic {
    pub base: Field,
}

/// What X⁴ is.
const FOURTH_POWER: u64 = 11;

impl Elements for Quartic {
    type Element = Four;

    const WIDTH: usize = 4;

    fn number(self, x: u64) -> Four {
        [x, 0, 0, 0]
    }

    fn spelt(self, words: &[u32]) -> Four {
        std::array::from_fn(|i| u64::from(words[i]))
    }

    fn words(self, x: Four) -> Vec<u32> {
        x.map(|word| word as u32).to_vec()
    }

    fn add(self, a: Four, b: Four) -> Four {
        std::array::from_fn(|i| self.base.add(a[i], b[i]))
    }

    fn sub(self, a: Four, b: Four) -> Four {
        std::array::from_fn(|i| self.base.sub(a[i], b[i]))
    }

    /// The product of two polynomials of degree below 4, of which X⁴, X⁵ and X⁶ are then
    /// written as 11, 11X and 11X². Four products of words below p fit in 64 bits
    /// together.
    fn mul(self, a: Four, b: Four) -> Four {
        let mut product = [0_u64; 7];
        for i in 0..4 {
            for j in 0..4 {
                product[i + j] += a[i] * b[j];
            }
        }
        let [low @ .., e, f, g] = product.map(|sum| sum % self.base.p);
        let high = [e, f, g, 0].map(|word| FOURTH_POWER * word);
        std::array::from_fn(|i| (low[i] + high[i]) % self.base.p)
    }

    /// The words of y with a·y = 1, by Gauss's elimination: the word numbered i of a·y is
    /// the sum over j of y's word j times that of a·X^j.
    fn inv(self, a: Four) -> Option<Four> {
        let field = self.base;
        let columns = [0, 1, 2, 3].map(|j| {
            let mut power = [0; 4];
            power[j] = 1;
            self.mul(a, power)
        });
        let one = self.number(1);
        let mut rows: [[u64; 5]; 4] = std::array::from_fn(|i| {
            let [p, q, r, s] = columns.map(|column| column[i]);
            [p, q, r, s, one[i]]
        });
        for at in 0..4 {
            let pivot = (at..4).find(|&row| rows[row][at] != 0)?;
            rows.swap(at, pivot);
            let scale = field.div(1, rows[at][at]);
            let lead = rows[at].map(|word| field.mul(word, scale));
            rows = rows.map(|row| {
                let factor = row[at];
                std::array::from_fn(|i| field.sub(row[i], field.mul(factor, lead[i])))
            });
            rows[at] = lead;
        }
        Some(rows.map(|row| row[4]))
    }

    /// A number times an element is that number times each of its words.
    fn weighted(self, terms: impl Iterator<Item = (Four, u64)>) -> Four {
        let mut sums = [0_u128; 4];
        for (a, x) in terms {
            for (sum, word) in sums.iter_mut().zip(a) {
                *sum += u128::from(word * x);
            }
        }
        sums.map(|sum| (sum % u128::from(self.base.p)) as u64)
    }
}
