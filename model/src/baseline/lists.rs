//! Verify by coefficient lists, as the proved code has it: a round leaves A, V and the geometric sum as lists; at a coin k sums of each list,
//! over every k-th coefficient, give a polynomial with the list's values at the k roots; one inversion serves all coins of a round.

use super::verify::{Correction, Level, Samples, MOST_COINS, MOST_ROOTS, MOST_SAMPLES};
use super::Prime;

/// Places for the coefficients of a round: one more than its samples, and as many as k divides.
const MOST_COEFFICIENTS: usize = MOST_SAMPLES + MOST_ROOTS;
/// Places for the values at the roots of all coins of a round, and of a small one, which is spared the clearing of many.
const MANY: usize = MOST_COINS * MOST_ROOTS;
const FEW: usize = 64;

impl<const P: u64> Prime<P, true> {
    /// The sum of the products of every k-th coefficient, from the first on, and the powers. High and low halves are summed apart.
    fn sum_every(self, f: &[u32], k: usize, powers: &[u32]) -> u32 {
        let (mut high, mut low) = (0u64, 0u64);
        for (&coefficient, &power) in f.iter().step_by(k).zip(powers) {
            let product = u64::from(coefficient) * u64::from(power);
            high += product >> 32;
            low += product & 0xffff_ffff;
        }
        ((high % P * ((1 << 32) % P) + low) % P) as u32
    }

    /// 1, x, x^2, ..: each from two of about half its exponent.
    fn powers(self, x: u32, out: &mut [u32]) {
        for i in 0..out.len() {
            out[i] = match i {
                0 => 1,
                1 => x,
                _ => self.mul(out[i / 2], out[i - i / 2]),
            };
        }
    }

    /// The inverse of an element other than 0, by Euclid's division: modulo P the two last remainders are s and t times the element.
    fn inverse_by_division(self, a: u32) -> u32 {
        let (mut before, mut rest) = (P as u32, a);
        let (mut s, mut t) = (0, 1);
        while rest > 1 {
            let next = self.add_product(s, before / rest, P as u32 - t);
            (before, rest) = (rest, before % rest);
            (s, t) = (t, next);
        }
        if rest == 1 {
            t
        } else {
            self.inv(a)
        }
    }

    /// Each value becomes its inverse, by one inversion.
    fn invert_all(self, values: &mut [u32], before: &mut [u32]) {
        let mut product = 1;
        for (&value, before) in values.iter().zip(before.iter_mut()) {
            *before = product;
            product = self.mul(product, value);
        }
        let mut inverse = self.inverse_by_division(product);
        for (value, &before) in values.iter_mut().zip(before.iter()).rev() {
            let here = *value;
            *value = self.mul(inverse, before);
            inverse = self.mul(inverse, here);
        }
    }

    /// A and V of the samples, by one step for each, from the last to the first.
    fn interpolate(self, xs: &[u32], ys: &[u32], q: &mut [u32], v: &mut [u32]) {
        let n = xs.len();
        let mut inverses = [1; MOST_SAMPLES];
        let mut room = [0; MOST_COEFFICIENTS];
        for j in (1..n).rev() {
            let minus = self.sub(0, xs[j]);
            for (inverse, &x) in inverses[..j].iter_mut().zip(xs) {
                // One remainder for the difference and the product.
                let difference = u64::from(x) + u64::from(minus);
                *inverse = (difference * u64::from(*inverse) % P) as u32;
            }
        }
        self.invert_all(&mut inverses[..n], &mut room[..n]);
        v[0] = 1;
        for i in (0..n).rev() {
            let count = n - 1 - i;
            let powers = &mut room[..count + 1];
            self.powers(xs[i], powers);
            let value = self.sum_every(q, 1, powers);
            let s = self.mul(self.sub(ys[i], value), inverses[i]);
            let minus = self.sub(0, xs[i]);
            let mut below = 0;
            for (q, v) in q.iter_mut().zip(v.iter_mut()).take(count + 2) {
                *q = self.add_product(*q, s, *v);
                (*v, below) = (self.add_product(below, minus, *v), *v);
            }
        }
    }

    /// The table of the polynomial with every `stride`-th coefficient of `f` over points of the table of powers, from its halves.
    fn at_roots(
        self,
        f: &[u32],
        stride: usize,
        powers: &[u32],
        at: usize,
        step: usize,
        out: &mut [u32],
    ) {
        if f.len() <= 2 * stride {
            for (j, out) in out.iter_mut().enumerate() {
                *out = self.add_product(f[0], powers[at + step * j], f[stride]);
            }
            return;
        }
        let half = out.len() / 2;
        let (even, odd) = out.split_at_mut(half);
        self.at_roots(f, 2 * stride, powers, 2 * at + 1, 2 * step, even);
        self.at_roots(&f[stride..], 2 * stride, powers, 2 * at + 1, 2 * step, odd);
        for j in 0..half {
            let (e, o) = (even[j], odd[j]);
            even[j] = self.add_product(e, powers[at + step * j], o);
            odd[j] = self.add_product(e, powers[at + step * (half + j)], o);
        }
    }
}

/// What a round's table is corrected by.
pub struct Lists {
    a: [u32; MOST_COEFFICIENTS],
    v: [u32; MOST_COEFFICIENTS],
    growth: [u32; MOST_COEFFICIENTS],
    /// How many powers of a shift point the sums take.
    columns: usize,
}

impl<const P: u64> Level<'_, P, true> {
    /// The powers of shift point j, from 1 on: the table of powers goes round.
    fn powers_of(&self, j: usize, out: &mut [u32]) {
        let order = self.powers.len();
        let exponent = self.k * (1 + self.scale * j) % order;
        let mut place = order - 1;
        for power in out {
            *power = self.powers[place];
            place += exponent;
            if place >= order {
                place -= order;
            }
        }
    }

    /// The folds with places for so many values at roots.
    fn folds_in<const PLACES: usize>(
        &self,
        correction: Option<&Lists>,
        indices: &[u32],
        r: u32,
        out: &mut [u32],
    ) {
        let k = self.k;
        let mut tops = [0; PLACES];
        let tops = &mut tops[..indices.len() * k];
        for (tops, &j) in tops.chunks_exact_mut(k).zip(indices) {
            let values = self.table[j as usize..].iter().step_by(self.step);
            for (top, &value) in tops.iter_mut().zip(values) {
                *top = value;
            }
        }
        if let Some(lists) = correction {
            let mut bottoms = [0; PLACES];
            let mut before = [0; PLACES];
            let bottoms = &mut bottoms[..indices.len() * k];
            let places = tops.chunks_exact_mut(k).zip(bottoms.chunks_exact_mut(k));
            for ((tops, bottoms), &j) in places.zip(indices) {
                lists.fractions(self, j as usize, tops, bottoms);
            }
            self.prime.invert_all(bottoms, &mut before);
            for (top, &inverse) in tops.iter_mut().zip(bottoms.iter()) {
                *top = self.prime.mul(*top, inverse);
            }
        }
        for ((values, &j), out) in tops.chunks_exact_mut(k).zip(indices).zip(out) {
            *out = self.fold(j as usize, r, values);
        }
    }
}

impl Lists {
    /// Numerators and denominators of the values at the k roots of shift point j, where the numerators are the table's values.
    fn fractions<const P: u64>(
        &self,
        level: &Level<P, true>,
        j: usize,
        tops: &mut [u32],
        bottoms: &mut [u32],
    ) {
        let (f, k) = (level.prime, level.k);
        let mut powers = [0; MOST_COEFFICIENTS];
        let powers = &mut powers[..self.columns];
        level.powers_of(j, powers);
        let (at, between) = (level.scale * j, level.scale * level.step);
        let mut sums = [0; MOST_ROOTS];
        let mut at_roots = |list: &[u32], out: &mut [u32]| {
            for (m, sum) in sums[..k].iter_mut().enumerate() {
                *sum = f.sum_every(&list[m..], k, powers);
            }
            f.at_roots(&sums[..k], 1, level.powers, at, between, out);
        };
        let (mut a, mut growth) = ([0; MOST_ROOTS], [0; MOST_ROOTS]);
        at_roots(&self.a, &mut a[..k]);
        at_roots(&self.v, bottoms);
        at_roots(&self.growth, &mut growth[..k]);
        for ((top, &a), &growth) in tops.iter_mut().zip(&a).zip(&growth) {
            *top = f.mul(f.sub(*top, a), growth);
        }
    }
}

impl<const P: u64> Correction<P, true> for Lists {
    fn new(prime: Prime<P, true>, samples: &Samples, coin: u32, k: usize) -> Self {
        let count = samples.count;
        let mut lists = Lists {
            a: [0; MOST_COEFFICIENTS],
            v: [0; MOST_COEFFICIENTS],
            growth: [0; MOST_COEFFICIENTS],
            columns: (count + k) / k,
        };
        let (xs, ys) = (&samples.points[..count], &samples.values[..count]);
        prime.interpolate(xs, ys, &mut lists.a, &mut lists.v);
        prime.powers(coin, &mut lists.growth[..count + 1]);
        lists
    }

    fn folds(
        correction: Option<&Self>,
        level: &Level<P, true>,
        indices: &[u32],
        r: u32,
        out: &mut [u32],
    ) {
        if indices.len() * level.k <= FEW {
            level.folds_in::<FEW>(correction, indices, r, out);
        } else {
            level.folds_in::<MANY>(correction, indices, r, out);
        }
    }

    /// By one sum of products where there are more than a few coefficients and room for the powers, else by Horner's rule.
    fn final_value(level: &Level<P, true>, coefficients: &[u32], j: usize) -> u32 {
        let count = coefficients.len();
        if count <= 8 || count >= MOST_COEFFICIENTS {
            return level.prime.evaluate(coefficients, level.shift_point(j));
        }
        let mut powers = [0; MOST_COEFFICIENTS];
        let powers = &mut powers[..count];
        level.powers_of(j, powers);
        level.prime.sum_every(coefficients, 1, powers)
    }
}
