//! Verify by the coefficient lists of the proved code.

use super::*;
use crate::baseline::reading::{equal_out, out_in_domain, refused};
use crate::baseline::verify::{different, MOST_COINS, MOST_ROOTS, MOST_SAMPLES};
use crate::{Outcome, Verdict};

/// Places for the coefficients of a round: one more than its samples, and as many as k divides.
const MOST_COEFFICIENTS: usize = MOST_SAMPLES + MOST_ROOTS;
/// Places for the values at the roots of all coins of a round, and of a small one, which is spared the clearing of many.
const MANY: usize = MOST_COINS * MOST_ROOTS;
const FEW: usize = 16;

/// A level's table, its domain and its folding number.
struct Level<'a> {
    powers: &'a [u32],
    table: &'a [Element],
    scale: usize,
    k: usize,
    /// What the numbers of a shift point's roots are apart.
    step: usize,
}

impl Level<'_> {
    fn shift_point(&self, j: usize) -> u32 {
        self.powers[(self.k - 1 + self.k * self.scale * j) % self.powers.len()]
    }

    /// The powers of shift point j, from 1 on: the table of powers goes round.
    fn powers_of(&self, j: usize, out: &mut [u32]) {
        let order = self.powers.len();
        let exponent = self.k * (1 + self.scale * j) % order;
        let mut place = order - 1;
        for power in out {
            *power = self.powers[place];
            place += exponent;
            if place >= order {
                place -= order;
            }
        }
    }

    /// The fold of the values at the roots of shift point j: by two, as often as k halves. The inverse of a point is a power of the root too.
    fn fold(&self, j: usize, r: Element, values: &mut [Element]) -> Element {
        let order = self.powers.len();
        let (mut exponent, mut between) = (1 + self.scale * j, self.scale * self.step);
        let mut count = self.k / 2;
        let mut coin = r;
        while count > 0 {
            for m in 0..count {
                let inverse = self.powers[order - 1 - (exponent + m * between) % order];
                let (low, high) = (values[m], values[m + count]);
                let joined = add(add(low, high), mul(scale(inverse, coin), sub(low, high)));
                values[m] = scale(HALF, joined);
            }
            (exponent, between) = (2 * exponent, 2 * between);
            coin = mul(coin, coin);
            count /= 2;
        }
        values[0]
    }

    /// The folds by r at the shift points of a list, with places for so many values at roots; table 0 has no correction.
    fn folds<const PLACES: usize>(
        &self,
        correction: Option<&Lists>,
        indices: &[u32],
        r: Element,
        out: &mut [Element],
    ) {
        let k = self.k;
        let mut tops = [ZERO; PLACES];
        let tops = &mut tops[..indices.len() * k];
        for (tops, &j) in tops.chunks_exact_mut(k).zip(indices) {
            let values = self.table[j as usize..].iter().step_by(self.step);
            for (top, &value) in tops.iter_mut().zip(values) {
                *top = value;
            }
        }
        if let Some(lists) = correction {
            let mut bottoms = [ZERO; PLACES];
            let bottoms = &mut bottoms[..indices.len() * k];
            let places = tops.chunks_exact_mut(k).zip(bottoms.chunks_exact_mut(k));
            for ((tops, bottoms), &j) in places.zip(indices) {
                lists.fractions(self, j as usize, tops, bottoms);
            }
            divide(tops, bottoms);
        }
        for ((values, &j), out) in tops.chunks_exact_mut(k).zip(indices).zip(out) {
            *out = self.fold(j as usize, r, values);
        }
    }

    fn all_folds(
        &self,
        correction: Option<&Lists>,
        indices: &[u32],
        r: Element,
        out: &mut [Element],
    ) {
        if indices.len() * self.k <= FEW {
            self.folds::<FEW>(correction, indices, r, out);
        } else {
            self.folds::<MANY>(correction, indices, r, out);
        }
    }

    /// The final polynomial at shift point j.
    fn final_value(&self, coefficients: &[Element], j: usize) -> Element {
        let x = self.shift_point(j);
        let terms = coefficients.iter().rev();
        terms.fold(ZERO, |sum, &c| add_scaled(c, x, sum))
    }
}

/// Each numerator becomes its quotient, by one inversion: it is multiplied by the product of the denominators before its own, and then by what is left of the inverse
/// of them all.
fn divide(tops: &mut [Element], bottoms: &[Element]) {
    let mut product = ONE;
    for (top, &bottom) in tops.iter_mut().zip(bottoms) {
        *top = mul(*top, product);
        product = mul(product, bottom);
    }
    let mut inverse = inv(product);
    for (top, &bottom) in tops.iter_mut().zip(bottoms).rev() {
        *top = mul(*top, inverse);
        inverse = mul(inverse, bottom);
    }
}

/// The sum of the products of every k-th coefficient, from the first on, and the powers.
fn sum_every(f: &[Element], k: usize, powers: &[u32]) -> Element {
    let terms = f.iter().step_by(k).zip(powers);
    terms.fold(ZERO, |sum, (&c, &power)| add_scaled(sum, power, c))
}

/// What a round's table is corrected by: A, V and the geometric sum as lists.
struct Lists {
    a: [Element; MOST_COEFFICIENTS],
    v: [Element; MOST_COEFFICIENTS],
    growth: [Element; MOST_COEFFICIENTS],
    /// How many powers of a shift point the sums take.
    columns: usize,
}

impl Lists {
    fn new(xs: &[Element], ys: &[Element], coin: Element, k: usize) -> Self {
        let n = xs.len();
        let mut lists = Lists {
            a: [ZERO; MOST_COEFFICIENTS],
            v: [ZERO; MOST_COEFFICIENTS],
            growth: [ZERO; MOST_COEFFICIENTS],
            columns: (n + k) / k,
        };
        let mut divisors = [ONE; MOST_SAMPLES];
        for j in (1..n).rev() {
            for i in 0..j {
                divisors[i] = mul(sub(xs[i], xs[j]), divisors[i]);
            }
        }
        let mut inverses = [ONE; MOST_SAMPLES];
        divide(&mut inverses[..n], &divisors[..n]);
        let (a, v) = (&mut lists.a, &mut lists.v);
        v[0] = ONE;
        for i in (0..n).rev() {
            let count = n - 1 - i;
            let value = evaluate(&a[..count], xs[i]);
            let s = mul(sub(ys[i], value), inverses[i]);
            let minus = sub(ZERO, xs[i]);
            let mut below = ZERO;
            for (a, v) in a.iter_mut().zip(v.iter_mut()).take(count + 2) {
                *a = add(*a, mul(s, *v));
                (*v, below) = (add(below, mul(minus, *v)), *v);
            }
        }
        let mut power = ONE;
        for place in &mut lists.growth[..=n] {
            *place = power;
            power = mul(power, coin);
        }
        lists
    }

    /// Numerators and denominators of the values at the k roots of shift point j, where the numerators are the table's values.
    fn fractions(&self, level: &Level, j: usize, tops: &mut [Element], bottoms: &mut [Element]) {
        let k = level.k;
        let mut powers = [0; MOST_COEFFICIENTS];
        let powers = &mut powers[..self.columns];
        level.powers_of(j, powers);
        let (at, between) = (level.scale * j, level.scale * level.step);
        let at_roots = |list: &[Element], out: &mut [Element]| {
            let mut sums = [ZERO; MOST_ROOTS];
            for (m, sum) in sums[..k].iter_mut().enumerate() {
                *sum = sum_every(&list[m..], k, powers);
            }
            table(&sums[..k], 1, level.powers, at, between, out);
        };
        let (mut a, mut growth) = ([ZERO; MOST_ROOTS], [ZERO; MOST_ROOTS]);
        at_roots(&self.a, &mut a[..k]);
        at_roots(&self.v, bottoms);
        at_roots(&self.growth, &mut growth[..k]);
        for ((top, &a), &growth) in tops.iter_mut().zip(&a).zip(&growth) {
            *top = mul(sub(*top, a), growth);
        }
    }
}

/// The samples of a round, one for each point.
struct Samples {
    points: [Element; MOST_SAMPLES],
    values: [Element; MOST_SAMPLES],
    count: usize,
}

impl Samples {
    /// False where the point is there with another value.
    fn push(&mut self, point: Element, value: Element) -> bool {
        match self.points[..self.count].iter().position(|&x| x == point) {
            Some(i) => self.values[i] == value,
            None => {
                self.points[self.count] = point;
                self.values[self.count] = value;
                self.count += 1;
                true
            }
        }
    }
}

pub fn decide(sheet: &Sheet, words: &[u32]) -> Verdict {
    let powers = domain(sheet);
    if let Some(place) = out_in_domain(&powers, sheet, words) {
        return refused(7, place, 0);
    }
    if let Some(place) = equal_out(sheet, words) {
        return refused(14, place, 0);
    }

    let level_at = |i: usize, at: usize| Level {
        powers: &powers,
        table: elements(&words[at..at + 4 * sheet.n(i)]),
        scale: 1 << i,
        k: sheet.k[i],
        step: sheet.indices(i),
    };
    let coin = |at: usize| elements(&words[at..at + 4])[0];
    let mut at = sheet.edition.sheet_words();
    let mut level = level_at(0, at);
    let mut correction: Option<Lists> = None;
    let mut r = coin(at + 4 * sheet.n0);
    at += 4 * sheet.n0 + 4;
    let mut reads = 0;
    let mut folds = [ZERO; MOST_COINS];
    for i in 1..=sheet.rounds {
        let outs = at + 4 * sheet.n(i);
        let replies = outs + 4 * sheet.outs;
        let later = replies + 4 * sheet.outs;
        let shifts = &words[later + 8..later + 8 + sheet.t[i - 1]];

        level.all_folds(correction.as_ref(), shifts, r, &mut folds);
        let mut samples = Samples {
            points: [ZERO; MOST_SAMPLES],
            values: [ZERO; MOST_SAMPLES],
            count: 0,
        };
        let mut agrees = true;
        for (&j, &value) in shifts.iter().zip(&folds) {
            let point = [level.shift_point(j as usize), 0, 0, 0];
            agrees &= samples.push(point, value);
        }
        let (outs, replies) = (elements(&words[outs..replies]), &words[replies..later]);
        for (&x, &y) in outs.iter().zip(elements(replies)) {
            agrees &= samples.push(x, y);
        }
        reads += level.k * different(shifts);
        if !agrees {
            return refused(8, i, reads);
        }

        level = level_at(i, at);
        let (xs, ys) = (&samples.points, &samples.values);
        let n = samples.count;
        correction = Some(Lists::new(&xs[..n], &ys[..n], coin(later), level.k));
        r = coin(later + 4);
        at = later + 8 + shifts.len();
    }

    let finals = at + 4 * sheet.d[sheet.rounds + 1];
    let coefficients = elements(&words[at..finals]);
    let indices = &words[finals..finals + sheet.t[sheet.rounds]];
    level.all_folds(correction.as_ref(), indices, r, &mut folds);
    for (place, (&j, &fold)) in indices.iter().zip(&folds).enumerate() {
        if level.final_value(coefficients, j as usize) != fold {
            reads += level.k * different(&indices[..=place]);
            return refused(9, place, reads);
        }
    }
    reads += level.k * different(indices);
    Verdict {
        outcome: Outcome::Accepted,
        reads: reads as u64,
    }
}
