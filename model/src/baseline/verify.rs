//! Verify, by one of two ways to a level's values.

use super::reading::{equal_out, out_in_domain, read, refused};
use super::{four_words, points, Prime};
use crate::sheet::{Edition, Sheet};
use crate::{Outcome, Verdict};

/// Most shift or final coins of a round.
pub(super) const MOST_COINS: usize = 48;
/// Most samples of a round: 48 shift points and 2 out coins.
pub(super) const MOST_SAMPLES: usize = MOST_COINS + 2;
/// Most roots of a shift point.
pub(super) const MOST_ROOTS: usize = 16;
/// Most indices that a coin has to pick from, and so many that are compared in pairs.
const MOST_INDICES: usize = 2048;
const FEW_INDICES: usize = 8;

/// A level's table, its domain and its folding number.
pub struct Level<'a, const P: u64, const TUNED: bool> {
    pub(super) prime: Prime<P, TUNED>,
    pub(super) powers: &'a [u32],
    pub(super) table: &'a [u32],
    pub(super) scale: usize,
    pub(super) k: usize,
    /// What the numbers of a shift point's roots are apart.
    pub(super) step: usize,
}

impl<const P: u64, const TUNED: bool> Level<'_, P, TUNED> {
    pub(super) fn shift_point(&self, j: usize) -> u32 {
        self.powers[(self.k - 1 + self.k * self.scale * j) % self.powers.len()]
    }

    /// The fold of the values at the roots of shift point j: by two, as often as k halves. The inverse of a point is a power of the root too.
    pub(super) fn fold(&self, j: usize, r: u32, values: &mut [u32]) -> u32 {
        let f = self.prime;
        let order = self.powers.len();
        let (mut exponent, mut between) = (1 + self.scale * j, self.scale * self.step);
        let mut count = self.k / 2;
        let mut coin = r;
        while count > 0 {
            for m in 0..count {
                let inverse = self.powers[order - 1 - (exponent + m * between) % order];
                let (low, high) = (values[m], values[m + count]);
                let joined =
                    f.add_product(f.add(low, high), f.mul(coin, inverse), f.sub(low, high));
                values[m] = f.mul(Prime::<P, TUNED>::HALF, joined);
            }
            (exponent, between) = (2 * exponent, 2 * between);
            coin = f.mul(coin, coin);
            count /= 2;
        }
        values[0]
    }
}

/// The samples of a round, one for each point.
pub struct Samples {
    pub(super) points: [u32; MOST_SAMPLES],
    pub(super) values: [u32; MOST_SAMPLES],
    pub(super) count: usize,
}

impl Samples {
    fn new() -> Self {
        Samples {
            points: [0; MOST_SAMPLES],
            values: [0; MOST_SAMPLES],
            count: 0,
        }
    }

    /// False where the point is there with another value.
    fn push(&mut self, point: u32, value: u32) -> bool {
        match self.points[..self.count].iter().position(|&x| x == point) {
            Some(i) => self.values[i] == value,
            None => {
                self.points[self.count] = point;
                self.values[self.count] = value;
                self.count += 1;
                true
            }
        }
    }
}

/// How many different ones there are among some indices. A few are compared in pairs,
/// more are marked: both versions count by this, as the proved code does.
pub(super) fn different(indices: &[u32]) -> usize {
    if indices.len() <= FEW_INDICES {
        let last = |&i: &usize| !indices[i + 1..].contains(&indices[i]);
        return (0..indices.len()).filter(last).count();
    }
    let mut marks = [false; MOST_INDICES];
    let new = |&&j: &&u32| !std::mem::replace(&mut marks[j as usize], true);
    indices.iter().filter(new).count()
}

/// What the samples of a round make of the next table.
pub trait Correction<const P: u64, const TUNED: bool>: Sized {
    /// From the samples and the combination coin, for a level with this k.
    fn new(prime: Prime<P, TUNED>, samples: &Samples, coin: u32, k: usize) -> Self;

    /// The folds by r at the shift points of a list; table 0 has no correction.
    fn folds(
        correction: Option<&Self>,
        level: &Level<P, TUNED>,
        indices: &[u32],
        r: u32,
        out: &mut [u32],
    );

    /// The final polynomial at shift point j.
    fn final_value(level: &Level<P, TUNED>, coefficients: &[u32], j: usize) -> u32 {
        level.prime.evaluate(coefficients, level.shift_point(j))
    }
}

/// Verifies a file.
pub fn verify<C, const TUNED: bool>(edition: Edition, file: &[u8]) -> Verdict
where
    C: Correction<17, TUNED> + Correction<65537, TUNED> + Correction<2013265921, TUNED>,
{
    match read(edition, file) {
        Ok((sheet, words)) => decide_in::<C, TUNED>(&sheet, &words),
        Err(verdict) => verdict,
    }
}

/// Decides words that pass reading, in the sheet's field.
pub(super) fn decide_in<C, const TUNED: bool>(sheet: &Sheet, words: &[u32]) -> Verdict
where
    C: Correction<17, TUNED> + Correction<65537, TUNED> + Correction<2013265921, TUNED>,
{
    match sheet.field.p {
        _ if sheet.width == 4 => four_words::decide(sheet, words),
        17 => decide::<C, 17, TUNED>(sheet, words),
        65537 => decide::<C, 65537, TUNED>(sheet, words),
        _ => decide::<C, 2013265921, TUNED>(sheet, words),
    }
}

fn decide<C: Correction<P, TUNED>, const P: u64, const TUNED: bool>(
    sheet: &Sheet,
    words: &[u32],
) -> Verdict {
    let prime = Prime::<P, TUNED>;
    let powers = points(prime, sheet.field.g as u32, sheet.n0);
    if let Some(place) = out_in_domain(&powers, sheet, words) {
        return refused(7, place, 0);
    }
    if let Some(place) = equal_out(sheet, words) {
        return refused(14, place, 0);
    }

    let level_at = |i: usize, at: usize| Level {
        prime,
        powers: &powers,
        table: &words[at..at + sheet.n(i)],
        scale: 1 << i,
        k: sheet.k[i],
        step: sheet.indices(i),
    };
    let mut at = sheet.edition.sheet_words();
    let mut level = level_at(0, at);
    let mut correction: Option<C> = None;
    let mut r = words[at + sheet.n0];
    at += sheet.n0 + 1;
    let mut reads = 0;
    let mut folds = [0; MOST_COINS];
    for i in 1..=sheet.rounds {
        let outs = at + sheet.n(i);
        let replies = outs + sheet.outs;
        let later = replies + sheet.outs;
        let shifts = &words[later + 2..later + 2 + sheet.t[i - 1]];

        C::folds(correction.as_ref(), &level, shifts, r, &mut folds);
        let mut samples = Samples::new();
        let mut agrees = true;
        for (&j, &value) in shifts.iter().zip(&folds) {
            agrees &= samples.push(level.shift_point(j as usize), value);
        }
        for (&x, &y) in words[outs..replies].iter().zip(&words[replies..later]) {
            agrees &= samples.push(x, y);
        }
        reads += level.k * different(shifts);
        if !agrees {
            return refused(8, i, reads);
        }

        level = level_at(i, at);
        correction = Some(C::new(prime, &samples, words[later], level.k));
        r = words[later + 1];
        at = later + 2 + shifts.len();
    }

    let finals = at + sheet.d[sheet.rounds + 1];
    let coefficients = &words[at..finals];
    let indices = &words[finals..finals + sheet.t[sheet.rounds]];
    C::folds(correction.as_ref(), &level, indices, r, &mut folds);
    for (place, (&j, &fold)) in indices.iter().zip(&folds).enumerate() {
        if C::final_value(&level, coefficients, j as usize) != fold {
            reads += level.k * different(&indices[..=place]);
            return refused(9, place, reads);
        }
    }
    reads += level.k * different(indices);
    Verdict {
        outcome: Outcome::Accepted,
        reads: reads as u64,
    }
}
