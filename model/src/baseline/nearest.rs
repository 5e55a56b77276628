//! The nearest polynomial to a table, by Gao's decoder as the proved code has it: Euclid's algorithm on X^n - 1 and n·R, where R is the polynomial through all entries,
//! with the lengths of lists for degrees; then a division as of power series, and the table of what it gives is compared. In field 3 each of the four words by itself.

use super::{four_words, points, Prime};
use crate::nearest::{most_words, most_wrong};
use crate::sheet::{Edition, Sheet};
use std::mem::swap;

/// A polynomial s, of so many coefficients, and a w with s(x) = w(x)·y at every point x with its entry y.
struct Pair {
    s: Vec<u32>,
    w: Vec<u32>,
    length: usize,
}

impl Pair {
    /// Without the zeros at the top, down to `least` coefficients.
    fn trim(&mut self, least: usize) {
        while self.length > least && self.s[self.length - 1] == 0 {
            self.length -= 1;
        }
    }
}

impl<const P: u64, const TUNED: bool> Prime<P, TUNED> {
    /// Adds c·f to the front of a list.
    fn add_multiple(self, list: &mut [u32], c: u32, f: &[u32]) {
        for (place, &x) in list.iter_mut().zip(f) {
            *place = self.add_product(*place, c, x);
        }
    }

    /// The remainder of one pair's s by the other's, over n points.
    fn reduce(self, n: usize, least: usize, pair: &mut Pair, by: &Pair) {
        let inverse = self.inv(by.s[by.length - 1]);
        while by.length <= pair.length {
            let (top, from) = (pair.length - 1, pair.length - by.length);
            let c = self.mul(self.sub(0, pair.s[top]), inverse);
            self.add_multiple(&mut pair.s[from..], c, &by.s[..by.length]);
            self.add_multiple(&mut pair.w[from..], c, &by.w[..n + 1 - top]);
            pair.length -= 1;
        }
        pair.trim(least);
    }

    /// The first d coefficients of s/w as a power series, if w has a constant term.
    fn quotient_of(self, mut pair: Pair, least: usize, d: usize) -> Option<Vec<u32>> {
        if pair.w[0] == 0 {
            return None;
        }
        let inverse = self.inv(pair.w[0]);
        let length = pair.w.iter().rposition(|&c| c != 0)? + 1;
        let (s, w) = (&mut pair.s[..least], &pair.w[..length]);
        let quotient = (0..d).map(|i| {
            let c = self.mul(s[i], inverse);
            self.add_multiple(&mut s[i..], self.sub(0, c), w);
            c
        });
        Some(quotient.collect())
    }

    /// The d coefficients that are near to the table if any are.
    fn candidate(self, powers: &[u32], table: &[u32], d: usize) -> Option<Vec<u32>> {
        let n = powers.len();
        let most = (n - d) / 2;
        let least = d + most;
        let mut values = vec![0; n];
        self.table(table, 1, powers, 0, 1, &mut values);
        let backwards = powers.iter().zip(&values).rev();
        let mut next = Pair {
            s: backwards.map(|(&x, &y)| self.mul(x, y)).collect(),
            w: vec![0; most + 1],
            length: n,
        };
        next.w[0] = (n as u64 % P) as u32;
        let mut before = Pair {
            s: vec![0; n + 1],
            w: vec![0; most + 1],
            length: n + 1,
        };
        before.s[0] = P as u32 - 1;
        before.s[n] = 1;
        next.trim(least);
        while next.length > least {
            self.reduce(n, least, &mut before, &next);
            swap(&mut before, &mut next);
        }
        self.quotient_of(next, least, d)
    }

    /// The candidate in words, with its table.
    fn with_table(self, sheet: &Sheet, table: &[u32]) -> Option<(Vec<u32>, Vec<u32>)> {
        let powers = points(self, sheet.field.g as u32, sheet.n0);
        let mut values = vec![0; table.len()];
        if sheet.width == 1 {
            let f = self.candidate(&powers, table, sheet.d0)?;
            self.table(&f, 1, &powers, 0, 1, &mut values);
            return Some((f, values));
        }
        let mut f = vec![0; 4 * sheet.d0];
        let mut plane = vec![0; sheet.n0];
        for k in 0..4 {
            for (place, entry) in plane.iter_mut().zip(table.chunks_exact(4)) {
                *place = entry[k];
            }
            let part = self.candidate(&powers, &plane, sheet.d0)?;
            for (element, c) in f.chunks_exact_mut(4).zip(part) {
                element[k] = c;
            }
        }
        four_words::encode(sheet, &f, &mut values);
        Some((f, values))
    }
}

/// Writes the nearest polynomial, the count of the points where it differs and their numbers, and answers the number of words; nothing where the input fails a test
/// or no polynomial is near.
pub fn nearest<const TUNED: bool>(
    sheet: &[u32],
    table: &[u32],
    output: &mut [u32],
) -> Option<usize> {
    let sheet = Sheet::read_in(Edition::One, sheet)?.ok()?;
    let width = sheet.width;
    let passes = table.len() == width * sheet.n0
        && table.iter().all(|&word| u64::from(word) < sheet.field.p)
        && output.len() >= most_words(&sheet);
    if !passes {
        return None;
    }
    let (f, values) = match sheet.field.p {
        17 => Prime::<17, TUNED>.with_table(&sheet, table),
        65537 => Prime::<65537, TUNED>.with_table(&sheet, table),
        _ => Prime::<2013265921, TUNED>.with_table(&sheet, table),
    }?;
    let entries = table.chunks_exact(width).zip(values.chunks_exact(width));
    let wrong = (0..)
        .zip(entries)
        .filter(|(_, (entry, value))| entry != value);
    let numbers: Vec<u32> = wrong.map(|(number, _)| number).collect();
    if numbers.len() > most_wrong(&sheet) {
        return None;
    }
    let (coefficients, rest) = output.split_at_mut(f.len());
    coefficients.copy_from_slice(&f);
    rest[0] = numbers.len() as u32;
    rest[1..=numbers.len()].copy_from_slice(&numbers);
    Some(f.len() + 1 + numbers.len())
}
