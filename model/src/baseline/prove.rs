//! Encode and prove, for inputs that pass their tests; of others they only say so. The rules of the sheet are the model's.

use super::{four_words, points, Prime, CHECK_MODULUS};
use crate::sheet::{Edition, Sheet};
use crate::stream::{BLOCK_BYTES, BLOCK_WORDS};

impl<const P: u64, const TUNED: bool> Prime<P, TUNED> {
    /// The table of the polynomial whose coefficients stand in `f` at every `stride`-th place, over the points that stand in `powers`
    /// at every `step`-th place from `at` on: from its even and its odd half, whose points are the squares.
    pub(super) fn table(
        self,
        f: &[u32],
        stride: usize,
        powers: &[u32],
        at: usize,
        step: usize,
        out: &mut [u32],
    ) {
        if f.len() <= stride {
            out.fill((u64::from(f[0]) % P) as u32);
            return;
        }
        let half = out.len() / 2;
        let (even, odd) = out.split_at_mut(half);
        self.table(f, 2 * stride, powers, 2 * at + 1, 2 * step, even);
        self.table(&f[stride..], 2 * stride, powers, 2 * at + 1, 2 * step, odd);
        for j in 0..half {
            let (e, o) = (even[j], odd[j]);
            even[j] = self.add_product(e, powers[at + step * j], o);
            odd[j] = self.add_product(e, powers[at + step * (half + j)], o);
        }
    }

    fn fold(self, k: usize, r: u32, f: &[u32]) -> Vec<u32> {
        f.chunks_exact(k).map(|c| self.evaluate(c, r)).collect()
    }

    /// The quotient by X - a, in place.
    fn divide(self, f: &mut Vec<u32>, a: u32) {
        let mut above = 0;
        for coefficient in f.iter_mut().rev() {
            let here = *coefficient;
            *coefficient = above;
            above = self.add_product(here, a, above);
        }
        f.pop();
    }

    /// The quotient by the product of X - a over the points, in place; tuned, four points a pass.
    fn quotient(self, f: &mut Vec<u32>, points: &[u32]) {
        let mut rest = points;
        while let (true, [a, b, c, d, next @ ..]) = (TUNED, rest) {
            let mut above = [0; 4];
            for coefficient in f.iter_mut().rev() {
                let mut here = *coefficient;
                *coefficient = above[3];
                for (above, &point) in above.iter_mut().zip([a, b, c, d]) {
                    let before = *above;
                    *above = self.add_product(here, point, before);
                    here = before;
                }
            }
            f.truncate(f.len() - 4);
            rest = next;
        }
        for &a in rest {
            self.divide(f, a);
        }
    }

    /// The product of q and 1 + cX + .. + (cX)^e, by its recurrence.
    pub(super) fn correct(self, c: u32, e: usize, q: &[u32]) -> Vec<u32> {
        let minus = self.sub(0, self.pow(c, e as u64 + 1));
        let mut out = Vec::with_capacity(q.len() + e);
        let mut before = 0;
        for i in 0..q.len() + e {
            let here = q.get(i).copied().unwrap_or(0);
            before = self.add_product(here, c, before);
            if i > e {
                before = self.add_product(before, minus, q[i - e - 1]);
            }
            out.push(before);
        }
        out
    }
}

/// Table 0 of a polynomial.
fn encode_in<const P: u64, const TUNED: bool>(sheet: &Sheet, f: &[u32], out: &mut [u32]) {
    let prime = Prime::<P, TUNED>;
    let powers = points(prime, sheet.field.g as u32, sheet.n0);
    prime.table(f, 1, &powers, 0, 1, out);
}

/// The sheet of an input to encode that passes its tests.
fn encode_tests(edition: Edition, sheet: &[u32], f: &[u32], room: usize) -> Option<Sheet> {
    let sheet = Sheet::read_in(edition, sheet)?.ok()?;
    let passes = f.len() == sheet.width * sheet.d0
        && f.iter().all(|&c| u64::from(c) < sheet.field.p)
        && room >= sheet.width * sheet.n0;
    passes.then_some(sheet)
}

/// Writes table 0 and answers its size.
pub fn encode<const TUNED: bool>(sheet: &[u32], f: &[u32], out: &mut [u32]) -> Option<usize> {
    let sheet = encode_tests(Edition::One, sheet, f, out.len())?;
    let table = &mut out[..sheet.width * sheet.n0];
    match sheet.field.p {
        _ if sheet.width == 4 => four_words::encode(&sheet, f, table),
        17 => encode_in::<17, TUNED>(&sheet, f, table),
        65537 => encode_in::<65537, TUNED>(&sheet, f, table),
        _ => encode_in::<2013265921, TUNED>(&sheet, f, table),
    }
    Some(sheet.width * sheet.n0)
}

/// Are the coins in range, the out coins outside their domains, and no two of a round equal?
fn coins_pass(sheet: &Sheet, powers: &[u32], coins: &[u32]) -> bool {
    let element = |&c: &u32| u64::from(c) < sheet.field.p;
    let index = |i: usize| move |&j: &u32| (j as usize) < sheet.indices(i);
    let width = sheet.width;
    let (first, mut rest) = coins.split_at(width);
    if !first.iter().all(element) {
        return false;
    }
    for i in 1..=sheet.rounds {
        let (elements, after) = rest.split_at(width * (sheet.outs + 2));
        let (shifts, next) = after.split_at(sheet.t[i - 1]);
        let mut outs = elements[..width * sheet.outs].chunks_exact(width);
        let inside = |x: &[u32]| {
            x[1..].iter().all(|&word| word == 0)
                && powers.iter().step_by(1 << i).any(|p| *p == x[0])
        };
        if !elements.iter().all(element)
            || !shifts.iter().all(index(i - 1))
            || outs.clone().any(inside)
            || sheet.outs == 2 && outs.next() == outs.next()
        {
            return false;
        }
        rest = next;
    }
    rest.iter().all(index(sheet.rounds))
}

/// The honest stream's words after those at its front; of a batch with its bounds, and r before the other coins.
fn stream<const P: u64, const TUNED: bool>(
    sheet: &Sheet,
    mut words: Vec<u32>,
    bounds: &[u32],
    f: &[u32],
    coins: &[u32],
) -> Option<Vec<u32>> {
    let prime = Prime::<P, TUNED>;
    let powers = points(prime, sheet.field.g as u32, sheet.n0);
    let before = if bounds.is_empty() { 0 } else { sheet.width };
    let (first, coins) = coins.split_at(before);
    let below = |&word: &u32| u64::from(word) < P;
    if !first.iter().all(below) || !coins_pass(sheet, &powers, coins) {
        return None;
    }
    if sheet.width == 4 {
        return Some(four_words::stream(
            sheet, &powers, words, bounds, f, first, coins,
        ));
    }
    let write_table = |words: &mut Vec<u32>, i: usize, f: &[u32]| {
        let from = words.len();
        words.resize(from + sheet.n(i), 0);
        prime.table(f, 1, &powers, 0, 1 << i, &mut words[from..]);
    };

    let mut f = match first {
        [] => {
            write_table(&mut words, 0, f);
            f.to_vec()
        }
        [r, ..] => {
            let mut left = f;
            for &bound in bounds {
                let (part, rest) = left.split_at(bound as usize);
                let mut padded = part.to_vec();
                padded.resize(sheet.d0, 0);
                write_table(&mut words, 0, &padded);
                left = rest;
            }
            words.push(*r);
            prime.combined(sheet.d0, bounds, *r, f)
        }
    };
    let (mut r, mut rest) = (coins[0], &coins[1..]);
    words.push(r);
    for i in 1..=sheet.rounds {
        let k = sheet.k[i - 1];
        let mut g = prime.fold(k, r, &f);
        let (outs, later) = rest.split_at(sheet.outs);
        let (later, next) = later.split_at(2 + sheet.t[i - 1]);
        write_table(&mut words, i, &g);
        words.extend_from_slice(outs);
        words.extend(outs.iter().map(|&x| prime.evaluate(&g, x)));
        words.extend_from_slice(later);

        let scale = 1 << (i - 1);
        let shifts = later[2..]
            .iter()
            .map(|&j| powers[(k - 1 + k * scale * j as usize) % powers.len()]);
        let mut seen = Vec::with_capacity(sheet.outs + later.len());
        for x in outs.iter().copied().chain(shifts) {
            if !seen.contains(&x) {
                seen.push(x);
            }
        }
        prime.quotient(&mut g, &seen);
        f = prime.correct(later[0], seen.len(), &g);
        r = later[1];
        rest = next;
    }
    words.extend(prime.fold(sheet.k[sheet.rounds], r, &f));
    words.extend_from_slice(rest);
    Some(words)
}

/// Writes the file's blocks and answers their number.
pub fn prove<const TUNED: bool>(
    edition: Edition,
    sheet: &[u32],
    f: &[u32],
    coins: &[u32],
    out: &mut [u8],
) -> Option<usize> {
    let words = sheet.to_vec();
    let sheet = encode_tests(edition, sheet, f, usize::MAX)?;
    blocks::<TUNED>(&sheet, words, &[], f, coins, out)
}

/// The same with the words at the front of the stream, and of a batch with its bounds.
pub(super) fn blocks<const TUNED: bool>(
    sheet: &Sheet,
    words: Vec<u32>,
    bounds: &[u32],
    f: &[u32],
    coins: &[u32],
    out: &mut [u8],
) -> Option<usize> {
    let due: usize = (1..=sheet.rounds)
        .map(|i| sheet.width * (sheet.outs + 2) + sheet.t[i - 1])
        .sum();
    let first = if bounds.is_empty() { 1 } else { 2 };
    let coins_due = first * sheet.width + due + sheet.t[sheet.rounds];
    if coins.len() != coins_due {
        return None;
    }
    let words = match sheet.field.p {
        17 => stream::<17, TUNED>(sheet, words, bounds, f, coins),
        65537 => stream::<65537, TUNED>(sheet, words, bounds, f, coins),
        _ => stream::<2013265921, TUNED>(sheet, words, bounds, f, coins),
    }?;
    write_blocks(&words, out)
}

/// Writes a stream's blocks and answers their number, where there is room for them.
pub(super) fn write_blocks(words: &[u32], out: &mut [u8]) -> Option<usize> {
    let count = words.len().div_ceil(BLOCK_WORDS);
    if out.len() < BLOCK_BYTES * count {
        return None;
    }
    let blocks = words
        .chunks(BLOCK_WORDS)
        .zip(out.chunks_exact_mut(BLOCK_BYTES));
    for (b, (block, bytes)) in blocks.enumerate() {
        let mut sum = b as u64 + 1;
        bytes.fill(0);
        for (w, (&word, four)) in block.iter().zip(bytes.chunks_exact_mut(4)).enumerate() {
            sum += (w as u64 + 1) * u64::from(word);
            four.copy_from_slice(&word.to_le_bytes());
        }
        bytes[4 * BLOCK_WORDS..].copy_from_slice(&((sum % CHECK_MODULUS) as u32).to_le_bytes());
    }
    Some(count)
}
