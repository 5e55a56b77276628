//! Encode and prove, for inputs that pass their tests.

use super::*;

/// Table 0 of a polynomial.
pub fn encode(sheet: &Sheet, f: &[u32], out: &mut [u32]) {
    let (places, _) = out.as_chunks_mut();
    table(elements(f), 1, &domain(sheet), 0, 1, places);
}

/// The quotient by X - a, in place.
fn divide_by(f: &mut Vec<Element>, a: Element) {
    let mut above = ZERO;
    for coefficient in f.iter_mut().rev() {
        let here = *coefficient;
        *coefficient = above;
        above = add(here, mul(a, above));
    }
    f.pop();
}

/// The product of q and 1 + cX + .. + (cX)^e, by its recurrence.
fn correct(c: Element, e: usize, q: &[Element]) -> Vec<Element> {
    let minus = sub(ZERO, pow(c, e + 1));
    let mut out = Vec::with_capacity(q.len() + e);
    let mut before = ZERO;
    for i in 0..q.len() + e {
        let here = q.get(i).copied().unwrap_or(ZERO);
        before = add(here, mul(c, before));
        if i > e {
            before = add(before, mul(minus, q[i - e - 1]));
        }
        out.push(before);
    }
    out
}

/// The table of a batch's first function, by the tables of the powers of r that are each table's own.
pub fn combined_table(sheet: &Sheet, bounds: &[u32], r: &[u32], tables: &[u32]) -> Vec<u32> {
    let (powers, r) = (domain(sheet), elements(r)[0]);
    let mut out = vec![ZERO; sheet.n0];
    let mut factors = vec![ZERO; sheet.n0];
    let mut list = vec![ZERO; sheet.d0];
    let mut power = ONE;
    let tables = elements(tables).chunks_exact(sheet.n0);
    for (&bound, entries) in bounds.iter().zip(tables) {
        let count = sheet.d0 - bound as usize + 1;
        list.fill(ZERO);
        for place in &mut list[..count] {
            *place = power;
            power = mul(power, r);
        }
        table(&list, 1, &powers, 0, 1, &mut factors);
        for ((sum, &value), &factor) in out.iter_mut().zip(entries).zip(&factors) {
            *sum = add(*sum, mul(value, factor));
        }
    }
    out.concat()
}

/// The polynomial that a batch's run begins with.
fn combined(d0: usize, bounds: &[u32], r: Element, mut f: &[Element]) -> Vec<Element> {
    let mut out = vec![ZERO; d0];
    let mut power = ONE;
    for &bound in bounds {
        let (part, rest) = f.split_at(bound as usize);
        let above = d0 - part.len();
        for (sum, c) in out.iter_mut().zip(correct(r, above, part)) {
            *sum = add(*sum, mul(power, c));
        }
        power = mul(power, pow(r, above + 1));
        f = rest;
    }
    out
}

/// The honest stream's words after those at its front, for coins that pass their tests; of a batch with its bounds and r.
pub fn stream(
    sheet: &Sheet,
    powers: &[u32],
    mut words: Vec<u32>,
    bounds: &[u32],
    f: &[u32],
    first: &[u32],
    coins: &[u32],
) -> Vec<u32> {
    let write_table = |words: &mut Vec<u32>, i: usize, f: &[Element]| {
        let from = words.len();
        words.resize(from + 4 * sheet.n(i), 0);
        let (places, _) = words[from..].as_chunks_mut();
        table(f, 1, powers, 0, 1 << i, places);
    };
    let fold = |k: usize, r: Element, f: &[Element]| -> Vec<Element> {
        f.chunks_exact(k).map(|c| evaluate(c, r)).collect()
    };

    let mut f = elements(f).to_vec();
    if first.is_empty() {
        write_table(&mut words, 0, &f);
    } else {
        let mut left = &f[..];
        for &bound in bounds {
            let (part, rest) = left.split_at(bound as usize);
            let mut padded = part.to_vec();
            padded.resize(sheet.d0, ZERO);
            write_table(&mut words, 0, &padded);
            left = rest;
        }
        words.extend_from_slice(first);
        f = combined(sheet.d0, bounds, elements(first)[0], &f);
    }
    let (first, mut rest) = coins.split_at(4);
    words.extend_from_slice(first);
    let mut r = elements(first)[0];
    for i in 1..=sheet.rounds {
        let k = sheet.k[i - 1];
        let mut g = fold(k, r, &f);
        let (outs, later) = rest.split_at(4 * sheet.outs);
        let (later, next) = later.split_at(8 + sheet.t[i - 1]);
        write_table(&mut words, i, &g);
        words.extend_from_slice(outs);
        let outs = elements(outs);
        words.extend(outs.iter().flat_map(|&x| evaluate(&g, x)));
        words.extend_from_slice(later);

        let scale = 1 << (i - 1);
        let shifts = later[8..].iter().map(|&j| {
            let point = powers[(k - 1 + k * scale * j as usize) % powers.len()];
            [point, 0, 0, 0]
        });
        let mut seen = Vec::with_capacity(sheet.outs + later.len());
        for x in outs.iter().copied().chain(shifts) {
            if !seen.contains(&x) {
                seen.push(x);
            }
        }
        for &a in &seen {
            divide_by(&mut g, a);
        }
        let coins = elements(&later[..8]);
        f = correct(coins[0], seen.len(), &g);
        r = coins[1];
        rest = next;
    }
    words.extend(fold(sheet.k[sheet.rounds], r, &f).concat());
    words.extend_from_slice(rest);
    words
}
