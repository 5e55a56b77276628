//! Verify, prove and encode where elements have four words, in plain Rust: a product is four sums with a remainder each, and three before them for what X⁴ and more are.

mod prove;
mod verify;

use super::{points, Prime};
use crate::sheet::Sheet;
use std::array::from_fn;

pub use prove::{combined_table, encode, stream};
pub use verify::decide;

/// The prime of the words.
const P: u64 = 2013265921;
const WORDS: Prime<P, false> = Prime;

/// a + bX + cX² + dX³, where X⁴ = 11.
type Element = [u32; 4];

const ZERO: Element = [0; 4];
const ONE: Element = [1, 0, 0, 0];
/// The inverse of two.
const HALF: u32 = Prime::<P, false>::HALF;

fn add(x: Element, y: Element) -> Element {
    from_fn(|i| WORDS.add(x[i], y[i]))
}

fn sub(x: Element, y: Element) -> Element {
    from_fn(|i| WORDS.sub(x[i], y[i]))
}

fn mul(x: Element, y: Element) -> Element {
    let [a, b, c, d] = x.map(u64::from);
    let [e, f, g, h] = y.map(u64::from);
    let words = [
        a * e + 11 * ((b * h + c * g + d * f) % P),
        a * f + b * e + 11 * ((c * h + d * g) % P),
        a * g + b * f + c * e + 11 * (d * h % P),
        a * h + b * g + c * f + d * e,
    ];
    words.map(|word| (word % P) as u32)
}

/// A word times an element.
fn scale(k: u32, x: Element) -> Element {
    x.map(|word| WORDS.mul(k, word))
}

/// x + k·y for a word k.
fn add_scaled(x: Element, k: u32, y: Element) -> Element {
    from_fn(|i| WORDS.add(x[i], WORDS.mul(k, y[i])))
}

/// The inverse of an element other than 0: its product with a - bX + cX² - dX³ is n + mX², and that with n - mX² a word.
fn inv(x: Element) -> Element {
    let [a, b, c, d] = x;
    let turned = [a, WORDS.sub(0, b), c, WORDS.sub(0, d)];
    let [n, _, m, _] = mul(x, turned);
    let other = [n, 0, WORDS.sub(0, m), 0];
    let [norm, ..] = mul([n, 0, m, 0], other);
    scale(WORDS.inv(norm), mul(turned, other))
}

fn pow(mut base: Element, mut exponent: usize) -> Element {
    let mut result = ONE;
    while exponent > 0 {
        if exponent & 1 == 1 {
            result = mul(result, base);
        }
        base = mul(base, base);
        exponent >>= 1;
    }
    result
}

/// The value at x of a polynomial, by Horner's rule.
fn evaluate(coefficients: &[Element], x: Element) -> Element {
    let terms = coefficients.iter().rev();
    terms.fold(ZERO, |sum, &c| add(c, mul(x, sum)))
}

/// The table of the polynomial whose coefficients stand in `f` at every `stride`-th place, over the points that stand in `powers` at every
/// `step`-th place from `at` on: from its even and its odd half, whose points are the squares.
fn table(
    f: &[Element],
    stride: usize,
    powers: &[u32],
    at: usize,
    step: usize,
    out: &mut [Element],
) {
    if f.len() <= stride {
        out.fill(f[0]);
        return;
    }
    let half = out.len() / 2;
    let (even, odd) = out.split_at_mut(half);
    table(f, 2 * stride, powers, 2 * at + 1, 2 * step, even);
    table(&f[stride..], 2 * stride, powers, 2 * at + 1, 2 * step, odd);
    for j in 0..half {
        let (e, o) = (even[j], odd[j]);
        even[j] = add_scaled(e, powers[at + step * j], o);
        odd[j] = add_scaled(e, powers[at + step * (half + j)], o);
    }
}

/// The elements that words spell.
fn elements(words: &[u32]) -> &[Element] {
    words.as_chunks().0
}

/// The points of domain 0.
fn domain(sheet: &Sheet) -> Vec<u32> {
    points(WORDS, sheet.field.g as u32, sheet.n0)
}
