//! Polynomials as coefficient lists, lowest first, zeros included
//! (document 01, "Fold, quotient, correction").

use crate::elements::Elements;
use std::collections::BTreeMap;

/// The points of a round's G, each with its one value.
pub type Pairs<E = u64> = BTreeMap<E, E>;

/// The sum of c_j·x^j.
pub fn evaluate<F: Elements>(field: F, coefficients: &[F::Element], x: F::Element) -> F::Element {
    let mut power = field.number(1);
    let mut value = field.number(0);
    for &c in coefficients {
        value = field.add(value, field.mul(c, power));
        power = field.mul(power, x);
    }
    value
}

/// a - b for b no longer than a.
pub fn subtract<F: Elements>(field: F, a: &[F::Element], b: &[F::Element]) -> Vec<F::Element> {
    let padded = b.iter().copied().chain(std::iter::repeat(field.number(0)));
    a.iter()
        .zip(padded)
        .map(|(&x, y)| field.sub(x, y))
        .collect()
}

/// The product of two lists that are not empty.
pub fn multiply<F: Elements>(field: F, a: &[F::Element], b: &[F::Element]) -> Vec<F::Element> {
    let mut product = vec![field.number(0); a.len() + b.len() - 1];
    for (i, &x) in a.iter().enumerate() {
        for (j, &y) in b.iter().enumerate() {
            product[i + j] = field.add(product[i + j], field.mul(x, y));
        }
    }
    product
}

/// Long division by a monic polynomial: quotient and remainder.
pub fn divide<F: Elements>(
    field: F,
    dividend: &[F::Element],
    divisor: &[F::Element],
) -> (Vec<F::Element>, Vec<F::Element>) {
    let degree = divisor.len() - 1;
    let mut rest = dividend.to_vec();
    let mut quotient = vec![field.number(0); dividend.len().saturating_sub(degree)];
    for at in (0..quotient.len()).rev() {
        let factor = rest[at + degree];
        quotient[at] = factor;
        for (l, &c) in divisor.iter().enumerate() {
            rest[at + l] = field.sub(rest[at + l], field.mul(factor, c));
        }
    }
    rest.truncate(degree);
    (quotient, rest)
}

/// X - a.
fn factor<F: Elements>(field: F, a: F::Element) -> [F::Element; 2] {
    [field.sub(field.number(0), a), field.number(1)]
}

/// V, the product of (X - a) over the points.
pub fn vanishing<F: Elements>(
    field: F,
    points: impl IntoIterator<Item = F::Element>,
) -> Vec<F::Element> {
    let one = field.number(1);
    points.into_iter().fold(vec![one], |product, a| {
        multiply(field, &product, &factor(field, a))
    })
}

/// A, the polynomial of degree below |G| through the pairs: the sum over G of
/// value · L_a / L_a(a), where L_a = V / (X - a).
pub fn interpolate<F: Elements>(field: F, pairs: &Pairs<F::Element>) -> Vec<F::Element> {
    let all = vanishing(field, pairs.keys().copied());
    let mut answer = vec![field.number(0); pairs.len()];
    for (&a, &value) in pairs {
        let (basis, _) = divide(field, &all, &factor(field, a));
        let scale = field.div(value, evaluate(field, &basis, a));
        for (total, &c) in answer.iter_mut().zip(&basis) {
            *total = field.add(*total, field.mul(scale, c));
        }
    }
    answer
}

/// The polynomial through the points and values, taken at x, as a Lagrange sum
/// without any division by x - a: x may be one of the points.
pub fn interpolate_at<F: Elements>(
    field: F,
    points: &[F::Element],
    values: &[F::Element],
    x: F::Element,
) -> F::Element {
    let mut total = field.number(0);
    for (i, (&a, &value)) in points.iter().zip(values).enumerate() {
        let (mut above, mut below) = (value, field.number(1));
        for (j, &b) in points.iter().enumerate() {
            if i != j {
                above = field.mul(above, field.sub(x, b));
                below = field.mul(below, field.sub(a, b));
            }
        }
        total = field.add(total, field.div(above, below));
    }
    total
}

/// The fold at r: coefficient l is the sum of r^m·f[l·k + m], m below k.
pub fn fold<F: Elements>(
    field: F,
    coefficients: &[F::Element],
    k: usize,
    r: F::Element,
) -> Vec<F::Element> {
    coefficients
        .chunks(k)
        .map(|part| evaluate(field, part, r))
        .collect()
}

/// 1, c, c^2, ..., c^e: the correction's e + 1 coefficients.
pub fn correction<F: Elements>(field: F, c: F::Element, e: usize) -> Vec<F::Element> {
    let one = field.number(1);
    std::iter::successors(Some(one), |&power| Some(field.mul(power, c)))
        .take(e + 1)
        .collect()
}

/// 1 + cx + (cx)^2 + ... + (cx)^e, which is e + 1 terms.
pub fn correction_at<F: Elements>(field: F, c: F::Element, x: F::Element, e: usize) -> F::Element {
    let cx = field.mul(c, x);
    correction(field, cx, e)
        .into_iter()
        .fold(field.number(0), |sum, term| field.add(sum, term))
}
