//! The nearest polynomial to a table (document 02, CR 14), by Berlekamp and Welch: with at most
//! t wrong points there are polynomials E of degree at most t and Q of degree below d + t, not
//! both 0, with Q(x) = y·E(x) at every point x with its entry y. They are found by elimination,
//! in n³ steps; and if a polynomial is near at all it is Q/E, whichever pair was found.
//!
//! Elements of four words are treated as what they are, and not word by word.

use crate::domain::Subgroup;
use crate::elements::{Elements, Quartic};
use crate::field::QUARTIC;
use crate::polynomial::{divide, evaluate};
use crate::prove::{test_elements, test_sheet, Answer};
use crate::sheet::{Edition, Sheet};
use crate::Fault;

/// Finds the polynomial of degree below d0 that differs from table 0 in at most (n0 - d0)/2
/// points, and writes its coefficients, the count of these points and their numbers.
pub fn nearest(sheet: &[u32], table: &[u32], output: &mut [u32]) -> Answer {
    let found = test_sheet(Edition::One, sheet).and_then(|sheet| {
        if table.len() != sheet.width * sheet.n0 {
            return Err(Fault::new(10, 1));
        }
        let due = most_words(&sheet);
        test_elements(table, sheet.field.p, due, output.len())?;
        let words = match sheet.width {
            Quartic::WIDTH => words_for(QUARTIC, &sheet, table),
            _ => words_for(sheet.field, &sheet, table),
        };
        words.ok_or(Fault::new(19, 0))
    });
    let written = found.map(|words| {
        output[..words.len()].copy_from_slice(&words);
        words.len()
    });
    written.into()
}

/// The most points where a polynomial may differ that counts as near.
pub fn most_wrong(sheet: &Sheet) -> usize {
    (sheet.n0 - sheet.d0) / 2
}

/// The most words that may be written.
pub fn most_words(sheet: &Sheet) -> usize {
    sheet.width * sheet.d0 + 1 + most_wrong(sheet)
}

/// The words written for a table in range, if a polynomial is near.
fn words_for<F: Elements>(field: F, sheet: &Sheet, table: &[u32]) -> Option<Vec<u32>> {
    let points = Subgroup::of(sheet).domain(0);
    let points: Vec<F::Element> = points.into_iter().map(|x| field.number(x)).collect();
    let (f, wrong) = decode(field, &points, &field.list(table), sheet.d0)?;
    let mut words: Vec<u32> = f.into_iter().flat_map(|c| field.words(c)).collect();
    words.push(wrong.len() as u32);
    words.extend(wrong.into_iter().map(|j| j as u32));
    Some(words)
}

/// The d coefficients of a polynomial that differs from the values in at most (n - d)/2 of the n
/// points, which are different, and the numbers of those where it does.
pub fn decode<F: Elements>(
    field: F,
    points: &[F::Element],
    values: &[F::Element],
    d: usize,
) -> Option<(Vec<F::Element>, Vec<usize>)> {
    let zero = field.number(0);
    let most = (points.len() - d) / 2;
    // A row for each point: the powers of x for the coefficients of Q, then those of x times -y
    // for the coefficients of E.
    let rows = points.iter().zip(values).map(|(&x, &y)| {
        let power = |exponent: usize| field.pow(x, exponent as u64);
        let minus = field.sub(zero, y);
        let q = (0..d + most).map(power);
        let e = (0..=most).map(|exponent| field.mul(minus, power(exponent)));
        q.chain(e).collect()
    });
    let solution = some_solution(field, rows.collect());
    let (q, e) = solution.split_at(d + most);
    let top = e.iter().rposition(|&c| c != zero);
    let top = top.expect("Q by itself would have more roots than its degree");
    let monic =
        |f: &[F::Element]| -> Vec<F::Element> { f.iter().map(|&c| field.div(c, e[top])).collect() };
    let (mut f, remainder) = divide(field, &monic(q), &monic(&e[..=top]));
    let high = f.iter().skip(d).chain(&remainder);
    if high.into_iter().any(|&c| c != zero) {
        return None;
    }
    f.resize(d, zero);
    let differs = |&j: &usize| evaluate(field, &f, points[j]) != values[j];
    let wrong: Vec<usize> = (0..points.len()).filter(differs).collect();
    (wrong.len() <= most).then_some((f, wrong))
}

/// A solution other than 0 of equations whose right sides are 0, each given by its coefficients,
/// of which there are more than equations: by elimination up to the first unknown that may be
/// chosen, which is 1, with 0 for those after it.
fn some_solution<F: Elements>(field: F, mut rows: Vec<Vec<F::Element>>) -> Vec<F::Element> {
    let (zero, one) = (field.number(0), field.number(1));
    let unknowns = rows[0].len();
    let mut at = 0;
    while let Some(pivot) = (at..rows.len()).find(|&row| rows[row][at] != zero) {
        rows.swap(at, pivot);
        let scale = field.div(one, rows[at][at]);
        let lead: Vec<F::Element> = rows[at].iter().map(|&c| field.mul(scale, c)).collect();
        for row in &mut rows {
            let factor = row[at];
            // All before this place are 0 in the row that is taken away.
            for (value, &c) in row.iter_mut().zip(&lead).skip(at) {
                *value = field.sub(*value, field.mul(factor, c));
            }
        }
        rows[at] = lead;
        at += 1;
    }
    let mut solution: Vec<F::Element> = (0..at).map(|row| field.sub(zero, rows[row][at])).collect();
    solution.push(one);
    solution.resize(unknowns, zero);
    solution
}
