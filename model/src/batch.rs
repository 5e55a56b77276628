//! Batches: several polynomials in one run (document 02, CR 9). A batch has a sheet of
//! edition 1 and operations of its own; nothing in the bytes of a file tells it from a
//! plain one.

use crate::elements::{Elements, Quartic};
use crate::field::QUARTIC;
use crate::layout::{Layout, Part};
use crate::polynomial::{correction, multiply};
use crate::prove::{test_sheet, write_blocks, Answer, Order, Request};
use crate::sheet::{Edition, Sheet, SHEET_WORDS};
use crate::stream::{byte_offset, read_word};
use crate::verify::{decide_read, read_body, read_sheet, Places, Reading, Verdict};
use crate::Fault;

/// Most tables of a batch.
pub const MOST_TABLES: usize = 8;
/// Most words of all tables of a batch.
pub const MOST_WORDS: usize = 8192;

/// Verifies a batch given as a file of any bytes.
pub fn verify_batch(file: &[u8]) -> Verdict {
    opened_in_batch(file).0
}

/// The verdict, and the places that the count of reads is of.
pub fn opened_in_batch(file: &[u8]) -> (Verdict, Places) {
    decide_read(read_batch(file))
}

/// Tests 1 to 3, 15, and 4 to 6.
fn read_batch(file: &[u8]) -> Result<Reading, Fault> {
    let sheet = read_sheet(Edition::One, file)?;
    let count = read_word(file, SHEET_WORDS);
    // Past its number the bounds are those that it announces; up to 8 stand in any block.
    let announced = (count as usize).min(MOST_TABLES);
    let bounds: Vec<u32> = (1..=announced)
        .map(|m| read_word(file, SHEET_WORDS + m))
        .collect();
    debug_assert!(byte_offset(SHEET_WORDS + MOST_TABLES) + 4 <= file.len());
    test_batch(&sheet, count as usize, &bounds)?;
    let layout = Layout::of_batch(&sheet, bounds.len());
    read_body(sheet, layout, file)
}

/// Test 15: the number of tables, then each bound, by its own number from 1.
fn test_batch(sheet: &Sheet, count: usize, bounds: &[u32]) -> Result<(), Fault> {
    let words = |count: usize| count * sheet.n0 * sheet.width;
    if !(1..=MOST_TABLES).contains(&count) || words(count) > MOST_WORDS {
        return Err(Fault::new(15, 0));
    }
    let wrong = |&bound: &u32| bound == 0 || bound as usize > sheet.d0;
    match bounds.iter().position(wrong) {
        Some(at) => Err(Fault::new(15, at + 1)),
        None => Ok(()),
    }
}

/// What each table is multiplied by, as a polynomial: with e_m = d0 - b_m the powers of r
/// from number m - 1 + e_1 + .. + e_(m-1) on, one more than e_m. Each goes on where the
/// one before it ends.
pub(crate) fn terms<F: Elements>(
    field: F,
    d0: usize,
    bounds: &[u32],
    r: F::Element,
) -> Vec<Vec<F::Element>> {
    let above: Vec<usize> = bounds.iter().map(|&bound| d0 - bound as usize).collect();
    let all: usize = above.iter().sum::<usize>() + bounds.len();
    let powers = correction(field, r, all);
    let mut from = 0;
    let mut term = |&e: &usize| {
        let powers = powers[from..=from + e].to_vec();
        from += e + 1;
        powers
    };
    above.iter().map(&mut term).collect()
}

/// Writes the honest batch for the bounds, the coefficients table by table, and the coins,
/// of which r is the first.
pub fn prove_batch(
    sheet: &[u32],
    bounds: &[u32],
    coefficients: &[u32],
    coins: &[u32],
    output: &mut [u8],
) -> Answer {
    let written = tested(sheet, bounds, coefficients).and_then(|known| {
        let mut front = sheet.to_vec();
        front.push(bounds.len() as u32);
        front.extend(bounds);
        let order = Order {
            layout: Layout::of_batch(&known, bounds.len()),
            front: &front,
            coefficients,
            coins,
            bytes: output.len(),
        };
        let stream = match known.width {
            Quartic::WIDTH => run(order.request(QUARTIC, known)?, bounds, coefficients),
            _ => run(order.request(known.field, known)?, bounds, coefficients),
        };
        Ok(write_blocks(&stream, output))
    });
    written.into()
}

/// The tests before those of the coins: sheet, 15, and the number of coefficients.
fn tested(sheet: &[u32], bounds: &[u32], coefficients: &[u32]) -> Result<Sheet, Fault> {
    let sheet = test_sheet(Edition::One, sheet)?;
    test_batch(&sheet, bounds.len(), bounds)?;
    let due: usize = bounds.iter().map(|&bound| bound as usize).sum();
    if coefficients.len() != sheet.width * due {
        return Err(Fault::new(10, 1));
    }
    Ok(sheet)
}

/// The stream of a request without fault.
fn run<F: Elements>(mut request: Request<F>, bounds: &[u32], coefficients: &[u32]) -> Vec<u32> {
    let field = request.field;
    let r = request.read(Part::BatchCoin)[0];
    let mut combined = vec![field.number(0); request.sheet.d0];
    let mut left = &field.list(coefficients)[..];
    let terms = terms(field, request.sheet.d0, bounds, r);
    for ((m, &bound), term) in (1..).zip(bounds).zip(terms) {
        let polynomial;
        (polynomial, left) = left.split_at(bound as usize);
        let table = request.subgroup.table(field, 0, polynomial);
        request.send(Part::BatchTable(m), &table);
        for (sum, c) in combined.iter_mut().zip(multiply(field, polynomial, &term)) {
            *sum = field.add(*sum, c);
        }
    }
    request.run_from(combined);
    request.stream
}
