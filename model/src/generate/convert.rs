//! Files for the converter (document 02, CR 5), with the answer that they are made
//! for.

use super::{aim, coefficients, coins, honest_file, sheet_up_to, Rng, REFUSALS};
use crate::convert::with_equal_folds;
use crate::layout::Layout;
use crate::sheet::{Edition, Sheet};
use crate::stream::{BLOCK_BYTES, BLOCK_WORDS};
use std::collections::BTreeSet;

/// What a converter is given, and what it answers by the way it was made.
#[derive(Debug, Clone)]
pub struct Case {
    pub file: Vec<u8>,
    /// Bytes of the output.
    pub length: usize,
    /// Blocks that the other edition takes.
    pub blocks: usize,
    /// The number of the refusal due, or none.
    pub refused: Option<u32>,
    /// The numbers of all faults that the file has.
    pub faults: Vec<u32>,
}

/// The converter's tests, in their order; those of a verdict that it does not
/// make are 7, 14, 8 and 9.
const TESTS: [u32; 8] = [1, 2, 3, 4, 5, 6, 13, 11];

/// A file to convert to this edition, with up to three faults; on the way to edition
/// 1 different folding numbers are one of them.
pub fn case(to: Edition, rng: &mut Rng, most_n0: u32) -> Case {
    let mut sheet = sheet_up_to(Edition::One, rng, most_n0);
    if to == Edition::One {
        sheet = with_equal_folds(&sheet);
        if rng.one_in(3) {
            // Most small sheets have no two folding numbers that differ.
            for _ in 0..8 {
                sheet = sheet_up_to(Edition::Two, rng, most_n0);
                if sheet[4] > 0 && sheet[12] != sheet[3] {
                    break;
                }
            }
        }
    }
    case_of(rng, &sheet)
}

/// An honest file of a sheet without fault, damaged on purpose or not.
fn case_of(rng: &mut Rng, words: &[u32]) -> Case {
    let sheet = Sheet::read(words).expect("a sheet without fault");
    let coefficients = coefficients(rng, words);
    let hostile = rng.one_in(2);
    let coins = coins(rng, words, hostile);
    let mut file = honest_file(words, &coefficients, &coins);

    let stream = Layout::new(&sheet).words();
    let converted = match sheet.edition {
        Edition::One => stream + 6,
        Edition::Two => stream - 6,
    };
    let blocks = converted.div_ceil(BLOCK_WORDS);
    let due = blocks * BLOCK_BYTES;
    let mut length = due + rng.pick(&[0, 0, 1, 700]);

    let mut faults = Vec::new();
    if sheet.folds().iter().any(|k| k != &sheet.k[0]) {
        faults.push(13);
    }
    if rng.one_in(3) {
        length = rng.pick(&[due - 1, due - 1, 0, due - BLOCK_BYTES]);
        faults.push(11);
    }
    // Later tests are made to fail first, so that what an earlier one needs stands.
    let some = rng.place(3);
    let turns: BTreeSet<usize> = (0..some).map(|_| rng.place(REFUSALS.len())).collect();
    for turn in turns.into_iter().rev() {
        let number = REFUSALS[turn];
        if aim(sheet.edition, rng, &mut file, number) {
            faults.push(number);
        }
    }
    let refused = TESTS.into_iter().find(|number| faults.contains(number));
    Case {
        file,
        length,
        blocks,
        refused,
        faults,
    }
}
