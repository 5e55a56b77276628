//! From one edition to the other (document 02, CR 5).
//!
//! The words after the sheet stay; what becomes of the rest is worked out from the
//! sheet that was read, and the blocks are cut anew.

use crate::prove::{test_room, write_blocks, Answer};
use crate::sheet::{Edition, Sheet, SHEET_WORDS};
use crate::verify::{read, Reading};
use crate::Fault;

/// Writes a file of edition 1 as one of edition 2.
pub fn to_edition_2(file: &[u8], output: &mut [u8]) -> Answer {
    convert_to(Edition::Two, file, output)
}

/// Writes a file of edition 2 whose folding numbers are all equal as one of
/// edition 1.
pub fn to_edition_1(file: &[u8], output: &mut [u8]) -> Answer {
    convert_to(Edition::One, file, output)
}

/// Writes a file of the other edition as one of this.
pub fn convert_to(edition: Edition, file: &[u8], output: &mut [u8]) -> Answer {
    let written = read(edition.other(), file).and_then(|Reading { sheet, stream, .. }| {
        let (words, body) = stream.split_at(edition.other().sheet_words());
        let sheet = match edition {
            Edition::One => without_folds(&sheet, words)?,
            Edition::Two => with_equal_folds(words),
        };
        let stream = [&sheet, body].concat();
        test_room(stream.len(), output.len())?;
        Ok(write_blocks(&stream, output))
    });
    written.into()
}

/// Test 13, and the sheet of edition 1.
fn without_folds(sheet: &Sheet, words: &[u32]) -> Result<Vec<u32>, Fault> {
    let folds = sheet.folds();
    match folds.iter().position(|&k| k != folds[0]) {
        Some(i) => Err(Fault::new(13, i)),
        None => Ok(words[..SHEET_WORDS].to_vec()),
    }
}

/// The sheet of edition 2 that says what a sheet of edition 1 without fault does:
/// k_1 to k_5 are k up to k_M and zero past it, and word 17 is 2.
pub fn with_equal_folds(sheet: &[u32]) -> Vec<u32> {
    let (k, rounds) = (sheet[3], sheet[4] as usize);
    let mut later = [0, 0, 0, 0, 0, 2];
    later[..rounds].fill(k);
    [sheet, &later].concat()
}
