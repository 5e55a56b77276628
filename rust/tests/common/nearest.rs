//! The nearest polynomial, searched in the archive and in the model.

use super::{agree, refused};
use tevrolig::nearest::find;
use tevrolig_model::generate::nearest::Case;
use tevrolig_model::{nearest, Answer};

/// A sheet of this field, n0 and d0, without rounds.
pub fn sheet(field: u32, n0: u32, d0: u32) -> [u32; 12] {
    [field, n0, d0, 2, 0, 1, 1, 0, 0, 0, 0, 0]
}

/// The most wrong points that a sheet without fault allows.
pub fn most_wrong(sheet: &[u32]) -> usize {
    (sheet[1] - sheet[2]) as usize / 2
}

/// Both answers to a case, which are equal, as are the outputs with what stands around them. Where the way it was made says what is due, that takes the place of the
/// model's answer, which the model's own tests compare with it.
pub fn search(case: &Case, what: &str) -> Answer {
    let (answer, _) = agree(
        |i| 0x9E37_79B9_u32.wrapping_mul((i + case.length) as u32),
        case.length,
        |output| archive(case, output, what),
        |output| match &case.due {
            Some(Ok(words)) => {
                output[..words.len()].copy_from_slice(words);
                Answer::Done(words.len() as u64)
            }
            Some(Err(fault)) => refused((fault.number, fault.place as usize)),
            None => nearest(&case.sheet, &case.table, output),
        },
        |words| words as usize,
        what,
    );
    answer
}

/// The archive's answer in the model's terms. What is found are parts of the output, with the count between them; sheet and table are only read.
fn archive(case: &Case, output: &mut [u32], what: &str) -> Answer {
    let (sheet, table) = (case.sheet.clone(), case.table.clone());
    let answer = match find(&sheet, &table, output) {
        Ok(found) => {
            let (coefficients, wrong) = (found.coefficients.to_vec(), found.wrong.to_vec());
            let count = vec![wrong.len() as u32];
            let words = [coefficients, count, wrong].concat();
            assert_eq!(output[..words.len()], words, "{what}: the parts");
            Answer::Done(words.len() as u64)
        }
        Err(refusal) => refused((refusal.number(), refusal.place() as usize)),
    };
    assert!(
        sheet == case.sheet && table == case.table,
        "{what}: the input changed"
    );
    answer
}
