//! Refusals 1 to 7, and 14. The rules of the sheet are the model's.

use super::CHECK_MODULUS;
use crate::sheet::{Edition, Sheet};
use crate::stream::{BLOCK_BYTES, BLOCK_WORDS};
use crate::{Outcome, Verdict};

pub(super) fn refused(number: u32, place: usize, reads: usize) -> Verdict {
    Verdict {
        outcome: Outcome::Refused {
            number,
            place: place as u64,
        },
        reads: reads as u64,
    }
}

/// The words of a file whose checks are right, or the first block whose check is not.
fn load(file: &[u8]) -> Result<Vec<u32>, usize> {
    let mut words = Vec::with_capacity(file.len() / 4);
    for (b, block) in file.chunks_exact(BLOCK_BYTES).enumerate() {
        let mut sum = b as u64 + 1;
        for (w, bytes) in block[..4 * BLOCK_WORDS].chunks_exact(4).enumerate() {
            let word = u32::from_le_bytes(bytes.try_into().expect("four bytes"));
            sum += (w as u64 + 1) * u64::from(word);
            words.push(word);
        }
        let check = block[4 * BLOCK_WORDS..].try_into().expect("four bytes");
        if u64::from(u32::from_le_bytes(check)) != sum % CHECK_MODULUS {
            return Err(b);
        }
    }
    Ok(words)
}

pub(super) fn words_due(sheet: &Sheet) -> usize {
    let rounds: usize = (1..=sheet.rounds)
        .map(|i| sheet.width * (sheet.n(i) + 2 * sheet.outs + 2) + sheet.t[i - 1])
        .sum();
    let before = sheet.edition.sheet_words() + sheet.width * (sheet.n0 + 1);
    before + rounds + sheet.width * sheet.d[sheet.rounds + 1] + sheet.t[sheet.rounds]
}

/// Refusal 5: round after round, elements and then indices.
fn out_of_range(sheet: &Sheet, words: &[u32]) -> Option<usize> {
    let mut at = sheet.edition.sheet_words();
    for round in 0..=sheet.rounds + 1 {
        let (elements, indices, limit) = match round {
            0 => (sheet.n0 + 1, 0, 0),
            i => {
                let elements = if i <= sheet.rounds {
                    sheet.n(i) + 2 * sheet.outs + 2
                } else {
                    sheet.d[i]
                };
                (elements, sheet.t[i - 1], sheet.indices(i - 1))
            }
        };
        let elements = sheet.width * elements;
        for j in 0..elements + indices {
            let limit = if j < elements {
                sheet.field.p
            } else {
                limit as u64
            };
            if u64::from(words[at]) >= limit {
                return Some(at);
            }
            at += 1;
        }
    }
    None
}

/// Refusals 1 to 3: the sheet and the words of a file that passes them.
pub(super) fn load_sheet(edition: Edition, file: &[u8]) -> Result<(Sheet, Vec<u32>), Verdict> {
    if file.is_empty() || !file.len().is_multiple_of(BLOCK_BYTES) {
        return Err(refused(1, 0, 0));
    }
    let words = load(file).map_err(|block| refused(2, block, 0))?;
    let sheet = Sheet::read_in(edition, &words[..edition.sheet_words()]);
    let sheet = sheet.expect("the sheet's words");
    match sheet {
        Ok(sheet) => Ok((sheet, words)),
        Err(place) => Err(refused(3, place, 0)),
    }
}

/// Refusal 4, where so many words are due.
pub(super) fn blocks_due(file: &[u8], words: usize) -> Result<(), Verdict> {
    let blocks = words.div_ceil(BLOCK_WORDS);
    if file.len() / BLOCK_BYTES != blocks {
        return Err(refused(4, blocks, 0));
    }
    Ok(())
}

/// Refusals 5 and 6: the number and the place.
pub(super) fn wrong_word(sheet: &Sheet, words: &[u32]) -> Option<(u32, usize)> {
    if let Some(place) = out_of_range(sheet, words) {
        return Some((5, place));
    }
    let due = words_due(sheet);
    let fill = words[due..].iter().position(|&word| word != 0)?;
    Some((6, due + fill))
}

/// Refusals 1 to 6: the sheet and the words of a file that passes them.
pub(super) fn read(edition: Edition, file: &[u8]) -> Result<(Sheet, Vec<u32>), Verdict> {
    let (sheet, words) = load_sheet(edition, file)?;
    blocks_due(file, words_due(&sheet))?;
    match wrong_word(&sheet, &words) {
        Some((number, place)) => Err(refused(number, place, 0)),
        None => Ok((sheet, words)),
    }
}

/// Each round with the place of its first out coin.
fn outs(sheet: &Sheet) -> impl Iterator<Item = (usize, usize)> + '_ {
    let width = sheet.width;
    let mut at = sheet.edition.sheet_words() + width * (sheet.n0 + 1);
    (1..=sheet.rounds).map(move |i| {
        let outs = at + width * sheet.n(i);
        at = outs + width * (2 * sheet.outs + 2) + sheet.t[i - 1];
        (i, outs)
    })
}

/// Refusal 7: the first out coin that lies in its round's domain.
pub(super) fn out_in_domain(powers: &[u32], sheet: &Sheet, words: &[u32]) -> Option<usize> {
    let width = sheet.width;
    outs(sheet).find_map(|(i, first)| {
        let inside = |&place: &usize| {
            words[place + 1..place + width].iter().all(|&x| x == 0)
                && powers.iter().step_by(1 << i).any(|&x| x == words[place])
        };
        (first..first + width * sheet.outs)
            .step_by(width)
            .find(inside)
    })
}

/// Refusal 14: the first out coin that equals the one before it in its round.
pub(super) fn equal_out(sheet: &Sheet, words: &[u32]) -> Option<usize> {
    let width = sheet.width;
    let equal = |&(_, first): &(usize, usize)| {
        let (one, other) = words[first..first + 2 * width].split_at(width);
        one == other
    };
    let round = outs(sheet).find(|round| sheet.outs == 2 && equal(round));
    round.map(|(_, first)| first + width)
}
