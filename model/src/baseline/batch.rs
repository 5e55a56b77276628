//! Batches: their tables or polynomials are combined, then it goes on as with a plain file, from fold coin 0 on. A table is multiplied by the table of the powers of r
//! that are its own, as the proved code has it.

use super::prove::blocks;
use super::reading::{blocks_due, load_sheet, refused, words_due, wrong_word};
use super::verify::{decide_in, different, Correction};
use super::{four_words, points, Prime};
use crate::batch::{MOST_TABLES, MOST_WORDS};
use crate::sheet::{Edition, Sheet, SHEET_WORDS};
use crate::{Outcome, Verdict};

impl<const P: u64, const TUNED: bool> Prime<P, TUNED> {
    /// The table of the first function.
    fn combined_table(self, sheet: &Sheet, bounds: &[u32], r: u32, tables: &[u32]) -> Vec<u32> {
        let powers = points(self, sheet.field.g as u32, sheet.n0);
        let mut out = vec![0; sheet.n0];
        let mut factors = vec![0; sheet.n0];
        let mut list = vec![0; sheet.d0];
        let mut power = 1;
        for (&bound, table) in bounds.iter().zip(tables.chunks_exact(sheet.n0)) {
            let count = sheet.d0 - bound as usize + 1;
            list.fill(0);
            for place in &mut list[..count] {
                *place = power;
                power = self.mul(power, r);
            }
            self.table(&list, 1, &powers, 0, 1, &mut factors);
            for ((sum, &value), &factor) in out.iter_mut().zip(table).zip(&factors) {
                *sum = self.add_product(*sum, value, factor);
            }
        }
        out
    }

    /// The polynomial that the run begins with.
    pub(super) fn combined(self, d0: usize, bounds: &[u32], r: u32, mut f: &[u32]) -> Vec<u32> {
        let mut out = vec![0; d0];
        let mut power = 1;
        for &bound in bounds {
            let (part, rest) = f.split_at(bound as usize);
            let above = d0 - part.len();
            for (sum, c) in out.iter_mut().zip(self.correct(r, above, part)) {
                *sum = self.add_product(*sum, power, c);
            }
            power = self.mul(power, self.pow(r, above as u64 + 1));
            f = rest;
        }
        out
    }
}

/// Refusal 15: the place.
fn wrong_bound(sheet: &Sheet, count: usize, bounds: &[u32]) -> Option<usize> {
    let few = (1..=MOST_TABLES).contains(&count);
    if !few || count * sheet.n0 * sheet.width > MOST_WORDS {
        return Some(0);
    }
    let wrong = |&bound: &u32| bound == 0 || bound as usize > sheet.d0;
    bounds.iter().position(wrong).map(|at| at + 1)
}

/// A batch as the words of a plain file, with its number of tables, and how much higher the numbers of words are in the batch.
struct Plain {
    sheet: Sheet,
    words: Vec<u32>,
    count: usize,
    higher: usize,
}

/// Refusals 1 to 3, 15, and 4 to 6.
fn read<const TUNED: bool>(file: &[u8]) -> Result<Plain, Verdict> {
    let (sheet, words) = load_sheet(Edition::One, file)?;
    let count = words[SHEET_WORDS] as usize;
    let front = SHEET_WORDS + 1;
    let bounds = &words[front..front + count.min(MOST_TABLES)];
    if let Some(place) = wrong_bound(&sheet, count, bounds) {
        return Err(refused(15, place, 0));
    }
    let width = sheet.width;
    let higher = 1 + count + width * ((count - 1) * sheet.n0 + 1);
    blocks_due(file, words_due(&sheet) + higher)?;
    let from = front + count;
    let at = from + width * count * sheet.n0;
    let (tables, r) = (&words[from..at], &words[at..at + width]);
    let large = |&word: &u32| u64::from(word) >= sheet.field.p;
    if let Some(place) = words[from..at + width].iter().position(large) {
        return Err(refused(5, from + place, 0));
    }
    let combined = match sheet.field.p {
        _ if width == 4 => four_words::combined_table(&sheet, bounds, r, tables),
        17 => Prime::<17, TUNED>.combined_table(&sheet, bounds, r[0], tables),
        65537 => Prime::<65537, TUNED>.combined_table(&sheet, bounds, r[0], tables),
        _ => Prime::<2013265921, TUNED>.combined_table(&sheet, bounds, r[0], tables),
    };
    let words = [&words[..SHEET_WORDS], &combined, &words[at + width..]].concat();
    match wrong_word(&sheet, &words) {
        Some((number, place)) => Err(refused(number, place + higher, 0)),
        None => Ok(Plain {
            sheet,
            words,
            count,
            higher,
        }),
    }
}

impl Plain {
    /// What a verdict on the words says of the batch: the numbers of words are higher, and each place of level 0 counts in every table.
    fn of_batch(&self, verdict: Verdict) -> Verdict {
        let sheet = &self.sheet;
        let outcome = match verdict.outcome {
            Outcome::Refused { number, place } if number == 7 || number == 14 => Outcome::Refused {
                number,
                place: place + self.higher as u64,
            },
            other => other,
        };
        let first = if verdict.reads == 0 || sheet.rounds == 0 {
            verdict.reads
        } else {
            let later =
                SHEET_WORDS + sheet.width * (sheet.n0 + 1 + sheet.n(1) + 2 * sheet.outs + 2);
            let shifts = &self.words[later..later + sheet.t[0]];
            (sheet.k[0] * different(shifts)) as u64
        };
        Verdict {
            outcome,
            reads: verdict.reads + (self.count as u64 - 1) * first,
        }
    }
}

/// Verifies a batch.
pub fn verify_batch<C, const TUNED: bool>(file: &[u8]) -> Verdict
where
    C: Correction<17, TUNED> + Correction<65537, TUNED> + Correction<2013265921, TUNED>,
{
    match read::<TUNED>(file) {
        Ok(plain) => plain.of_batch(decide_in::<C, TUNED>(&plain.sheet, &plain.words)),
        Err(verdict) => verdict,
    }
}

/// Writes the batch's blocks and answers their number, for an input that passes its tests; of others it only says so.
pub fn prove_batch<const TUNED: bool>(
    sheet: &[u32],
    bounds: &[u32],
    f: &[u32],
    coins: &[u32],
    out: &mut [u8],
) -> Option<usize> {
    let known = Sheet::read_in(Edition::One, sheet)?.ok()?;
    let due: usize = bounds.iter().map(|&bound| bound as usize).sum();
    let below = |&c: &u32| u64::from(c) < known.field.p;
    let allowed = wrong_bound(&known, bounds.len(), bounds).is_none();
    if !allowed || f.len() != known.width * due || !f.iter().all(below) {
        return None;
    }
    let words = [sheet, &[bounds.len() as u32], bounds].concat();
    blocks::<TUNED>(&known, words, bounds, f, coins, out)
}
