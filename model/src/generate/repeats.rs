//! Shift and final indices repeated on purpose (document 02, CR 8), in the prover's
//! input and in a file, and the reads that are due.

use super::{
    aim, coefficients, coins, honest_file, known, rewrite_checks, sheet_up_to, word_of_element, Rng,
};
use crate::layout::{Layout, Part};
use crate::sheet::{Edition, Sheet};
use crate::stream::{read_word, write_word};
use crate::verify::Outcome;
use std::collections::{BTreeMap, BTreeSet};

/// An input of the prover whose indices repeat, and its file, which may have been given
/// faults.
#[derive(Debug, Clone)]
pub struct Case {
    pub sheet: Vec<u32>,
    pub coefficients: Vec<u32>,
    pub coins: Vec<u32>,
    pub file: Vec<u8>,
}

/// A case whose sheet is drawn: some level has two coins or more.
pub fn case(edition: Edition, rng: &mut Rng, most_n0: u32) -> Case {
    loop {
        let words = sheet_up_to(edition, rng, most_n0);
        if words[6..12].iter().any(|&t| t > 1) {
            return case_of(rng, &words);
        }
    }
}

/// A case of a sheet without fault. About half of the files are honest, the others are
/// made for 8, 9 or both.
pub fn case_of(rng: &mut Rng, words: &[u32]) -> Case {
    let coefficients = coefficients(rng, words);
    let hostile = rng.one_in(2);
    let mut coins = coins(rng, words, hostile);
    repeat(rng, words, &mut coins);
    let mut file = honest_file(words, &coefficients, &coins);
    let edition = sheet_of(words).edition;
    match rng.below(6) {
        0 => fail_late(rng, words, &mut file),
        1 => {
            aim(edition, rng, &mut file, 9);
        }
        _ => {}
    }
    if rng.one_in(3) {
        aim(edition, rng, &mut file, 8);
    }
    Case {
        sheet: words.to_vec(),
        coefficients,
        coins,
        file,
    }
}

/// Repeats the indices of a coin list: in each level they stay, or begin with one index
/// several times, or are drawn from a few, or from the indices of the level before. A
/// list that is not full stays.
pub fn repeat(rng: &mut Rng, words: &[u32], coins: &mut [u32]) {
    let Some(sheet) = known(words) else {
        return;
    };
    let layout = Layout::new(&sheet);
    if coins.len() != layout.coins() {
        return;
    }
    let mut before = vec![0];
    for section in layout.coin_sections() {
        if !is_list(section.part) {
            continue;
        }
        let start = layout.coin_position(section.words.start);
        let indices = &mut coins[start..start + section.words.len()];
        let drawn = indices.to_vec();
        match rng.below(8) {
            0 => {}
            1..=3 => {
                let front = 1 + rng.place(drawn.len());
                indices[..front].fill(drawn[0]);
            }
            4 => indices.fill_with(|| (u64::from(rng.pick(&before)) % section.limit) as u32),
            _ => {
                let few = 1 + rng.place(drawn.len().min(6));
                indices.fill_with(|| rng.pick(&drawn[..few]));
            }
        }
        before = indices.to_vec();
    }
}

/// Changes a table word under the final index that comes last for the first time, so
/// that an honest file fails there and not before; a small field may let it pass.
pub fn fail_late(rng: &mut Rng, words: &[u32], file: &mut [u8]) {
    let sheet = sheet_of(words);
    let last = sheet.rounds;
    let levels = indices(words, file);
    let finals = &levels[last];
    let new = |&i: &usize| !finals[..i].contains(&finals[i]);
    let late = (0..finals.len()).rfind(new).map_or(0, |i| finals[i]);

    let root = late as usize + rng.place(sheet.k[last]) * sheet.indices(last);
    let table = Layout::new(&sheet).range(Part::Table(last)).start;
    let word = table + sheet.width * root + word_of_element(rng, sheet.width);
    let p = sheet.field.p;
    let other = (u64::from(read_word(file, word)) + 1 + rng.below(p - 1)) % p;
    write_word(file, word, other as u32);
    rewrite_checks(file);
}

fn sheet_of(words: &[u32]) -> Sheet {
    Sheet::read(words).expect("a sheet without fault")
}

fn is_list(part: Part) -> bool {
    matches!(part, Part::ShiftIndices(_) | Part::FinalIndices)
}

/// The shift or final indices of each level, 0 to M, in a file of a sheet without
/// fault that has its blocks.
pub fn indices(words: &[u32], file: &[u8]) -> Vec<Vec<u32>> {
    let layout = Layout::new(&sheet_of(words));
    let lists = layout.sections.into_iter().filter(|s| is_list(s.part));
    lists
        .map(|section| section.words.map(|word| read_word(file, word)).collect())
        .collect()
}

/// Those of the coins that are treated when the file has this outcome: the levels below
/// round i for 8 at i, the final ones up to and with the failing one for 9.
fn treated(mut levels: Vec<Vec<u32>>, outcome: Outcome) -> Vec<Vec<u32>> {
    match outcome {
        Outcome::Accepted => {}
        Outcome::Refused { number: 8, place } => levels.truncate(place as usize),
        Outcome::Refused { number: 9, place } => {
            let finals = levels.last_mut().expect("every sheet has final indices");
            finals.truncate(1 + place as usize);
        }
        Outcome::Refused { .. } => levels.clear(),
    }
    levels
}

/// The reads due of a file with this outcome: k_i for each of the different indices of
/// level i that are treated.
pub fn reads_due(words: &[u32], file: &[u8], outcome: Outcome) -> u64 {
    let folds = sheet_of(words).k;
    let levels = treated(indices(words, file), outcome);
    let reads = levels.iter().zip(folds).map(|(js, k)| k * different(js));
    reads.sum::<usize>() as u64
}

/// How many different ones there are.
fn different(indices: &[u32]) -> usize {
    let mut sorted = indices.to_vec();
    sorted.sort_unstable();
    sorted.dedup();
    sorted.len()
}

/// How often each kind of repeat was met.
#[derive(Debug, Clone, Default)]
pub struct Met(pub BTreeMap<&'static str, usize>);

impl Met {
    /// Counts the kinds that a file with this outcome has.
    pub fn count(&mut self, words: &[u32], file: &[u8], outcome: Outcome) {
        let all = indices(words, file);
        let treated = treated(all.clone(), outcome);
        let repeats = |js: &[u32]| different(js) < js.len();
        let (finals, rounds) = all.split_last().expect("every sheet has final indices");
        let number = match outcome {
            Outcome::Accepted => 0,
            Outcome::Refused { number, .. } => number,
        };
        // The failing coin is new, or an earlier one would have failed.
        let (before, after): (&[u32], &[u32]) = match treated.last() {
            Some(last) if number == 9 => (&last[..last.len() - 1], &finals[last.len()..]),
            _ => (&[], &[]),
        };
        let old = |j: &u32| treated.last().is_some_and(|last| last.contains(j));
        let (clashing, earlier): (&[u32], &[Vec<u32>]) = match treated.split_last() {
            Some((last, earlier)) if number == 8 => (last, earlier),
            _ => (&[], &[]),
        };
        let in_rounds = |js: &[Vec<u32>]| js.iter().any(|js| repeats(js));
        let (few, many): (Vec<&Vec<u32>>, Vec<_>) = treated.iter().partition(|js| js.len() <= 8);
        let apart: usize = treated.iter().map(|js| different(js)).sum();
        let together: BTreeSet<&u32> = treated.iter().flatten().collect();

        let kinds = [
            ("accepted, a shift index", number == 0 && in_rounds(rounds)),
            ("accepted, a final index", number == 0 && repeats(finals)),
            ("8, in its round", repeats(clashing)),
            ("8, in a round before", in_rounds(earlier)),
            ("9, in a round", number == 9 && in_rounds(rounds)),
            ("9, before the failing coin", repeats(before)),
            ("9, after it", after.iter().any(old)),
            ("9, no repeat after it", after.iter().any(|j| !old(j))),
            ("one index in two levels", together.len() < apart),
            ("among a few", few.iter().any(|js| repeats(js))),
            ("among many", many.iter().any(|js| repeats(js))),
        ];
        for (kind, met) in kinds {
            *self.0.entry(kind).or_default() += usize::from(met);
        }
    }

    /// How often the rarest kind was met.
    pub fn rarest(&self) -> usize {
        self.0.values().copied().min().unwrap_or(0)
    }
}
