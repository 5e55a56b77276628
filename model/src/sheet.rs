//! The words of the sheet and their rules (document 01, "Fields and the sheet";
//! document 02, CR 1, CR 5 and CR 11).

use crate::elements::{Elements, Quartic};
use crate::field::{Field, QUARTIC};
use std::cmp::Ordering;

/// Number of sheet words in edition 1.
pub const SHEET_WORDS: usize = 12;
/// Most shift or final coins of one round.
pub const MOST_COINS: u32 = 48;

/// The editions of the transcript. A file does not say which it is of: the one
/// who calls an operation does.
#[derive(Debug, Clone, Copy, PartialEq, Eq)]
pub enum Edition {
    /// One folding number for all rounds.
    One,
    /// A folding number for each round.
    Two,
}

impl Edition {
    pub const BOTH: [Edition; 2] = [Edition::One, Edition::Two];

    /// Number of sheet words.
    pub fn sheet_words(self) -> usize {
        match self {
            Edition::One => SHEET_WORDS,
            Edition::Two => 18,
        }
    }

    pub fn other(self) -> Edition {
        match self {
            Edition::One => Edition::Two,
            Edition::Two => Edition::One,
        }
    }

    /// The edition whose sheet has so many words.
    pub fn of(sheet: &[u32]) -> Option<Edition> {
        let mut editions = Edition::BOTH.into_iter();
        editions.find(|edition| edition.sheet_words() == sheet.len())
    }
}

/// A sheet without fault, of either edition.
#[derive(Debug, Clone, PartialEq, Eq)]
pub struct Sheet {
    pub edition: Edition,
    /// The prime field of the domains, whose elements the words of every element are.
    pub field: Field,
    /// Words of an element: four in field 3, else one.
    pub width: usize,
    pub n0: usize,
    pub d0: usize,
    /// k_0 to k_M, and zeros; in edition 1 they are all k.
    pub k: [usize; 6],
    /// d_0 to d_(M+1), and zeros: each round's degree bound, and the number of final
    /// coefficients.
    pub d: [usize; 7],
    /// M, the number of rounds.
    pub rounds: usize,
    /// s, the out coins of each round.
    pub outs: usize,
    /// t_0 to t_M, and zeros.
    pub t: [usize; 6],
}

impl Sheet {
    /// The sheet of 12 or 18 words, in the edition that has as many. The error is the
    /// place of the first word that breaks its rule, in the order of the tests.
    pub fn read(words: &[u32]) -> Result<Sheet, usize> {
        let edition = Edition::of(words).expect("12 or 18 words");
        Sheet::test(edition, words)
    }

    /// The same for words of any number; nothing if the edition has another.
    pub fn read_in(edition: Edition, words: &[u32]) -> Option<Result<Sheet, usize>> {
        (words.len() == edition.sheet_words()).then(|| Sheet::test(edition, words))
    }

    /// Reads the words one after the other, each rule using only words that kept
    /// theirs. So the words of edition 2 that have folding numbers come before
    /// those whose rule asks for d_(i+1).
    fn test(edition: Edition, words: &[u32]) -> Result<Sheet, usize> {
        let [number, n0, d0, k_0, rounds, outs] = words[..6].try_into().expect("six words");

        let (field, width, most_n0) = match number {
            3 => (QUARTIC.base, Quartic::WIDTH, 1024),
            _ => (Field::numbered(number).ok_or(0_usize)?, Field::WIDTH, 4096),
        };

        let divides = |n: u32| (field.p - 1).is_multiple_of(u64::from(n));
        keep(1, power_of_two_within(n0, 4, most_n0) && divides(n0))?;
        keep(2, power_of_two_within(d0, 2, n0 / 2))?;
        keep(3, folding_number(k_0, d0))?;
        keep(4, rounds <= 5)?;
        if edition == Edition::One {
            keep(4, k_0.pow(rounds + 1) <= d0)?;
        }
        keep(5, outs == 1 || outs == 2)?;

        let mut k = [0; 6];
        k[..=rounds as usize].fill(k_0);
        if edition == Edition::Two {
            read_later_folds(&mut k, d0, rounds, &words[SHEET_WORDS..])?;
        }

        let mut d = [d0, 0, 0, 0, 0, 0, 0];
        for i in 0..=rounds as usize {
            d[i + 1] = d[i] / k[i];
        }

        let t: [u32; 6] = words[6..SHEET_WORDS].try_into().expect("six words");
        for (i, &t) in t.iter().enumerate() {
            let place = 6 + i;
            match i.cmp(&(rounds as usize)) {
                // d_(i+1) bounds what round i+1 takes away from its polynomial.
                Ordering::Less => keep(place, count_of_coins(t) && t + outs < d[i + 1])?,
                Ordering::Equal => keep(place, count_of_coins(t))?,
                Ordering::Greater => keep(place, t == 0)?,
            }
        }

        Ok(Sheet {
            edition,
            field,
            width,
            n0: n0 as usize,
            d0: d0 as usize,
            k: k.map(|k| k as usize),
            d: d.map(|d| d as usize),
            rounds: rounds as usize,
            outs: outs as usize,
            t: t.map(|t| t as usize),
        })
    }

    /// k_0 to k_M.
    pub fn folds(&self) -> &[usize] {
        &self.k[..=self.rounds]
    }

    /// n_i, the size of domain i.
    pub fn n(&self, i: usize) -> usize {
        self.n0 >> i
    }

    /// Number of indices over domain i: each shift point of it has one.
    pub fn indices(&self, i: usize) -> usize {
        self.n(i) / self.k[i]
    }
}

/// Reads k_1 to k_5 after k_0, each tested with the product of those up to it, and
/// the last word of edition 2. The error is the word's number in the sheet.
fn read_later_folds(k: &mut [u32; 6], d0: u32, rounds: u32, later: &[u32]) -> Result<(), usize> {
    for i in 1..=5 {
        let place = 11 + i;
        k[i] = later[i - 1];
        if i > rounds as usize {
            keep(place, k[i] == 0)?;
        } else {
            keep(place, folding_number(k[i], d0))?;
            keep(place, k[..=i].iter().product::<u32>() <= d0)?;
        }
    }
    keep(17, later[5] == 2)
}

/// The rule of word 3, which k_1 to k_5 have too.
fn folding_number(word: u32, d0: u32) -> bool {
    power_of_two_within(word, 2, d0.min(16))
}

/// The rule of t_0 to t_M, but for their room.
fn count_of_coins(word: u32) -> bool {
    (1..=MOST_COINS).contains(&word)
}

/// The place as an error, unless the word there keeps its rule.
fn keep(place: usize, kept: bool) -> Result<(), usize> {
    kept.then_some(()).ok_or(place)
}

fn power_of_two_within(word: u32, least: u32, most: u32) -> bool {
    word.is_power_of_two() && least <= word && word <= most
}
