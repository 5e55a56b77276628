//! The stated load: a thousand runs from one seed (document 02, CR 2), whose rounds
//! have no two equal out coins (CR 6) and whose reads are openings (CR 8).
//!
//! The values that a sheet word may have are listed here from document 01's rules, and
//! the coins are drawn in document 01's order, without the sheet's reader or the
//! layout: prove takes each input only if those say the same.

use crate::domain::Subgroup;
use crate::field::Field;
use crate::prove::{prove, Answer};
use crate::sheet::{Sheet, MOST_COINS, SHEET_WORDS};
use crate::stream::BLOCK_BYTES;
use crate::verify::{line, verify, Outcome, Verdict};
use std::collections::BTreeSet;
use std::fmt;

/// The sheet of the worked transcript (document 01, "A transcript by hand").
pub const WORKED_SHEET: [u32; SHEET_WORDS] = [0, 16, 8, 2, 1, 1, 1, 1, 0, 0, 0, 0];

/// Runs of one load.
const RUNS: usize = 1000;
/// How often an out coin is drawn again, the first draw not counted.
const MOST_AGAIN: usize = 64;
/// Bytes that every honest file fits in: no accepted file is so long.
const ROOM: usize = 65536;

/// The seed that a program's input stands for: its first word, missing bytes 0.
/// Bytes after the first four belong to no seed.
pub fn seed(input: &[u8]) -> u32 {
    let mut bytes = [0; 4];
    for (byte, &given) in bytes.iter_mut().zip(input) {
        *byte = given;
    }
    u32::from_le_bytes(bytes)
}

/// The lines that the program prints for a seed, each from proving and verifying a file.
pub fn lines(seed: u32) -> Vec<String> {
    lines_by(seed, ProverInput::verdict_line)
}

/// The same with any way to a run's line. Seed 0 is refused before anything is drawn.
pub fn lines_by(seed: u32, run: impl Fn(&ProverInput) -> String) -> Vec<String> {
    if seed == 0 {
        let outcome = Outcome::Refused {
            number: 12,
            place: 0,
        };
        return vec![line(Verdict { outcome, reads: 0 })];
    }
    drawn_inputs(seed).map(|input| run(&input)).collect()
}

/// What the runs of a seed other than 0 draw, all on one generator.
pub fn drawn_inputs(seed: u32) -> impl Iterator<Item = ProverInput> {
    let mut generator = Generator { v: seed };
    (0..RUNS).map(move |_| generator.draw_input())
}

/// What one run draws.
#[derive(Debug, Clone, PartialEq, Eq)]
pub struct ProverInput {
    pub sheet: [u32; SHEET_WORDS],
    pub coefficients: Vec<u32>,
    pub coins: Vec<u32>,
}

impl ProverInput {
    /// The verdict line of the honest file.
    fn verdict_line(&self) -> String {
        let mut output = vec![0; ROOM];
        match prove(&self.sheet, &self.coefficients, &self.coins, &mut output) {
            Answer::Done(blocks) => line(verify(&output[..blocks as usize * BLOCK_BYTES])),
            refused => panic!("the load draws only what prove takes: {refused:?} for {self}"),
        }
    }

    /// The line that an honest file is promised: accepted, with k reads for each of
    /// the different indices of a level.
    pub fn promised(&self) -> String {
        let [k, rounds, outs] = [3, 4, 5].map(|word| self.sheet[word] as usize);
        // Fold coin 0; then each round has its out coins, a combination coin and a fold
        // coin before its indices. The final ones follow those of the last round.
        let mut rest = &self.coins[1..];
        let mut different = 0;
        for i in 0..=rounds {
            let before = if i < rounds { outs + 2 } else { 0 };
            let (indices, later) = rest[before..].split_at(self.sheet[6 + i] as usize);
            different += indices.iter().collect::<BTreeSet<_>>().len();
            rest = later;
        }
        line(Verdict {
            outcome: Outcome::Accepted,
            reads: (k * different) as u64,
        })
    }
}

/// Sheet, coefficients and coins, with bars between them.
impl fmt::Display for ProverInput {
    fn fmt(&self, f: &mut fmt::Formatter) -> fmt::Result {
        let listed = |words: &[u32]| {
            let texts: Vec<String> = words.iter().map(u32::to_string).collect();
            texts.join(" ")
        };
        let sheet = listed(&self.sheet);
        let coefficients = listed(&self.coefficients);
        let coins = listed(&self.coins);
        write!(f, "{sheet} | {coefficients} | {coins}")
    }
}

/// The values that the rule of the next sheet word permits after these words, lowest
/// first. There may be none, and there are none past the sheet.
pub fn permitted(words: &[u32]) -> Vec<u32> {
    match *words {
        [] => vec![0, 1, 2],
        [field] => {
            let p = Field::numbered(field).expect("a drawn field").p;
            let mut sizes = powers_of_two(4, 4096);
            sizes.retain(|&n0| (p - 1).is_multiple_of(u64::from(n0)));
            sizes
        }
        [_, n0] => powers_of_two(2, n0 / 2),
        [_, _, d0] => powers_of_two(2, d0.min(16)),
        [_, _, d0, k] => (0..=5).filter(|&m| k.pow(m + 1) <= d0).collect(),
        [_, _, _, _, _] => vec![1, 2],
        [_, _, d0, k, rounds, s, ref counts @ ..] => {
            let i = counts.len() as u32;
            if i > 5 {
                vec![]
            } else if i > rounds {
                vec![0]
            } else if i == rounds {
                (1..=MOST_COINS).collect()
            } else {
                // d_(i+1), which is at least k here.
                let bound = d0 / k.pow(i + 1);
                (1..=MOST_COINS).filter(|t| t + s < bound).collect()
            }
        }
    }
}

/// The powers of two from the least to the most.
fn powers_of_two(least: u32, most: u32) -> Vec<u32> {
    (least..=most).filter(|n| n.is_power_of_two()).collect()
}

/// The generator; v is not 0.
#[derive(Debug, Clone, PartialEq, Eq)]
pub struct Generator {
    pub v: u32,
}

impl Generator {
    /// Replaces v and answers the new one. A shift to the left loses what leaves the 32 bits.
    pub fn step(&mut self) -> u32 {
        self.v ^= self.v << 13;
        self.v ^= self.v >> 17;
        self.v ^= self.v << 5;
        self.v
    }

    /// Picks among the numbers below a limit: the remainder of the new v.
    pub fn below(&mut self, limit: u64) -> u32 {
        (u64::from(self.step()) % limit) as u32
    }

    /// Everything that one run draws, in order.
    pub fn draw_input(&mut self) -> ProverInput {
        let words = self.sheet();
        let sheet = Sheet::read(&words).expect("a drawn sheet keeps its rules");
        let coefficients = self.several(sheet.d0, sheet.field.p);
        let coins = self.coins(&sheet);
        ProverInput {
            sheet: words,
            coefficients,
            coins,
        }
    }

    /// The words of a sheet, one step each, also where a single value is permitted. A
    /// word without any takes no step and leaves the rest undrawn.
    pub fn sheet(&mut self) -> [u32; SHEET_WORDS] {
        let mut words = [0; SHEET_WORDS];
        for place in 0..SHEET_WORDS {
            let values = permitted(&words[..place]);
            if values.is_empty() {
                return WORKED_SHEET;
            }
            words[place] = values[self.below(values.len() as u64) as usize];
        }
        words
    }

    /// The full coin list in file order.
    fn coins(&mut self, sheet: &Sheet) -> Vec<u32> {
        let p = sheet.field.p;
        let subgroup = Subgroup::of(sheet);
        let indices = |i: usize| (sheet.n(i) / sheet.k[i]) as u64;

        // Fold coin 0.
        let mut coins = vec![self.below(p)];
        for i in 1..=sheet.rounds {
            let domain = subgroup.domain(i);
            let first = self.out_coin(p, &domain, None);
            coins.push(first);
            if sheet.outs == 2 {
                coins.push(self.out_coin(p, &domain, Some(first)));
            }
            // The combination coin, then fold coin i.
            coins.extend(self.several(2, p));
            coins.extend(self.several(sheet.t[i - 1], indices(i - 1)));
        }
        let last = sheet.rounds;
        coins.extend(self.several(sheet.t[last], indices(last)));
        coins
    }

    /// An out coin, picked among all elements and drawn again while it lies inside its
    /// domain or equals the first of its round, if it is the second. When the last draw
    /// is not allowed either, a first coin is 0, which no domain has, and a second one
    /// the smallest element allowed.
    pub fn out_coin(&mut self, p: u64, domain: &[u64], first: Option<u32>) -> u32 {
        let allowed = |coin: &u32| !domain.contains(&u64::from(*coin)) && first != Some(*coin);
        let mut draws = (0..1 + MOST_AGAIN).map(|_| self.below(p));
        match (draws.find(allowed), first) {
            (Some(coin), _) => coin,
            (None, None) => 0,
            (None, Some(_)) => {
                let mut elements = 0..p as u32;
                let smallest = elements.find(allowed);
                smallest.expect("a domain has at most half of the elements")
            }
        }
    }

    /// So many words below one limit, one step each.
    fn several(&mut self, count: usize, limit: u64) -> Vec<u32> {
        (0..count).map(|_| self.below(limit)).collect()
    }
}
