//! Inputs with one fault or several, in the archive and in the model: which refusal it is, where, and that nothing is written.

mod common;

use common::{limits, refused, Edition, One, ProverInput, Two};
use std::collections::BTreeSet;
use std::ops::Range;
use tevrolig_model::domain::Subgroup;
use tevrolig_model::generate::{self, break_length, too_large, Rng};
use tevrolig_model::layout::{Layout, Part};
use tevrolig_model::sheet::Sheet;

/// The tests of an input, in the order in which they are made.
#[derive(Debug, Clone, Copy, PartialEq, Eq, PartialOrd, Ord)]
enum Test {
    SheetLength,
    Sheet,
    CoefficientCount,
    CoinCount,
    Coefficients,
    Coins,
    OutCoins,
    EqualOuts,
    Output,
}

const PROVE: [Test; 9] = [
    Test::SheetLength,
    Test::Sheet,
    Test::CoefficientCount,
    Test::CoinCount,
    Test::Coefficients,
    Test::Coins,
    Test::OutCoins,
    Test::EqualOuts,
    Test::Output,
];

const ENCODE: [Test; 5] = [
    Test::SheetLength,
    Test::Sheet,
    Test::CoefficientCount,
    Test::Coefficients,
    Test::Output,
];

/// A place of a list that is not empty: an end, the middle, or any.
fn some_place(rng: &mut Rng, length: usize) -> usize {
    let any = rng.place(length);
    rng.pick(&[0, length / 2, length - 1, any])
}

/// An input with faults, and the output's length.
struct Faulty {
    input: ProverInput,
    length: usize,
    sheet: Sheet,
    layout: Layout,
}

impl Faulty {
    fn new(input: ProverInput) -> Faulty {
        let (sheet, layout) = input.known();
        Faulty {
            input,
            length: 0,
            sheet,
            layout,
        }
    }

    /// Makes the input fail this test, where it can, and answers the refusal. `due` is what an 11 says, and `size` the length due.
    fn fail(&mut self, rng: &mut Rng, test: Test, due: usize, size: usize) -> Option<(u32, usize)> {
        match test {
            Test::SheetLength => {
                break_length(rng, &mut self.input.sheet);
                Some((10, 0))
            }
            Test::Sheet => {
                let faults = generate::two_faults(rng, &self.input.sheet);
                for (at, word) in faults.into_iter().rev() {
                    self.input.sheet[at] = word;
                }
                Some((3, faults[0].0))
            }
            Test::CoefficientCount => {
                break_length(rng, &mut self.input.coefficients);
                Some((10, 1))
            }
            Test::CoinCount => {
                break_length(rng, &mut self.input.coins);
                Some((10, 2))
            }
            Test::Coefficients => {
                let length = self.sheet.width * self.sheet.d0;
                let (at, later) = (some_place(rng, length), some_place(rng, length));
                for at in [at, at.max(later)] {
                    self.input.coefficients[at] = too_large(rng, self.sheet.field.p);
                }
                Some((5, at))
            }
            Test::Coins => {
                let limits: Vec<u64> = self.layout.coin_sections().flat_map(limits).collect();
                let (at, later) = (some_place(rng, limits.len()), some_place(rng, limits.len()));
                for at in [at, at.max(later)] {
                    self.input.coins[at] = too_large(rng, limits[at]);
                }
                Some((5, self.sheet.width * self.sheet.d0 + at))
            }
            Test::OutCoins => self.break_out_coins(rng).map(|at| (7, at)),
            Test::EqualOuts => self.make_out_coins_equal(rng).map(|at| (14, at)),
            Test::Output => {
                self.length = rng.pick(&[0, size / 2, size - 1]);
                Some((11, due))
            }
        }
    }

    /// One out coin or two that lie in their domain; the position of the first.
    fn break_out_coins(&mut self, rng: &mut Rng) -> Option<usize> {
        let subgroup = Subgroup::of(&self.sheet);
        let mut first = None;
        for _ in 0..=rng.place(2) {
            let round = 1 + rng.place(self.sheet.rounds);
            let words = self.layout.range(Part::OutCoins(round));
            if words.is_empty() {
                return None;
            }
            let width = self.sheet.width;
            let word = words.start + width * rng.place(words.len() / width);
            let at = self.layout.coin_position(word);
            let point = subgroup.point(round, rng.place(self.sheet.n(round)));
            self.input.coins[at..at + width].fill(0);
            self.input.coins[at] = point as u32;
            first = Some(first.map_or(at, |other: usize| other.min(at)));
        }
        first
    }

    /// Two equal out coins in one round or in two; the position of the second in the first of them.
    fn make_out_coins_equal(&mut self, rng: &mut Rng) -> Option<usize> {
        let mut first = None;
        for _ in 0..=rng.place(2) {
            let round = 1 + rng.place(self.sheet.rounds);
            let words = self.layout.range(Part::OutCoins(round));
            let width = self.sheet.width;
            if words.len() < 2 * width {
                return None;
            }
            let at = self.layout.coin_position(words.start);
            let second = at + width;
            let [from, to] = rng.pick(&[[at, second], [second, at]]);
            self.input.coins.copy_within(from..from + width, to);
            first = Some(first.map_or(second, |other: usize| other.min(second)));
        }
        first
    }
}

/// Inputs that fail one test, two or more: the first that is made counts, and nothing is written. Later tests are made to fail first, so that
/// what an earlier one needs stands.
fn faulty_inputs(edition: Edition, seeds: Range<u64>, tests: &[Test]) {
    let proving = tests.len() == PROVE.len();
    let mut met = BTreeSet::new();
    for seed in seeds {
        let mut rng = Rng::new(seed);
        let sheet = generate::sheet_up_to(edition, &mut rng, 64);
        let mut faulty = Faulty::new(ProverInput::allowed(&mut rng, &sheet, seed % 2 == 0));
        let due = if proving {
            faulty.layout.blocks()
        } else {
            faulty.sheet.width * faulty.sheet.n0
        };
        let size = if proving { 512 * due } else { due };
        faulty.length = size + rng.place(100);

        let mut expected = None;
        let some = 1 + rng.place(3);
        let chosen: BTreeSet<Test> = (0..some).map(|_| rng.pick(tests)).collect();
        for &test in chosen.iter().rev() {
            if let Some(refusal) = faulty.fail(&mut rng, test, due, size) {
                expected = Some((test, refusal));
            }
        }
        let Some((test, refusal)) = expected else {
            continue;
        };
        let what = format!("{chosen:?}, seed {seed}");
        let answer = if proving {
            faulty.input.prove(faulty.length, &what)
        } else {
            faulty.input.encode(faulty.length, &what)
        };
        assert_eq!(answer, refused(refusal), "{what}");
        met.insert((test, if test == Test::Sheet { refusal.1 } else { 0 }));
    }
    // Each test, and each word of the sheet, was the first to fail.
    let words = edition.sheet_words();
    for &test in tests {
        for place in 0..if test == Test::Sheet { words } else { 1 } {
            assert!(met.contains(&(test, place)), "{test:?} {place} is met");
        }
    }
}

#[test]
fn faulty_inputs_to_prove() {
    faulty_inputs(One, 100_000..200_000, &PROVE);
}

#[test]
fn faulty_inputs_to_prove_in_edition_2() {
    faulty_inputs(Two, 100_000..200_000, &PROVE);
}

#[test]
fn faulty_inputs_to_encode() {
    faulty_inputs(One, 200_000..250_000, &ENCODE);
}
