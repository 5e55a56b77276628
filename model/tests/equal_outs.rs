//! Equal out coins made on purpose, in files and in the prover's inputs (document 02,
//! CR 6): what verify, prove, the converter and the baselines say of them.

mod common;

use common::*;
use std::collections::BTreeMap;
use tevrolig_model::baseline::{self, Lists, Newton};
use tevrolig_model::convert::{convert_to, with_equal_folds};
use tevrolig_model::generate::{self, aim, equal_outs, Rng};
use tevrolig_model::prove::prove_in;
use tevrolig_model::verify::verify_in;
use tevrolig_model::Answer;

/// How often each kind of case must be met, and one that is honest otherwise.
const OFTEN: usize = 10;

/// Counts the kinds of a case: number, replies that agree, a later round, and each
/// other fault.
#[derive(Default)]
struct Met {
    kinds: BTreeMap<(u32, bool, bool, u32), usize>,
    honest: usize,
}

impl Met {
    fn count(&mut self, case: &equal_outs::Case) {
        let later = case.round > 1;
        let others = case.faults.iter().filter(|&&fault| fault != case.number);
        for &other in [0].iter().chain(others) {
            let kind = (case.number, case.replies_agree, later, other);
            *self.kinds.entry(kind).or_default() += 1;
        }
        self.honest += usize::from(case.honest);
    }

    /// Both numbers with all other faults, in the first round and in later ones, with
    /// replies that agree and others.
    fn all(&self) {
        assert_eq!(self.kinds.len(), 2 * 2 * 2 * 3, "{:?}", self.kinds);
        let few = self.kinds.iter().find(|(_, &count)| count < OFTEN);
        assert_eq!(few, None);
        assert!(self.honest > OFTEN, "{}", self.honest);
    }
}

#[test]
fn verdicts() {
    for edition in Edition::BOTH {
        let mut rng = Rng::new(61);
        let mut met = Met::default();
        for _ in 0..10_000 {
            let case = equal_outs::case(edition, &mut rng, 256);
            let expected = format!("refused {} {} 0", case.number, case.word);
            assert_eq!(
                verdict_line(edition, &case.file),
                expected,
                "{:?}",
                case.sheet
            );
            met.count(&case);
        }
        met.all();
    }
}

#[test]
fn verdicts_of_the_baselines() {
    for edition in Edition::BOTH {
        let mut rng = Rng::new(62);
        for _ in 0..2000 {
            let case = equal_outs::case(edition, &mut rng, 64);
            if case.sheet[0] == 3 {
                continue;
            }
            let verdict = verify_in(edition, &case.file);
            let verdicts = [
                baseline::verify::<Newton, false>(edition, &case.file),
                baseline::verify::<Newton, true>(edition, &case.file),
                baseline::verify::<Lists, true>(edition, &case.file),
            ];
            assert_eq!(verdicts, [verdict; 3]);
        }
    }
}

/// Nothing is written, whatever the output's length is.
#[test]
fn prover_inputs() {
    for edition in Edition::BOTH {
        let mut rng = Rng::new(63);
        let mut met = Met::default();
        for _ in 0..10_000 {
            let case = equal_outs::case(edition, &mut rng, 256);
            let lists = (&case.sheet, &case.coefficients, &case.coins);
            let length = rng.pick(&[0, case.file.len() - 1, case.file.len()]);
            let mut output = vec![0xA5; length];
            let answer = prove_in(edition, lists.0, lists.1, lists.2, &mut output);
            let (number, place) = (case.number, case.position as u64);
            assert_eq!(answer, Answer::Refused { number, place }, "{lists:?}");
            assert!(output.iter().all(|&byte| byte == 0xA5));

            let baselines = [baseline::prove::<false>, baseline::prove::<true>];
            for prove in baselines {
                // They have elements of one word alone.
                if lists.0[0] == 3 {
                    continue;
                }
                let proved = prove(edition, lists.0, lists.1, lists.2, &mut output);
                assert_eq!(proved, None);
            }
            met.count(&case);
        }
        met.all();
    }
}

/// The converter does not ask for 7 or 14: such files are converted, and their place is
/// six words later in edition 2. Other folding numbers are refused with 13.
#[test]
fn conversions() {
    let mut rng = Rng::new(64);
    let mut seen = BTreeMap::new();
    for _ in 0..3000 {
        let case = equal_outs::case(One, &mut rng, 64);
        let mut second = vec![0; case.file.len() + 512];
        let Answer::Done(blocks) = convert_to(Two, &case.file, &mut second) else {
            panic!("{:?}", case.sheet);
        };
        second.truncate(512 * blocks as usize);
        let expected = format!("refused {} {} 0", case.number, case.word + 6);
        assert_eq!(verdict_line(Two, &second), expected);
        let mut first = vec![0; case.file.len()];
        convert_to(One, &second, &mut first);
        assert_eq!(first, case.file);
        *seen.entry(case.number).or_insert(0) += 1;

        let case = equal_outs::case_of(&mut rng, &with_equal_folds(&case.sheet));
        let mut first = vec![0; case.file.len()];
        let answer = convert_to(One, &case.file, &mut first);
        let Answer::Done(blocks) = answer else {
            panic!("{answer:?}");
        };
        first.truncate(512 * blocks as usize);
        let expected = format!("refused {} {} 0", case.number, case.word - 6);
        assert_eq!(verdict_line(One, &first), expected);
    }
    assert!(seen.keys().eq(&[7, 14]), "{seen:?}");
    assert!(seen.values().all(|&count| count > 500), "{seen:?}");

    for i in 1..=5 {
        let sheet = loop {
            let sheet = generate::differing_at(&mut rng, i);
            if sheet[5] == 2 {
                break sheet;
            }
        };
        let case = equal_outs::case_of(&mut rng, &sheet);
        let answer = convert_to(One, &case.file, &mut []);
        let (number, place) = (13, i as u64);
        assert_eq!(answer, Answer::Refused { number, place });
    }
}

/// Coin lists that are called allowed have no equal out coins in a round: prove takes
/// each, and an aim at 14 finds the honest file's places.
#[test]
fn allowed_lists_have_none() {
    for edition in Edition::BOTH {
        let mut rng = Rng::new(65);
        let (mut pairs, mut single) = (0, 0);
        for round in 0..4000 {
            let sheet = generate::sheet_up_to(edition, &mut rng, 32);
            let mut file = accept(&mut rng, &sheet, round % 4 != 0);
            if aim(edition, &mut rng, &mut file, 14) {
                assert_eq!(number(edition, &file), 14);
                pairs += 1;
            } else {
                assert!(sheet[4] == 0 || sheet[5] == 1);
                single += 1;
            }
        }
        assert!(pairs > 500 && single > 500, "{pairs} {single}");
    }
}
