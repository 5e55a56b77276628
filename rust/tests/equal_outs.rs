//! Equal out coins made on purpose, in files and in the prover's inputs: the archive refuses them as they are made for, and as the model does.

mod common;

use common::{agree, edition, refused, verdict_line, Edition, One, ProverInput, Two, LARGEST};
use std::collections::BTreeMap;
use tevrolig::convert::{to_edition_1, to_edition_2};
use tevrolig_model::convert::{convert_to, with_equal_folds};
use tevrolig_model::generate::equal_outs::{case, case_of, honest_case_of, Case};
use tevrolig_model::generate::{self, Rng};
use tevrolig_model::layout::Part;
use tevrolig_model::Answer;

/// Verify of both in one and in two steps, and prove of both into outputs with room and without.
fn refuse(edition: Edition, case: &Case, what: &str) {
    let Case { number, word, .. } = case;
    let expected = format!("refused {number} {word} 0");
    assert_eq!(verdict_line(edition, &case.file, what), expected, "{what}");

    let input = ProverInput {
        edition,
        sheet: case.sheet.clone(),
        coefficients: case.coefficients.clone(),
        coins: case.coins.clone(),
    };
    let expected = refused((case.number, case.position));
    for length in [case.file.len(), case.file.len() - 1, 0] {
        assert_eq!(input.prove(length, what), expected, "{what}");
    }
}

/// Both numbers, with replies that agree and others, in the first round and in later ones, alone and with each other fault, are met.
#[test]
fn files_and_inputs() {
    for edition in Edition::BOTH {
        let mut met: BTreeMap<(u32, bool, bool, u32), usize> = BTreeMap::new();
        let mut honest = 0;
        for seed in 0..40_000 {
            let most_n0 = if seed % 50 == 0 { 512 } else { 64 };
            let case = case(edition, &mut Rng::new(seed), most_n0);
            refuse(edition, &case, &format!("equal out coins, seed {seed}"));
            let others = case.faults.iter().filter(|&&fault| fault != case.number);
            for &other in [0].iter().chain(others) {
                let kind = (case.number, case.replies_agree, case.round > 1, other);
                *met.entry(kind).or_default() += 1;
            }
            honest += usize::from(case.honest);
        }
        assert!(honest > 1000, "{honest} files have no other fault");
        assert_eq!(met.len(), 2 * 2 * 2 * 3, "{met:?}");
        assert!(met.values().all(|&count| count > 20), "{met:?}");
    }
}

#[test]
fn the_largest_sheets() {
    let mut met = BTreeMap::new();
    for sheet in LARGEST.into_iter().filter(|sheet| sheet[5] == 2) {
        for seed in 0..12 {
            let mut rng = Rng::new(seed);
            let case = match seed {
                0 => honest_case_of(&mut rng, sheet),
                _ => case_of(&mut rng, sheet),
            };
            refuse(edition(sheet), &case, &format!("largest, seed {seed}"));
            *met.entry((case.number, case.round)).or_insert(0) += 1;
        }
    }
    // 14 in each of the five rounds.
    assert!(
        (1..=5).all(|round| met.contains_key(&(14, round))),
        "{met:?}"
    );
}

/// Such files are converted, and the place is six words later in edition 2.
#[test]
fn conversions() {
    for seed in 0..10_000 {
        let mut rng = Rng::new(seed);
        let what = format!("equal out coins converted, seed {seed}");
        let first = case(One, &mut rng, 64);
        let second = case_of(&mut rng, &with_equal_folds(&first.sheet));
        for (to, case) in [(Two, first), (One, second)] {
            let archive = match to {
                One => to_edition_1,
                Two => to_edition_2,
            };
            let (answer, output) = agree(
                |i| (41 * i) as u8,
                case.file.len() + 512,
                |output| match archive(&case.file, output) {
                    Ok(blocks) => Answer::Done(blocks as u64),
                    Err(refusal) => panic!("{what}: {refusal}"),
                },
                |output| convert_to(to, &case.file, output),
                |blocks| 512 * blocks as usize,
                &what,
            );
            let Answer::Done(blocks) = answer else {
                panic!("{what}: {answer:?}");
            };
            let word = match to {
                One => case.word - 6,
                Two => case.word + 6,
            };
            let line = verdict_line(to, &output[..512 * blocks as usize], &what);
            assert_eq!(line, format!("refused {} {word} 0", case.number), "{what}");
        }
    }
}

/// Out coins of different rounds may be equal: those of the round before, in either order, and in all rounds.
#[test]
fn rounds_may_share_their_out_coins() {
    let mut shared = 0;
    for seed in 0..10_000 {
        let mut rng = Rng::new(seed);
        let edition = rng.pick(&Edition::BOTH);
        let sheet = generate::sheet_up_to(edition, &mut rng, 128);
        let mut input = ProverInput::allowed(&mut rng, &sheet, seed % 2 == 0);
        let (known, layout) = input.known();
        if known.rounds < 2 {
            continue;
        }
        let outs: Vec<usize> = layout
            .coin_sections()
            .filter(|section| matches!(section.part, Part::OutCoins(_)))
            .map(|section| layout.coin_position(section.words.start))
            .collect();
        // A coin outside domain 1 is outside the later ones, which are parts of it.
        let words = known.width * known.outs;
        let mut coins = input.coins[outs[0]..outs[0] + words].to_vec();
        for &at in &outs[1..] {
            if rng.one_in(2) {
                coins.rotate_left(known.width);
            }
            input.coins[at..at + words].copy_from_slice(&coins);
        }
        input.is_proved(0, &format!("shared out coins, seed {seed}"));
        shared += usize::from(known.outs == 2);
    }
    assert!(shared > 300, "{shared}");
}
