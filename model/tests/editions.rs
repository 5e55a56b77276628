//! Edition 2 with equal folding numbers says what edition 1 does (document 02, CR 5),
//! and nothing in a file tells the two apart.

mod common;

use common::*;
use std::collections::BTreeMap;
use std::ops::Range;
use tevrolig_model::convert::with_equal_folds;
use tevrolig_model::generate::{self, Rng};
use tevrolig_model::layout::Part;
use tevrolig_model::stream::{read_word, to_blocks};
use tevrolig_model::{prove, prove_2, verify, verify_2, Answer, Outcome, Verdict};

/// Room for every file.
const ROOM: usize = 512 * 67;

/// The same words after another sheet: a file of edition 1 whose number of blocks
/// is right becomes one of edition 2, with its fill as far as it goes.
fn in_edition_2(sheet: &[u32], file: &[u8]) -> Vec<u8> {
    let due = layout(sheet).words();
    let stream: Vec<u32> = (0..file.len() / 512 * 127)
        .map(|word| read_word(file, word))
        .collect();
    let mut other = with_equal_folds(sheet);
    other.extend(&stream[12..due]);
    let blocks = other.len().div_ceil(127);
    other.extend(&stream[due..]);
    other.resize(127 * blocks, 0);
    to_blocks(&other)
}

#[test]
fn equal_folding_numbers_get_the_verdict_of_edition_1() {
    let mut rng = Rng::new(206);
    let mut seen = BTreeMap::new();
    for round in 0..16_000 {
        let sheet = generate::sheet_up_to(One, &mut rng, 64);
        let mut file = honest(&mut rng, &sheet, round % 2 == 0);
        let number = rng.pick(&[0, 5, 6, 7, 14, 8, 9]);
        if number > 0 && !generate::aim(One, &mut rng, &mut file, number) {
            continue;
        }
        let Verdict { outcome, reads } = verify(&file);
        let (found, outcome) = match outcome {
            Outcome::Accepted => (0, outcome),
            Outcome::Refused { number, place } => {
                let more = if matches!(number, 5..=7 | 14) { 6 } else { 0 };
                let place = place + more;
                (number, Outcome::Refused { number, place })
            }
        };
        let other = in_edition_2(&sheet, &file);
        if let Outcome::Refused { number: 6, place } = outcome {
            if place as usize >= other.len() / 512 * 127 {
                // The six words took the place of the fault.
                continue;
            }
        }
        assert_eq!(verify_2(&other), Verdict { outcome, reads }, "{sheet:?}");
        *seen.entry(found).or_insert(0) += 1;
    }
    assert!(seen.keys().eq(&[0, 5, 6, 7, 8, 9, 14]), "{seen:?}");
    assert!(seen.values().all(|&count| count > 400), "{seen:?}");
}

/// Of inputs with equal folding numbers prove makes the same words after the sheet
/// in both editions, and the same refusals.
#[test]
fn equal_folding_numbers_are_proved_as_in_edition_1() {
    let mut rng = Rng::new(41);
    let (mut done, mut refused) = (0, 0);
    for _ in 0..4000 {
        let sheet = generate::sheet_up_to(One, &mut rng, 64);
        let other = with_equal_folds(&sheet);
        let mut coefficients = generate::coefficients(&mut rng, &sheet);
        let mut coins = generate::coins(&mut rng, &sheet, true);
        for list in [&mut coefficients, &mut coins] {
            generate::disturb(&mut rng, list);
        }
        let (mut one, mut two) = (vec![7; ROOM], vec![7; ROOM]);
        let first = prove(&sheet, &coefficients, &coins, &mut one);
        let second = prove_2(&other, &coefficients, &coins, &mut two);
        match (first, second) {
            (Answer::Done(blocks), Answer::Done(other_blocks)) => {
                let words = layout(&sheet).words();
                assert_eq!(layout(&other).words(), words + 6);
                assert_eq!(blocks as usize, words.div_ceil(127));
                assert_eq!(other_blocks as usize, (words + 6).div_ceil(127));
                assert!((12..words).all(|at| read_word(&one, at) == read_word(&two, at + 6)));
                let file = &two[..512 * other_blocks as usize];
                let accepted = format!("accepted 0 0 {}", reads(&other, file));
                assert_eq!(verdict_line(Two, file), accepted);
                done += 1;
            }
            _ => {
                assert_eq!(first, second);
                refused += 1;
            }
        }
    }
    assert!(done > 1000 && refused > 1000, "{done} {refused}");
}

/// One file is accepted as both editions, with two meanings: its words 12 to 17 are of
/// table 0 in edition 1 and of the sheet in edition 2.
#[test]
fn a_file_of_both_editions() {
    let file = include_bytes!("../../crates/check_files/data/both-editions");
    let meanings = [
        (One, [0, 0, 0, 0, 0, 2, 1, 5], 3, [13, 16]),
        (Two, [1, 5, 3, 13, 16, 0, 0, 0], 0, [0, 0]),
    ];
    for (edition, table, fold, coefficients) in meanings {
        let read = |words: Range<usize>| words.map(|word| read_word(file, word)).collect();
        let sheet: Vec<u32> = read(0..edition.sheet_words());
        let words = |part| -> Vec<u32> { read(layout(&sheet).range(part)) };
        assert_eq!(words(Part::Table(0)), table);
        assert_eq!(words(Part::FoldCoin(0)), [fold]);
        assert_eq!(words(Part::FinalCoefficients), coefficients);
        assert_eq!(words(Part::FinalIndices), [0]);
        assert_eq!(verdict_line(edition, file), "accepted 0 0 2");
    }
}

/// But hardly any other is.
#[test]
fn files_of_the_other_edition() {
    let mut rng = Rng::new(207);
    let mut refused = 0;
    for _ in 0..2000 {
        for (edition, other) in [(One, Two), (Two, One)] {
            let sheet = generate::sheet_up_to(edition, &mut rng, 32);
            let file = honest(&mut rng, &sheet, true);
            refused += usize::from(number(other, &file) != 0);
        }
    }
    assert!(refused > 3900, "{refused}");
}
