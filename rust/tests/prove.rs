//! Prove of both editions and encode in the archive against the model: the answer and every byte of the output are equal, for inputs that
//! are allowed and for lists of any kind. A difference is shown with its seed.

mod common;

use common::{limits, refused, Edition, One, ProverInput, Two, LARGEST};
use std::collections::BTreeSet;
use tevrolig_model::domain::Subgroup;
use tevrolig_model::generate::{self, Rng};
use tevrolig_model::layout::Part;
use tevrolig_model::Answer;

#[test]
fn the_transcript_by_hand() {
    let input = ProverInput {
        edition: One,
        sheet: vec![0, 16, 8, 2, 1, 1, 1, 1, 0, 0, 0, 0],
        coefficients: vec![1, 2, 3, 4, 5, 0, 0, 0],
        coins: vec![2, 0, 3, 4, 0, 1],
    };
    input.is_proved(0, "by hand");
    input.is_proved(300, "by hand");
    let mut file = [0; 512];
    assert_eq!(input.proved(&mut file), Ok(1));
    assert_eq!(&file, include_bytes!("../../examples/worked-transcript"));
}

/// k = 2 and then 4; the words after the sheet were worked out by other formulas than the model's.
#[test]
fn a_transcript_of_edition_2() {
    let input = ProverInput {
        edition: Two,
        sheet: vec![0, 16, 8, 2, 1, 1, 2, 2, 0, 0, 0, 0, 4, 0, 0, 0, 0, 2],
        coefficients: (1..9).collect(),
        coins: vec![2, 0, 3, 4, 0, 5, 1, 0],
    };
    input.is_proved(0, "by hand");
    input.is_proved(300, "by hand");
    let mut file = [0; 512];
    assert_eq!(input.proved(&mut file), Ok(1));
    #[rustfmt::skip]
    let after = [
        5, 1, 9, 12, 13, 3, 5, 13, 0, 6, 11, 14, 8, 8, 8, 2,
        2,
        13, 12, 11, 3, 14, 15, 16, 7,
        0, 5, 3, 4, 0, 5,
        5,
        1, 0,
    ];
    let mut words = [&input.sheet[..], &after].concat();
    words.resize(127, 0);
    words.push(8101);
    let bytes: Vec<u8> = words.iter().flat_map(|word| word.to_le_bytes()).collect();
    assert_eq!(file[..], bytes);
}

#[test]
fn allowed_inputs_are_proved() {
    for (edition, inputs, most_n0) in [(One, 100_000, 64), (Two, 60_000, 128)] {
        for seed in 0..inputs {
            let mut rng = Rng::new(seed);
            let most_n0 = if seed % 100 == 0 {
                4 * most_n0
            } else {
                most_n0
            };
            let sheet = generate::sheet_up_to(edition, &mut rng, most_n0);
            let input = ProverInput::allowed(&mut rng, &sheet, seed % 3 != 0);
            let more = rng.place(700) * rng.place(2);
            input.is_proved(more, &format!("allowed, {edition:?}, seed {seed}"));
        }
    }
}

#[test]
fn the_largest_inputs_are_proved() {
    for (seed, sheet) in (0..).zip(LARGEST) {
        let mut rng = Rng::new(seed);
        for hostile in [false, true] {
            let input = ProverInput::allowed(&mut rng, sheet, hostile);
            input.is_proved(seed as usize, &format!("largest {seed}"));
        }
    }
}

/// Every position of the coefficients and of the coins in turn, and every round's out coins, in their domain and equal: an index's limit goes by
/// its round's k.
#[test]
fn every_position_of_an_input() {
    let sheets: [&[u32]; 9] = [
        &[0, 16, 8, 2, 1, 1, 1, 1, 0, 0, 0, 0],
        &[3, 16, 8, 2, 1, 2, 1, 3, 0, 0, 0, 0],
        &[3, 64, 16, 2, 2, 1, 3, 2, 4, 0, 0, 0],
        &[3, 32, 16, 2, 1, 2, 3, 2, 0, 0, 0, 0, 4, 0, 0, 0, 0, 2],
        &[1, 256, 64, 2, 2, 2, 4, 3, 5, 0, 0, 0],
        &[2, 64, 32, 2, 3, 1, 3, 2, 2, 7, 0, 0],
        &[0, 16, 8, 2, 1, 1, 2, 2, 0, 0, 0, 0, 4, 0, 0, 0, 0, 2],
        &[1, 256, 64, 8, 1, 2, 4, 5, 0, 0, 0, 0, 2, 0, 0, 0, 0, 2],
        &[2, 128, 64, 4, 2, 1, 3, 2, 7, 0, 0, 0, 2, 8, 0, 0, 0, 2],
    ];
    for (seed, sheet) in (0..).zip(sheets) {
        let mut rng = Rng::new(seed);
        let mut input = ProverInput::allowed(&mut rng, sheet, false);
        let (known, layout) = input.known();
        let what = format!("every position, seed {seed}");
        let length = 512 * layout.blocks();
        let (width, coefficients) = (known.width, input.coefficients.len());
        for at in 0..coefficients {
            let kept = input.coefficients[at];
            for word in [known.field.p as u32, u32::MAX] {
                input.coefficients[at] = word;
                assert_eq!(input.prove(length, &what), refused((5, at)));
                if input.edition == One {
                    let words = width * known.n0;
                    assert_eq!(input.encode(words, &what), refused((5, at)));
                }
            }
            input.coefficients[at] = kept;
        }
        let every: Vec<(Part, u64)> = layout
            .coin_sections()
            .flat_map(|section| limits(section).map(|limit| (section.part, limit)))
            .collect();
        let subgroup = Subgroup::of(&known);
        for (at, (part, limit)) in every.into_iter().enumerate() {
            let kept = input.coins.clone();
            for word in [limit as u32, u32::MAX] {
                input.coins[at] = word;
                assert_eq!(input.prove(length, &what), refused((5, coefficients + at)));
            }
            if let Part::OutCoins(round) = part {
                let first = layout.coin_position(layout.range(part).start);
                if !(at - first).is_multiple_of(width) {
                    // A later word makes another coin of it, whatever it is.
                    input.coins[at] = 1 + kept[at] % 1000;
                    input.is_proved(0, &what);
                    input.coins = kept;
                    continue;
                }
                for point in subgroup.domain(round) {
                    input.coins[at..at + width].fill(0);
                    input.coins[at] = point as u32;
                    assert_eq!(input.prove(length, &what), refused((7, at)));
                    if width > 1 {
                        input.coins[at + 1 + point as usize % (width - 1)] = 1;
                        assert_ne!(input.prove(length, &what), refused((7, at)));
                    }
                }
                if known.outs == 2 {
                    let other = 2 * first + width - at;
                    input.coins.copy_within(other..other + width, at);
                    for length in [length, 0] {
                        assert_eq!(input.prove(length, &what), refused((14, first + width)));
                    }
                }
            } else {
                input.coins[at] = limit as u32 - 1;
                input.is_proved(0, &what);
            }
            input.coins = kept;
        }
        input.is_proved(0, &what);
    }
}

/// Lists and outputs of any length, empty ones too, and words of any size.
#[test]
fn any_lists() {
    for edition in Edition::BOTH {
        let empty = ProverInput::empty(edition);
        assert_eq!(empty.prove(0, "empty"), refused((10, 0)));
        assert_eq!(empty.encode(0, "empty"), refused((10, 0)));
        let (mut done, mut numbers) = (0, BTreeSet::new());
        for seed in 300_000..330_000 {
            let mut rng = Rng::new(seed);
            let sheet = generate::sheet_up_to(edition, &mut rng, 32);
            let mut input = ProverInput::allowed(&mut rng, &sheet, true);
            for list in [&mut input.sheet, &mut input.coefficients, &mut input.coins] {
                generate::disturb(&mut rng, list);
            }
            let width = if sheet[0] == 3 { 4 } else { 1 };
            if rng.one_in(8) && input.coins.len() >= 3 * width {
                // Out coins, where there are rounds with two.
                input.coins.copy_within(width..2 * width, 2 * width);
            }
            let length = rng.pick(&[0, 511, 512, 1024, 1500]);
            let what = format!("any, {edition:?}, seed {seed}");
            match input.prove(length, &what) {
                Answer::Done(_) => done += 1,
                Answer::Refused { number, place } => {
                    numbers.insert((number, if number == 10 { place } else { 0 }));
                }
            }
            input.encode(length / 30, &what);
        }
        assert!(done > 3_000, "{done} of these inputs are proved");
        let lengths = [(10, 0), (10, 1), (10, 2)];
        let others = [3, 5, 7, 11, 14].map(|number| (number, 0));
        assert_eq!(numbers, lengths.into_iter().chain(others).collect());
    }
}
