//! The converter (document 02, CR 5): there and back, its refusals in their order,
//! and what stays untouched.

mod common;

use common::*;
use std::collections::BTreeMap;
use tevrolig_model::convert::{convert_to, with_equal_folds};
use tevrolig_model::generate::{self, aim, convert::case, Rng};
use tevrolig_model::stream::{read_word, write_word};
use tevrolig_model::Answer;

/// Room for every file.
const ROOM: usize = 512 * 68;

/// Converts to an edition into an output of this length: what is answered, and the
/// blocks written. Bytes after the blocks stay, and all of them after a refusal.
fn converted(to: Edition, file: &[u8], length: usize) -> Result<Vec<u8>, (u32, u64)> {
    let before: Vec<u8> = (0..length).map(|i| (i % 251) as u8).collect();
    let (mut output, given) = (before.clone(), file.to_vec());
    let answer = convert_to(to, file, &mut output);
    assert_eq!(file, given);
    match answer {
        Answer::Done(blocks) => {
            let end = 512 * blocks as usize;
            assert_eq!(output[end..], before[end..]);
            output.truncate(end);
            Ok(output)
        }
        Answer::Refused { number, place } => {
            assert_eq!(output, before);
            Err((number, place))
        }
    }
}

/// The number in a verdict line.
fn number_of(line: &str) -> u32 {
    line.split(' ').nth(1).unwrap().parse().unwrap()
}

fn there(file: &[u8]) -> Vec<u8> {
    converted(Two, file, ROOM).unwrap()
}

fn back(file: &[u8]) -> Vec<u8> {
    converted(One, file, ROOM).unwrap()
}

#[test]
fn the_transcript_by_hand() {
    let file = there(&hand_file());
    let stream: Vec<u32> = (0..127).map(|word| read_word(&file, word)).collect();
    assert_eq!(stream[..18], SHEET_2);
    assert_eq!(stream[18..51], STREAM[12..]);
    assert!(stream[51..].iter().all(|&fill| fill == 0));
    assert_eq!(file[508..], 7495_u32.to_le_bytes());
    assert_eq!(verdict_line(Two, &file), "accepted 0 0 4");
    assert_eq!(back(&file), hand_file());
}

#[test]
fn sheets_by_hand() {
    let later = |sheet: [u32; 12]| with_equal_folds(&sheet)[12..].to_vec();
    assert_eq!(
        later([0, 4, 2, 2, 0, 1, 1, 0, 0, 0, 0, 0]),
        [0, 0, 0, 0, 0, 2]
    );
    assert_eq!(
        later([1, 256, 64, 4, 2, 1, 1, 1, 1, 0, 0, 0]),
        [4, 4, 0, 0, 0, 2]
    );
    assert_eq!(
        later([1, 256, 128, 2, 5, 1, 1, 1, 1, 1, 1, 1]),
        [2, 2, 2, 2, 2, 2]
    );
}

/// Files that verify refuses with 7, 14, 8 or 9 pass 1 to 6, so they are converted too.
#[test]
fn there_and_back() {
    let mut rng = Rng::new(50);
    let mut numbers = BTreeMap::new();
    for round in 0..8000 {
        let most_n0 = if round % 20 == 0 { 512 } else { 64 };
        let sheet = generate::sheet_up_to(One, &mut rng, most_n0);
        let mut file = honest(&mut rng, &sheet, round % 2 == 0);
        let number = rng.pick(&[0, 7, 14, 8, 9]);
        aim(One, &mut rng, &mut file, number);
        let other = there(&file);
        assert_eq!(back(&other), file);

        // The words after the sheet, and nothing but zeros after them.
        let (due, all) = (layout(&sheet).words(), other.len() / 512 * 127);
        assert!((0..12).all(|word| read_word(&file, word) == read_word(&other, word)));
        assert!((12..due).all(|word| read_word(&file, word) == read_word(&other, word + 6)));
        assert!((due + 6..all).all(|word| read_word(&other, word) == 0));

        let before = verdict_line(One, &file);
        let after = verdict_line(Two, &other);
        let number = number_of(&before);
        let expected = match number {
            7 | 14 => {
                let place: u32 = before.split(' ').nth(2).unwrap().parse().unwrap();
                format!("refused {number} {} 0", place + 6)
            }
            _ => before.clone(),
        };
        assert_eq!(after, expected);
        *numbers.entry(number).or_insert(0) += 1;
    }
    assert!(numbers.keys().eq(&[0, 7, 8, 9, 14]), "{numbers:?}");
    assert!(numbers.values().all(|&count| count > 300), "{numbers:?}");
}

/// From edition 2 with equal folding numbers to edition 1, and back again.
#[test]
fn back_and_there() {
    let mut rng = Rng::new(51);
    for round in 0..4000 {
        let sheet = with_equal_folds(&generate::sheet_up_to(One, &mut rng, 64));
        let mut file = honest(&mut rng, &sheet, round % 2 == 0);
        let number = rng.pick(&[0, 7, 14, 8, 9]);
        aim(Two, &mut rng, &mut file, number);
        let other = back(&file);
        assert_eq!(there(&other), file);
        assert_eq!(
            other.len() / 512,
            (layout(&sheet).words() - 6).div_ceil(127)
        );
    }
}

/// The six words make a block more due, or not: streams whose length is about a
/// block's.
#[test]
fn numbers_of_blocks() {
    let mut rng = Rng::new(52);
    // 12 + 64 + 1 + 16 + t_0 words.
    for (t, one, two) in [(28, 1, 1), (29, 1, 2), (34, 1, 2), (35, 2, 2)] {
        let sheet = [1, 64, 32, 2, 0, 1, t, 0, 0, 0, 0, 0];
        let file = honest(&mut rng, &sheet, true);
        assert_eq!(file.len(), 512 * one);
        let due = 512 * two;
        assert_eq!(there(&file).len(), due);
        for length in [0, 512, due - 1] {
            if length < due {
                let short = converted(Two, &file, length);
                assert_eq!(short, Err((11, two as u64)));
            }
        }
        let other = converted(Two, &file, due).unwrap();
        assert_eq!(converted(One, &other, 512 * one - 1), Err((11, one as u64)));
        assert_eq!(converted(One, &other, 512 * one), Ok(file));
    }
    let longest = [2, 4096, 2048, 2, 5, 2, 48, 48, 48, 48, 48, 48];
    let file = honest(&mut rng, &longest, false);
    assert_eq!(converted(Two, &file, 512 * 67 - 1), Err((11, 67)));
    let other = converted(Two, &file, 512 * 67).unwrap();
    assert_eq!(converted(One, &other, 512 * 67), Ok(file));
}

/// 13 at each i, after 1 to 6 and before 11, whatever verify says from 7 on.
#[test]
fn differing_folding_numbers_13() {
    let mut rng = Rng::new(53);
    for i in 1..=5 {
        let expected = Err((13, i as u64));
        for _ in 0..60 {
            let sheet = generate::differing_at(&mut rng, i);
            let mut file = honest(&mut rng, &sheet, false);
            let later = rng.pick(&[0, 7, 14, 8, 9]);
            aim(Two, &mut rng, &mut file, later);
            let blocks = (layout(&sheet).words() - 6).div_ceil(127);
            for length in [0, 512 * blocks - 1, 512 * blocks, ROOM] {
                assert_eq!(converted(One, &file, length), expected);
            }
            let number = 1 + rng.below(6) as u32;
            if aim(Two, &mut rng, &mut file, number) {
                let (found, _) = converted(One, &file, 0).unwrap_err();
                assert_eq!(found, number);
            }
        }
    }
    // By hand; what follows the first other k does not count.
    let file = honest(&mut rng, &LARGE_FIRST, false);
    assert_eq!(converted(One, &file, ROOM), Err((13, 1)));
    let sheet = [1, 256, 128, 2, 3, 1, 1, 1, 1, 1, 0, 0, 2, 4, 2, 0, 0, 2];
    let file = honest(&mut rng, &sheet, false);
    assert_eq!(converted(One, &file, ROOM), Err((13, 2)));
    // The zeros past k_M are no folding numbers.
    let sheet = [1, 256, 128, 2, 1, 1, 1, 1, 0, 0, 0, 0, 2, 0, 0, 0, 0, 2];
    let file = honest(&mut rng, &sheet, false);
    assert!(converted(One, &file, ROOM).is_ok());
}

/// Places of the refusals 1 to 6, counted in the edition that is read.
#[test]
fn refusals_by_hand() {
    let one = hand_file();
    let two = there(&one);
    let both = |changes: [&[(usize, u32)]; 2]| {
        let [one, two] = [changed(&one, changes[0]), changed(&two, changes[1])];
        (
            converted(Two, &one, 0).unwrap_err(),
            converted(One, &two, 0).unwrap_err(),
        )
    };
    assert_eq!(both([&[], &[]]), ((11, 1), (11, 1)));
    assert_eq!(both([&[(3, 3)], &[(12, 3)]]), ((3, 3), (3, 12)));
    assert_eq!(both([&[(6, 3)], &[(6, 3), (17, 1)]]), ((3, 6), (3, 17)));
    assert_eq!(both([&[(12, 17)], &[(18, 17)]]), ((5, 12), (5, 18)));
    assert_eq!(both([&[(41, 8)], &[(47, 8)]]), ((5, 41), (5, 47)));
    assert_eq!(both([&[(45, 1)], &[(51, 1)]]), ((6, 45), (6, 51)));
    assert_eq!(both([&[(126, 1)], &[(126, 9)]]), ((6, 126), (6, 126)));
    // 7, 14, 8 and 9 are not looked at.
    assert_eq!(both([&[(37, 3)], &[(43, 3)]]), ((11, 1), (11, 1)));
    for (to, file) in [(Two, &one), (One, &two)] {
        for length in [0, 1, 511] {
            assert_eq!(converted(to, &file[..length], ROOM), Err((1, 0)));
        }
        let mut wrong = file.clone();
        wrong[100] ^= 1;
        assert_eq!(converted(to, &wrong, ROOM), Err((2, 0)));
        let mut longer = file.clone();
        longer.resize(1024, 0);
        assert_eq!(converted(to, &longer, ROOM), Err((2, 1)));
        assert_eq!(converted(to, &changed(&longer, &[]), ROOM), Err((4, 1)));
    }
    // Each takes its own edition: 3 at word 12 is a table's, and the reply 5 stands
    // where edition 1 has its final index, which is below 4.
    assert_eq!(converted(One, &one, ROOM), Err((3, 12)));
    assert_eq!(converted(Two, &two, ROOM), Err((5, 44)));
}

/// Files with up to three faults and outputs of any length: what is due by the way
/// that they are made, and the same places as verify's for 1 to 6.
#[test]
fn files_with_faults() {
    let numbers: [(Edition, &[u32]); 2] = [
        (Two, &[0, 1, 2, 3, 4, 5, 6, 11]),
        (One, &[0, 1, 2, 3, 4, 5, 6, 11, 13]),
    ];
    for (to, all) in numbers {
        let mut rng = Rng::new(54);
        let mut met = BTreeMap::new();
        let mut second_faults = BTreeMap::new();
        for _ in 0..20_000 {
            let case = case(to, &mut rng, 64);
            match converted(to, &case.file, case.length) {
                Ok(written) => {
                    assert_eq!(case.refused, None);
                    assert_eq!(written.len(), 512 * case.blocks);
                }
                Err((number, place)) => {
                    assert_eq!(case.refused, Some(number));
                    match number {
                        11 => assert_eq!(place, case.blocks as u64),
                        13 => assert!((1..=5).contains(&place)),
                        _ => {
                            let verdict = verdict_line(to.other(), &case.file);
                            assert_eq!(verdict, format!("refused {number} {place} 0"));
                        }
                    }
                    for &fault in case.faults.iter().filter(|&&fault| fault != number) {
                        *second_faults.entry((number, fault)).or_insert(0) += 1;
                    }
                }
            }
            *met.entry(case.refused.unwrap_or(0)).or_insert(0) += 1;
        }
        assert!(met.keys().eq(all), "{met:?}");
        assert!(met.values().all(|&count| count > 300), "{met:?}");
        // Each of 1 to 6 came before an 11, and where there is one before a 13.
        for number in 1..=6 {
            for later in [11, 13] {
                let due = all.contains(&later);
                assert_eq!(second_faults.contains_key(&(number, later)), due);
            }
        }
        assert_eq!(second_faults.contains_key(&(13, 11)), all.contains(&13));
    }
}

/// Any bytes get an answer.
#[test]
fn any_bytes() {
    let mut rng = Rng::new(55);
    for _ in 0..5000 {
        let length = rng.pick(&[0, 511, 512, 512, 1024]);
        let mut file: Vec<u8> = (0..length).map(|_| rng.bits() as u8).collect();
        if length % 512 == 0 && length > 0 {
            let edition = rng.pick(&Edition::BOTH);
            let sheet = generate::sheet_up_to(edition, &mut rng, 32);
            for (word, &value) in sheet.iter().enumerate() {
                write_word(&mut file, word, value);
            }
            generate::rewrite_checks(&mut file);
        }
        let room = rng.pick(&[0, 512, 2000]);
        for to in Edition::BOTH {
            assert!(converted(to, &file, room).is_err());
        }
    }
}
