//! The converter in the archive against the model: the answer and every byte of the output are equal, both ways, for honest files, for
//! files with faults and for any bytes.

mod common;

use common::{agree, honest, refused, verify, Edition, One, Two, LARGEST};
use std::collections::BTreeMap;
use tevrolig::convert::{to_edition_1, to_edition_2};
use tevrolig_model::convert::{convert_to, with_equal_folds};
use tevrolig_model::generate::{self, aim, convert::case, Rng};
use tevrolig_model::Answer;

/// Room for every file.
const ROOM: usize = 512 * tevrolig::MAX_BLOCKS;

/// Both answers of the converter to an edition, which are equal with every byte of the output and of the guards, and the blocks written; the
/// file is only read.
fn convert(to: Edition, file: &[u8], length: usize, what: &str) -> (Answer, Vec<u8>) {
    let archive = match to {
        One => to_edition_1,
        Two => to_edition_2,
    };
    let before = file.to_vec();
    let (answer, mut output) = agree(
        |i| (43 * i + length) as u8,
        length,
        |output| match archive(file, output) {
            Ok(blocks) => Answer::Done(blocks as u64),
            Err(refusal) => Answer::Refused {
                number: refusal.number(),
                place: refusal.place(),
            },
        },
        |output| convert_to(to, file, output),
        |blocks| 512 * blocks as usize,
        what,
    );
    assert!(file == before, "{what}: the file changed");
    if let Answer::Done(blocks) = answer {
        output.truncate(512 * blocks as usize);
    }
    (answer, output)
}

/// The blocks of a file that is converted into an output with room, as a block more is always enough, and into one that just holds them; one
/// that is a byte too short is refused.
fn blocks(to: Edition, file: &[u8], what: &str) -> Vec<u8> {
    let (answer, output) = convert(to, file, file.len() + 700, what);
    let blocks = output.len() / 512;
    assert_eq!(answer, Answer::Done(blocks as u64), "{what}");
    assert!(
        convert(to, file, output.len(), what).1 == output,
        "{what}: exact"
    );
    let (short, _) = convert(to, file, output.len() - 1, what);
    assert_eq!(short, refused((11, blocks)), "{what}");
    output
}

/// There and back gives the same bytes, whatever verify says from 7 on; its verdict stays, and the word number of a 7 or a 14 is six higher.
#[test]
fn there_and_back() {
    let mut seen = BTreeMap::new();
    for seed in 0..20_000 {
        let mut rng = Rng::new(seed);
        let what = format!("there and back, seed {seed}");
        let most_n0 = if seed % 50 == 0 { 512 } else { 64 };
        let sheet = generate::sheet_up_to(One, &mut rng, most_n0);
        let mut file = honest(&mut rng, &sheet, seed % 2 == 0);
        let number = rng.pick(&[0, 7, 14, 14, 8, 9]);
        aim(One, &mut rng, &mut file, number);
        let other = blocks(Two, &file, &what);
        assert!(blocks(One, &other, &what) == file, "{what}");

        let (before, after) = (verify(One, &file), verify(Two, &other));
        let numbers = |verdict: tevrolig::Verdict| match verdict.outcome.result() {
            Ok(()) => (0, 0, verdict.reads),
            Err(refusal) => (refusal.number(), refusal.place(), verdict.reads),
        };
        let (number, place, reads) = numbers(before);
        let place = match number {
            7 | 14 => place + 6,
            _ => place,
        };
        assert_eq!(numbers(after), (number, place, reads), "{what}");
        *seen.entry(number).or_insert(0) += 1;
    }
    assert!(seen.keys().eq(&[0, 7, 8, 9, 14]), "{seen:?}");
    assert!(seen.values().all(|&count| count > 1000), "{seen:?}");
}

#[test]
fn back_and_there() {
    for seed in 0..10_000 {
        let mut rng = Rng::new(seed);
        let what = format!("back and there, seed {seed}");
        let sheet = with_equal_folds(&generate::sheet_up_to(One, &mut rng, 64));
        let file = honest(&mut rng, &sheet, seed % 2 == 0);
        let other = blocks(One, &file, &what);
        assert!(blocks(Two, &other, &what) == file, "{what}");
    }
}

/// The worked transcript: its stream with six words more, and a new check.
#[test]
fn the_transcript_by_hand() {
    let file = include_bytes!("../../examples/worked-transcript");
    let other = blocks(Two, file, "by hand");
    let mut expected = vec![0; 512];
    expected[..48].copy_from_slice(&file[..48]);
    expected[48] = 2;
    expected[68] = 2;
    expected[72..204].copy_from_slice(&file[48..180]);
    expected[508..].copy_from_slice(&7495_u32.to_le_bytes());
    assert_eq!(other, expected);
    assert_eq!(blocks(One, &other, "by hand"), file);
}

/// Streams whose length is about a block's: the six words make a block more due, or not.
#[test]
fn numbers_of_blocks() {
    let mut rng = Rng::new(7);
    // 12 + 64 + 1 + 16 + t_0 words.
    for t in 24..40 {
        let sheet = [1, 64, 32, 2, 0, 1, t, 0, 0, 0, 0, 0];
        let file = honest(&mut rng, &sheet, true);
        let what = format!("t_0 = {t}");
        let other = blocks(Two, &file, &what);
        assert_eq!(file.len(), if t <= 34 { 512 } else { 1024 });
        assert_eq!(other.len(), if t <= 28 { 512 } else { 1024 });
        for length in [0, 1, 511, 512, 513, 1023, 1024, 1025] {
            convert(Two, &file, length, &what);
            convert(One, &other, length, &what);
        }
        assert!(blocks(One, &other, &what) == file, "{what}");
    }
}

#[test]
fn the_largest_files() {
    let longest = [2, 4096, 2048, 2, 5, 2, 48, 48, 48, 48, 48, 48];
    let mut rng = Rng::new(8);
    let file = honest(&mut rng, &longest, false);
    let other = blocks(Two, &file, "longest");
    assert_eq!(other.len(), ROOM);
    assert!(blocks(One, &other, "longest") == file);
    for sheet in LARGEST.into_iter().filter(|sheet| sheet.len() == 18) {
        let file = honest(&mut rng, sheet, false);
        let (answer, _) = convert(One, &file, ROOM, "largest");
        let folds: Vec<u32> = [&sheet[3..4], &sheet[12..12 + sheet[4] as usize]].concat();
        match folds.iter().position(|&k| k != folds[0]) {
            Some(i) => assert_eq!(answer, refused((13, i))),
            None => assert!(matches!(answer, Answer::Done(_))),
        }
    }
}

/// 13 at each i, in outputs that have room and in those that have none.
#[test]
fn differing_folding_numbers() {
    for i in 1..=5 {
        for seed in 0..100 {
            let mut rng = Rng::new(seed);
            let what = format!("13 at {i}, seed {seed}");
            let sheet = generate::differing_at(&mut rng, i);
            let mut file = honest(&mut rng, &sheet, false);
            let later = rng.pick(&[0, 7, 14, 8, 9]);
            aim(Two, &mut rng, &mut file, later);
            for length in [0, file.len() - 1, file.len(), file.len() + 700] {
                assert_eq!(
                    convert(One, &file, length, &what).0,
                    refused((13, i)),
                    "{what}"
                );
            }
            let number = 1 + rng.below(6) as u32;
            if aim(Two, &mut rng, &mut file, number) {
                let (answer, _) = convert(One, &file, 0, &what);
                let first =
                    matches!(answer, Answer::Refused { number: found, .. } if found == number);
                assert!(first, "{what}: {number} comes before 13");
            }
        }
    }
}

/// Files with up to three faults, and outputs of any length: the refusal that the file is made for, and nothing written.
#[test]
fn files_with_faults() {
    let numbers: [(Edition, &[u32]); 2] = [
        (Two, &[0, 1, 2, 3, 4, 5, 6, 11]),
        (One, &[0, 1, 2, 3, 4, 5, 6, 11, 13]),
    ];
    for (to, all) in numbers {
        let mut met = BTreeMap::new();
        for seed in 0..100_000 {
            let case = case(to, &mut Rng::new(seed), 64);
            let what = format!("faults {:?}, seed {seed}", case.faults);
            let found = match convert(to, &case.file, case.length, &what).0 {
                Answer::Done(blocks) => {
                    assert_eq!(blocks, case.blocks as u64, "{what}");
                    None
                }
                Answer::Refused { number, .. } => Some(number),
            };
            assert_eq!(found, case.refused, "{what}");
            *met.entry(found.unwrap_or(0)).or_insert(0) += 1;
        }
        assert!(met.keys().eq(all), "{met:?}");
        assert!(met.values().all(|&count| count > 1000), "{met:?}");
    }
}

/// Files of the other edition, files cut at every length, and random bytes.
#[test]
fn other_files() {
    for seed in 0..5_000 {
        let mut rng = Rng::new(seed);
        let what = format!("other, seed {seed}");
        let sheet = generate::sheet_up_to(One, &mut rng, 32);
        let file = honest(&mut rng, &sheet, true);
        convert(One, &file, 2000, &what);
        let sheet = generate::sheet_up_to(Two, &mut rng, 32);
        let mut file = honest(&mut rng, &sheet, true);
        convert(Two, &file, 2000, &what);
        generate::damage(Two, &mut rng, &mut file);
        generate::damage(Two, &mut rng, &mut file);
        let length = rng.place(1100);
        convert(Two, &file, length, &what);
        convert(One, &file, length, &what);
    }
    let mut rng = Rng::new(9);
    let sheet = with_equal_folds(&generate::sheet_up_to(One, &mut rng, 64));
    let file = [honest(&mut rng, &sheet, false), vec![7; 600]].concat();
    for length in 0..file.len() {
        let what = format!("cut at {length}");
        convert(One, &file[..length], 4000, &what);
        convert(Two, &file[..length], 4000, &what);
    }
}
