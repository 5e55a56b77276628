//! Verify of both editions in the archive, and each of its two steps, against the model: outcome, place and reads are equal on every file.

mod common;

use common::{changed, edition, honest, reads, verdict_line, Edition, One, Two, LARGEST};
use std::collections::BTreeMap;
use tevrolig_model::generate::{self, Rng, REFUSALS};

/// Both verdicts of a file as a line, which must be equal and leave the file as it was; likewise of the two steps.
fn agree(edition: Edition, file: &[u8], what: &str, seed: u64) -> String {
    let before = file.to_vec();
    let line = verdict_line(edition, file, &format!("{what}, seed {seed}"));
    assert_eq!(file, before, "{what}: the file changed, seed {seed}");
    line
}

/// A drawn sheet and an honest file of it.
fn drawn(edition: Edition, rng: &mut Rng, most_n0: u32, hostile: bool) -> (Vec<u32>, Vec<u8>) {
    let sheet = generate::sheet_up_to(edition, rng, most_n0);
    let file = honest(rng, &sheet, hostile);
    (sheet, file)
}

#[test]
fn honest_files_of_every_kind_are_accepted() {
    for (edition, most_n0) in [(One, 64), (Two, 128)] {
        for seed in 0..30_000 {
            let mut rng = Rng::new(seed);
            let (sheet, file) = drawn(edition, &mut rng, most_n0, seed % 2 == 0);
            let expected = format!("accepted 0 0 {}", reads(&sheet, &file));
            assert_eq!(agree(edition, &file, "honest", seed), expected);
        }
    }
}

#[test]
fn damaged_files_have_the_same_verdict() {
    for (edition, most_n0) in [(One, 32), (Two, 64)] {
        let mut seen = BTreeMap::new();
        for seed in 100_000..220_000 {
            let mut rng = Rng::new(seed);
            let (_, mut file) = drawn(edition, &mut rng, most_n0, seed % 3 == 0);
            generate::damage(edition, &mut rng, &mut file);
            if seed % 4 == 0 {
                generate::damage(edition, &mut rng, &mut file);
            }
            let line = agree(edition, &file, "damaged", seed);
            let number: u32 = line.split(' ').nth(1).unwrap().parse().unwrap();
            *seen.entry(number).or_insert(0) += 1;
        }
        for number in [0].into_iter().chain(REFUSALS) {
            assert!(seen[&number] > 100, "every outcome is met: {seen:?}");
        }
    }
}

/// A fault at each word of the sheet, and a second one that is tested later: in edition 2 one of the words 12 to 17 counts before one of
/// the words 6 to 11.
#[test]
fn faults_of_the_sheet() {
    for edition in Edition::BOTH {
        let order = generate::test_order(edition);
        for seed in 200_000..204_000 {
            let mut rng = Rng::new(seed);
            let (sheet, file) = drawn(edition, &mut rng, 256, false);
            let faults: Vec<(usize, u32)> = order
                .iter()
                .map(|&place| (place, generate::fault(&mut rng, &sheet, place)))
                .collect();
            for (turn, &first) in faults.iter().enumerate() {
                let refused = format!("refused 3 {} 0", first.0);
                let later = rng.pick(&faults[turn..]);
                for changes in [&[first][..], &[first, later]] {
                    let file = changed(&file, changes);
                    let line = agree(edition, &file, "a fault of the sheet", seed);
                    assert_eq!(line, refused, "seed {seed}");
                }
            }
        }
    }
}

/// Sheets that are near to one without fault, with several other words.
#[test]
fn sheets_of_any_words() {
    for edition in Edition::BOTH {
        for seed in 300_000..330_000 {
            let mut rng = Rng::new(seed);
            let (sheet, file) = drawn(edition, &mut rng, 32, false);
            let mut changes = Vec::new();
            for _ in 0..=rng.place(3) {
                let any = rng.word();
                let values = [0, 1, 2, 3, 4, 8, 16, 32, 48, 49, any];
                changes.push((rng.place(sheet.len()), rng.pick(&values)));
            }
            agree(edition, &changed(&file, &changes), "any sheet", seed);
        }
    }
}

#[test]
fn every_single_word_change_of_small_files() {
    for (edition, most_n0) in [(One, 16), (Two, 32)] {
        for seed in 0..40 {
            let mut rng = Rng::new(seed);
            let (_, file) = drawn(edition, &mut rng, most_n0, true);
            for word in 0..file.len() / 4 {
                let any = rng.word();
                for value in [0, 1, 2, 4, any % 17, 17, 65537, any, u32::MAX] {
                    let mut other = file.clone();
                    other[4 * word..4 * word + 4].copy_from_slice(&value.to_le_bytes());
                    agree(edition, &other, "one word changed", seed);
                    generate::rewrite_checks(&mut other);
                    agree(edition, &other, "one word changed, checks right", seed);
                }
            }
        }
    }
}

#[test]
fn every_length_of_a_file() {
    for edition in Edition::BOTH {
        let (_, file) = drawn(edition, &mut Rng::new(1), 64, false);
        let longer = [&file[..], &file, &[7; 1024]].concat();
        for length in 0..=longer.len() {
            agree(edition, &longer[..length], "cut", length as u64);
        }
    }
}

/// Random bytes, also after a sheet without fault and with right checks, so that the tests after 3 are met too; and files of the other
/// edition.
#[test]
fn other_files() {
    for edition in Edition::BOTH {
        for seed in 0..20_000 {
            let mut rng = Rng::new(seed);
            let length = match rng.below(3) {
                0 => rng.place(2048),
                1 => 512 * rng.place(8),
                _ => 512,
            };
            let file: Vec<u8> = (0..length).map(|_| rng.bits() as u8).collect();
            agree(edition, &file, "random", seed);
            agree(edition, &changed(&file, &[]), "random, checks right", seed);
            if length >= 512 {
                let sheet = generate::sheet_up_to(edition, &mut rng, 64);
                let changes: Vec<(usize, u32)> = sheet.into_iter().enumerate().collect();
                agree(edition, &changed(&file, &changes), "after a sheet", seed);
            }
            let (_, file) = drawn(edition.other(), &mut rng, 32, true);
            agree(edition, &file, "the other edition", seed);
        }
    }
}

#[test]
fn the_largest_sheets() {
    for (seed, sheet) in (0..).zip(LARGEST) {
        let mut rng = Rng::new(seed);
        let edition = edition(sheet);
        for hostile in [false, true] {
            let file = honest(&mut rng, sheet, hostile);
            let expected = format!("accepted 0 0 {}", reads(sheet, &file));
            assert_eq!(agree(edition, &file, "largest", seed), expected);
            for number in REFUSALS {
                let mut damaged = file.clone();
                if generate::aim(edition, &mut rng, &mut damaged, number) {
                    agree(edition, &damaged, "largest, damaged", seed);
                }
            }
        }
    }
}
