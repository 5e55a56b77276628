//! The reads: a table place is counted once, however many coins lead to it (document
//! 02, CR 8).

mod common;

use common::*;
use tevrolig_model::baseline::{self, Lists, Newton};
use tevrolig_model::convert::with_equal_folds;
use tevrolig_model::elements::Elements;
use tevrolig_model::generate::repeats::{self, reads_due, Met};
use tevrolig_model::generate::{self, Rng};
use tevrolig_model::layout::Part;
use tevrolig_model::load::drawn_inputs;
use tevrolig_model::stream::read_word;
use tevrolig_model::verify::verify_in;
use tevrolig_model::Outcome;

/// The transcript by hand with other indices, in both editions.
#[test]
fn the_transcript_by_hand() {
    let cases: [(&[u32], &[u32], &str); 7] = [
        (&[0], &[1], "accepted 0 0 4"),
        (&[0], &[1, 1], "accepted 0 0 4"),
        (&[0], &[1, 0], "accepted 0 0 6"),
        (&[0, 0], &[1, 1], "accepted 0 0 4"),
        (&[0, 7], &[1, 1], "accepted 0 0 6"),
        // The same indices over both domains are places of two tables.
        (&[1, 3], &[1, 3, 3, 1], "accepted 0 0 8"),
        (&[2, 2], &[2, 2, 2, 0, 1, 3, 0, 1, 2], "accepted 0 0 10"),
    ];
    for (shifts, finals, accepted) in cases {
        let counts = [(6, shifts.len() as u32), (7, finals.len() as u32)];
        let sheet = with(&SHEET, &counts);
        let coins = [&COINS[..4], shifts, finals].concat();
        for sheet in [with_equal_folds(&sheet), sheet] {
            let file = generate::honest_file(&sheet, &COEFFICIENTS, &coins);
            assert_eq!(verdict_line(edition(&sheet), &file), accepted, "{coins:?}");
        }
    }
}

/// A sample's honest file with these indices in each level.
fn with_indices(sample: &Sample, levels: [&[u32]; 3]) -> Vec<u8> {
    let parts = [
        Part::ShiftIndices(1),
        Part::ShiftIndices(2),
        Part::FinalIndices,
    ];
    let mut coins = sample.coins.clone();
    for (part, indices) in parts.into_iter().zip(levels) {
        let words = sample.layout.range(part);
        assert_eq!(words.len(), indices.len());
        let at = sample.layout.coin_position(words.start);
        coins[at..at + indices.len()].copy_from_slice(indices);
    }
    generate::honest_file(sample.words, &sample.coefficients, &coins)
}

/// One index in all rounds is k_i places of each table; for 8 the rounds up to the
/// clash count.
#[test]
fn one_index_in_two_rounds() {
    let lists: [[&[u32]; 3]; 2] = [[&[5; 4], &[5; 3], &[5; 5]], [&[5; 3], &[5; 2], &[5; 4]]];
    let reads = [[2, 2 + 2, 2 + 2 + 2], [16, 16 + 4, 16 + 4 + 2]];
    for ((sample, levels), [one, two, all]) in samples().iter().zip(lists).zip(reads) {
        let file = with_indices(sample, levels);
        let verdict_line =
            |changes: &[(usize, u32)]| verdict_line(sample.edition, &changed(&file, changes));
        assert_eq!(verdict_line(&[]), format!("accepted 0 0 {all}"));
        for (i, reads) in [(1, one), (2, two)] {
            let k = u64::from(fold(sample.words, i - 1));
            let point = sample.sheet.field.pow(sample.subgroup.point(i - 1, 5), k);
            let out = sample.layout.range(Part::OutCoins(i)).start;
            let clash = verdict_line(&[(out, point as u32)]);
            assert_eq!(clash, format!("refused 8 {i} {reads}"));
        }
    }
}

/// The clashing round counts with all its different indices, also those after the one
/// that clashes, and later rounds with none.
#[test]
fn repeats_in_a_round_that_clashes() {
    let lists: [[&[u32]; 3]; 2] = [
        [&[9, 7, 9, 60], &[3, 60, 3], &[0, 1, 2, 3, 4]],
        [&[9, 7, 9], &[3, 3], &[0, 1, 2, 3]],
    ];
    let reads = [[2 * 3, 2 * (3 + 2)], [16 * 2, 16 * 2 + 4]];
    for ((sample, levels), reads) in samples().iter().zip(lists).zip(reads) {
        let file = with_indices(sample, levels);
        for (i, reads) in (1..).zip(reads) {
            let k = u64::from(fold(sample.words, i - 1));
            for &j in levels[i - 1] {
                let point = sample.subgroup.point(i - 1, j as usize);
                let power = sample.sheet.field.pow(point, k) as u32;
                for out in sample.layout.range(Part::OutCoins(i)) {
                    let clash = changed(&file, &[(out, power)]);
                    let refused = format!("refused 8 {i} {reads}");
                    assert_eq!(verdict_line(sample.edition, &clash), refused);
                }
            }
        }
    }
}

/// A wrong table word under one final index fails at its first place: repeats before it
/// are counted once, and what comes after it is not counted.
#[test]
fn repeats_around_a_failing_coin() {
    let one = [2, 64, 16, 4, 1, 1, 2, 12, 0, 0, 0, 0];
    let finals = [3, 3, 1, 3, 1, 4, 4, 0, 3, 7, 0, 6];
    // The first place of an index, and how many are different up to there.
    let cases = [
        (3, 0, 1),
        (1, 2, 2),
        (4, 5, 3),
        (0, 7, 4),
        (7, 9, 5),
        (6, 11, 6),
    ];
    for sheet in [one.to_vec(), with_equal_folds(&one)] {
        let mut rng = Rng::new(17);
        let coefficients = generate::coefficients(&mut rng, &sheet);
        let mut coins = generate::coins(&mut rng, &sheet, false);
        let layout = layout(&sheet);
        for (part, indices) in [
            (Part::ShiftIndices(1), &[15, 15][..]),
            (Part::FinalIndices, &finals),
        ] {
            let at = layout.coin_position(layout.range(part).start);
            coins[at..at + indices.len()].copy_from_slice(indices);
        }
        let file = generate::honest_file(&sheet, &coefficients, &coins);
        let verdict_line =
            |changes: &[(usize, u32)]| verdict_line(edition(&sheet), &changed(&file, changes));
        assert_eq!(verdict_line(&[]), format!("accepted 0 0 {}", 4 + 4 * 6));
        let table = layout.range(Part::Table(1)).start;
        for (index, place, different) in cases {
            for m in 0..4 {
                let word = table + index + 8 * m;
                let other = (word, (read_word(&file, word) + 1) % 2013265921);
                let refused = format!("refused 9 {place} {}", 4 + 4 * different);
                assert_eq!(verdict_line(&[other]), refused);
            }
        }
    }
}

/// As many indices as are compared in pairs, more, and as many as there may be; among
/// all that a coin can pick from, and as few of them as one.
#[test]
fn lists_of_every_length() {
    let mut rng = Rng::new(83);
    for t in [1, 2, 7, 8, 9, 10, 47, 48] {
        let sheet = [2, 4096, 64, 2, 0, 1, t, 0, 0, 0, 0, 0];
        let coefficients = generate::coefficients(&mut rng, &sheet);
        let lists: [fn(u32, u32) -> u32; 6] = [
            |_, _| 2047,
            |i, _| 2047 - i,
            |i, t| i % t.div_ceil(2),
            |i, t| i / 2 + t,
            |i, t| if i + 1 == t { 0 } else { i },
            |i, _| 2047 * (i % 2),
        ];
        for list in lists {
            let finals: Vec<u32> = (0..t).map(|i| list(i, t)).collect();
            let coins = [&[77], &finals[..]].concat();
            let mut different = finals.clone();
            different.sort();
            different.dedup();
            let accepted = format!("accepted 0 0 {}", 2 * different.len());
            for sheet in [sheet.to_vec(), with_equal_folds(&sheet)] {
                let file = generate::honest_file(&sheet, &coefficients, &coins);
                assert_eq!(verdict_line(edition(&sheet), &file), accepted, "{finals:?}");
                agree_with_baselines(edition(&sheet), &file);
            }
        }
    }
}

/// The baselines have elements of one word alone.
fn agree_with_baselines(edition: Edition, file: &[u8]) {
    if read_word(file, 0) == 3 {
        return;
    }
    let verdicts = [
        baseline::verify::<Newton, false>(edition, file),
        baseline::verify::<Newton, true>(edition, file),
        baseline::verify::<Lists, true>(edition, file),
    ];
    assert_eq!(verdicts, [verify_in(edition, file); 3]);
}

/// Repeats made on purpose, of every kind, in honest files and in files with an 8 or a
/// 9: what the model and the baselines count.
#[test]
fn repeats_of_every_kind() {
    for edition in Edition::BOTH {
        let mut rng = Rng::new(81);
        let mut met = Met::default();
        for _ in 0..20_000 {
            let case = repeats::case(edition, &mut rng, 128);
            let verdict = verify_in(edition, &case.file);
            let due = reads_due(&case.sheet, &case.file, verdict.outcome);
            assert_eq!(verdict.reads, due, "{:?} {:?}", case.sheet, case.coins);
            met.count(&case.sheet, &case.file, verdict.outcome);
            agree_with_baselines(edition, &case.file);
        }
        assert!(met.rarest() > 100, "{met:?}");
    }
}

/// The coins that are drawn to be hostile, with any damage.
#[test]
fn repeats_in_other_files() {
    for edition in Edition::BOTH {
        let mut rng = Rng::new(82);
        let (mut met, mut repeated) = (Met::default(), 0);
        for round in 0..20_000 {
            let sheet = generate::sheet_up_to(edition, &mut rng, 64);
            let mut file = honest(&mut rng, &sheet, true);
            let number = rng.pick(&[0, 0, 8, 9, 9]);
            if number > 0 {
                generate::aim(edition, &mut rng, &mut file, number);
            }
            let verdict = verify_in(edition, &file);
            let due = reads_due(&sheet, &file, verdict.outcome);
            assert_eq!(verdict.reads, due, "round {round}");
            met.count(&sheet, &file, verdict.outcome);
            let coins: u32 = (0..6).map(|i| fold(&sheet, i) * sheet[6 + i]).sum();
            let accepted = verdict.outcome == Outcome::Accepted;
            repeated += usize::from(accepted && verdict.reads < u64::from(coins));
        }
        assert!(met.rarest() > 20, "{met:?}");
        assert!(repeated > 4000, "{repeated}");
    }
}

/// Most runs of a load repeat an index.
#[test]
fn repeats_in_the_load() {
    let repeats = |seed: u32| {
        let fewer = drawn_inputs(seed).filter(|input| {
            let coins: u32 = input.sheet[3] * input.sheet[6..].iter().sum::<u32>();
            input.promised() != format!("accepted 0 0 {coins}")
        });
        fewer.count()
    };
    for seed in [1, 2463534242] {
        assert!(repeats(seed) > 500, "{}", repeats(seed));
    }
}
