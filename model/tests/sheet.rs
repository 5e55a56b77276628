//! The sheet of both editions: every rule of its words, and the order in which they
//! are tested (document 01, "Fields and the sheet"; document 02, CR 1, CR 5 and CR 11).

mod common;

use common::*;
use std::cmp::Ordering;
use std::collections::BTreeSet;
use tevrolig_model::generate::{self, differing_at, fault, test_order, Rng};
use tevrolig_model::prove::prove_in;
use tevrolig_model::sheet::Sheet;
use tevrolig_model::Answer;

/// The rules written once more, in wide numbers and word by word: the first place
/// that breaks its rule.
fn first_broken(words: &[u32]) -> Option<usize> {
    let edition = edition(words);
    let w: Vec<u64> = words.iter().map(|&word| word.into()).collect();
    let power_of_two = |x: u64| (0..32).any(|e| x == 1 << e);
    // k_0 to k_i multiplied.
    let product = |i: usize| match edition {
        One => w[3].pow(i as u32 + 1),
        Two => (1..=i).map(|l| w[11 + l]).product::<u64>() * w[3],
    };
    let kept = |place: usize| match place {
        0 => w[0] <= 3,
        1 => {
            let order = [16, 65536, 2013265920, 2013265920][w[0] as usize];
            let most = if w[0] == 3 { 1024 } else { 4096 };
            power_of_two(w[1]) && (4..=most).contains(&w[1]) && order % w[1] == 0
        }
        2 => power_of_two(w[2]) && 2 <= w[2] && w[2] <= w[1] / 2,
        3 => [2, 4, 8, 16].contains(&w[3]) && w[3] <= w[2],
        4 => w[4] <= 5 && (edition == Two || product(w[4] as usize) <= w[2]),
        5 => [1, 2].contains(&w[5]),
        12..=16 => {
            let i = place - 11;
            if i as u64 <= w[4] {
                [2, 4, 8, 16].contains(&w[place]) && w[place] <= w[2] && product(i) <= w[2]
            } else {
                w[place] == 0
            }
        }
        17 => w[17] == 2,
        _ => {
            let i = place - 6;
            let t = w[place];
            match (i as u64).cmp(&w[4]) {
                Ordering::Less => (1..=48).contains(&t) && t + w[5] < w[2] / product(i),
                Ordering::Equal => (1..=48).contains(&t),
                Ordering::Greater => t == 0,
            }
        }
    };
    let mut order = test_order(edition).into_iter();
    order.find(|&place| !kept(place))
}

/// What the reader and prove say of a sheet: the place, or nothing.
fn found(words: &[u32]) -> Option<usize> {
    let place = Sheet::read(words).err();
    let proved = match prove_in(edition(words), words, &[], &[], &mut []) {
        Answer::Refused { number: 3, place } => Some(place as usize),
        _ => None,
    };
    assert_eq!(proved, place, "{words:?}");
    place
}

/// Changes to a sheet.
type Changes<'a> = &'a [(usize, u32)];

/// The changes to TWO_ROUNDS that break a rule, and the place found.
const BROKEN: &[(Changes, usize)] = &[
    (&[(0, 4)], 0),
    (&[(0, u32::MAX)], 0),
    (&[(1, 0)], 1),
    (&[(1, 2)], 1),
    (&[(1, 6)], 1),
    (&[(1, 8192)], 1),
    (&[(1, 1 << 31)], 1),
    (&[(0, 0)], 1),            // 256 does not divide 16
    (&[(0, 3), (1, 2048)], 1), // n0 ends at 1024 in field 3
    (&[(0, 3), (1, 4096), (2, 1)], 1),
    (&[(2, 0)], 2),
    (&[(2, 1)], 2),
    (&[(2, 63)], 2),
    (&[(2, 256)], 2),
    (&[(3, 0)], 3),
    (&[(3, 1)], 3),
    (&[(3, 3)], 3),
    (&[(3, 32)], 3),
    (&[(2, 2), (3, 4)], 3),
    (&[(4, 6)], 4),
    (&[(4, u32::MAX)], 4),
    (&[(2, 4)], 4),
    (&[(5, 0)], 5),
    (&[(5, 3)], 5),
    (&[(6, 0)], 6),
    (&[(6, 30)], 6), // 30 + 2 = d_1
    (&[(6, 49)], 6),
    (&[(6, 65)], 6),
    (&[(6, u32::MAX)], 6),
    (&[(7, 14)], 7), // 14 + 2 = d_2
    (&[(8, 0)], 8),
    (&[(8, 49)], 8),
    (&[(8, 64)], 8),
    (&[(8, 65)], 8),
    (&[(9, 1)], 9),
    (&[(10, u32::MAX)], 10),
    (&[(11, 1)], 11),
    (&[(4, 1)], 8),
    (&[(4, 3)], 9),
    // No t is permitted where d_(i+1) is at most s + 1.
    (&[(2, 8)], 6),
    (&[(2, 8), (6, 1)], 7),
    // The first of several.
    (&[(11, 9), (5, 7), (2, 3)], 2),
];

/// The same for LARGE_FIRST, with d = 512 32 8 4.
const BROKEN_2: &[(Changes, usize)] = &[
    (&[(0, 4)], 0),
    (&[(0, 0)], 1), // 1024 does not divide 16
    (&[(0, 3), (1, 2048)], 1),
    (&[(1, 1000)], 1),
    (&[(2, 1024)], 2),
    (&[(3, 0)], 3),
    (&[(3, 32)], 3),
    (&[(3, 6)], 3),
    (&[(2, 8)], 3), // k_0 = 16 is above d0
    (&[(4, 6)], 4),
    (&[(4, u32::MAX)], 4),
    (&[(5, 0)], 5),
    (&[(5, 3)], 5),
    // k_1 and k_2 by word 3's rule.
    (&[(12, 0)], 12),
    (&[(12, 1)], 12),
    (&[(12, 3)], 12),
    (&[(12, 32)], 12),
    (&[(12, u32::MAX)], 12),
    (&[(13, 0)], 13),
    (&[(13, 1)], 13),
    (&[(13, 6)], 13),
    (&[(13, 32)], 13),
    // The product is tested at each k: 16·16 = 256 and 16·16·2 = 512 fit, 16·16·4 does not.
    (&[(12, 16), (13, 4)], 13),
    (&[(12, 8), (13, 8)], 13),
    (&[(2, 32)], 12),
    (&[(2, 64)], 13),
    // Past k_M zero.
    (&[(14, 2)], 14),
    (&[(15, 2)], 15),
    (&[(16, 2)], 16),
    (&[(16, u32::MAX)], 16),
    (&[(4, 1)], 13),
    (&[(4, 0)], 12),
    (&[(4, 3)], 14),
    (&[(4, 5)], 14),
    // Word 17.
    (&[(17, 0)], 17),
    (&[(17, 1)], 17),
    (&[(17, 3)], 17),
    // The words 6 to 11 come last. 30 + 2 = d_1, 6 + 2 = d_2.
    (&[(6, 0)], 6),
    (&[(6, 30)], 6),
    (&[(6, 49)], 6),
    (&[(7, 6)], 7),
    (&[(7, 0)], 7),
    (&[(8, 0)], 8),
    (&[(8, 49)], 8),
    (&[(9, 1)], 9),
    (&[(11, 1)], 11),
    // Fitting k with no room left for t: d_1 = 4 leaves 1, d_2 = 2 none.
    (&[(2, 64), (13, 0), (4, 1)], 6),
    (&[(2, 64), (13, 0), (4, 1), (6, 1)], 8),
    (&[(2, 128), (6, 1)], 7),
    // Of several the first in the order of the tests.
    (&[(6, 0), (17, 0)], 17),
    (&[(6, 0), (16, 1)], 16),
    (&[(11, 1), (12, 0)], 12),
    (&[(12, 0), (5, 0)], 5),
    (&[(17, 0), (4, 6), (6, 0)], 4),
    (&[(17, 0), (14, 1), (13, 5)], 13),
];

/// Changes that break no rule: the greatest t, and other folding numbers.
const FINE: &[Changes] = &[
    &[(6, 29)],
    &[(7, 13)],
    &[(8, 48)],
    &[(0, 3)],
    &[(0, 3), (1, 1024)],
    &[(0, 2), (1, 4096)],
];
const FINE_2: &[Changes] = &[
    &[(0, 3)],
    &[(0, 2), (1, 2048)],
    &[(6, 29)],
    &[(7, 5)],
    &[(8, 48)],
    &[(12, 16), (7, 1), (13, 2), (2, 1024), (1, 2048)],
    &[(13, 8)],
    &[(12, 2), (13, 16)],
    &[(4, 1), (13, 0), (8, 0), (7, 4)],
    // Word 4's power rule is gone: 16^3 is above d0.
    &[],
];

#[test]
fn places_by_hand() {
    for (sample, (broken, fine)) in samples().iter().zip([(BROKEN, FINE), (BROKEN_2, FINE_2)]) {
        for &(changes, place) in broken {
            let words = with(sample.words, changes);
            assert_eq!(found(&words), Some(place), "{changes:?}");
            assert_eq!(first_broken(&words), Some(place), "{changes:?}");
            let refused = format!("refused 3 {place} 0");
            assert_eq!(sample.verdict_line(changes), refused, "{changes:?}");
        }
        for changes in fine {
            assert_eq!(found(&with(sample.words, changes)), None, "{changes:?}");
            // Another number of blocks may be due.
            assert_ne!(sample.number(changes), 3, "{changes:?}");
        }
    }
}

/// Edges of document 01, in edition 2.
#[test]
fn edges() {
    let smallest = [0, 4, 2, 2, 0, 1, 1, 0, 0, 0, 0, 0, 0, 0, 0, 0, 0, 2];
    let changed = |sheet: &[u32], changes: Changes| found(&with(sheet, changes));
    assert_eq!(changed(&smallest, &[]), None);
    assert_eq!(changed(&smallest, &[(12, 2)]), Some(12));
    assert_eq!(changed(&smallest, &[(4, 1), (12, 2)]), Some(12));
    assert_eq!(changed(&SHEET_2, &[]), None);
    assert_eq!(changed(&SHEET_2, &[(1, 32)]), Some(1));
    assert_eq!(changed(&SHEET_2, &[(6, 3)]), Some(6));
    assert_eq!(changed(&SHEET_2, &[(6, 2)]), None);
    assert_eq!(changed(&SHEET_2, &[(12, 4)]), None);
    assert_eq!(changed(&SHEET_2, &[(12, 8)]), Some(12));
    // M = 5 needs d0 = 64 for its k alone, and 128 for a t_4.
    let five = [1, 256, 128, 2, 5, 1, 1, 1, 1, 1, 1, 9, 2, 2, 2, 2, 2, 2];
    assert_eq!(changed(&five, &[]), None);
    assert_eq!(changed(&five, &[(16, 4)]), None);
    assert_eq!(changed(&five, &[(16, 8)]), Some(16));
    assert_eq!(changed(&five, &[(2, 64), (16, 2)]), Some(10));
    assert_eq!(changed(&five, &[(2, 32)]), Some(16));
}

/// Every list of folding numbers over some sizes, with the least t.
#[test]
fn every_list_of_folding_numbers() {
    let numbers = [0, 1, 2, 3, 4, 8, 16, 32];
    let (mut fine, mut places) = (0, BTreeSet::new());
    for d0 in [2, 8, 32, 128] {
        for rounds in 0..=3 {
            for code in 0..8_usize.pow(4) {
                let at = |digit: u32| numbers[code / 8_usize.pow(digit) % 8];
                let mut words = [1, 2 * d0, d0, at(0), rounds, 1, 0, 0, 0, 0, 0, 0];
                words[6..7 + rounds as usize].fill(1);
                let later = [at(1), at(2), at(3), 0, 0, 2];
                let words = [&words[..], &later].concat();
                let place = found(&words);
                assert_eq!(place, first_broken(&words), "{words:?}");
                fine += usize::from(place.is_none());
                places.extend(place);
            }
        }
    }
    assert!(fine > 100, "{fine}");
    assert_eq!(places, BTreeSet::from([3, 6, 7, 8, 12, 13, 14]));
}

/// Sheets near to those without fault: up to three words are others.
#[test]
fn any_words() {
    for edition in Edition::BOTH {
        let mut rng = Rng::new(31);
        let length = edition.sheet_words();
        let mut places = vec![0; length + 1];
        for _ in 0..100_000 {
            let mut words = generate::sheet(edition, &mut rng);
            for _ in 0..rng.place(4) {
                let place = rng.place(length);
                let any = rng.word();
                let values = [0, 1, 2, 3, 4, 5, 8, 16, 32, 48, 49, 64, 256, 4096, any];
                words[place] = rng.pick(&values);
            }
            let place = first_broken(&words);
            assert_eq!(found(&words), place, "{words:?}");
            places[place.unwrap_or(length)] += 1;
        }
        assert!(places.iter().all(|&count| count > 300), "{places:?}");
    }
}

/// A fault at each word of the sheet, alone and with a second one: the one that is
/// tested first counts, so that in edition 2 one of the words 12 to 17 does before
/// one of the words 6 to 11.
#[test]
fn one_fault_and_two() {
    for edition in Edition::BOTH {
        let mut rng = Rng::new(32);
        let order = test_order(edition);
        for _ in 0..2000 {
            let sheet = generate::sheet_up_to(edition, &mut rng, 256);
            assert_eq!(first_broken(&sheet), None, "{sheet:?}");
            let file = honest(&mut rng, &sheet, false);
            let faults: Vec<(usize, u32)> = order
                .iter()
                .map(|&place| (place, fault(&mut rng, &sheet, place)))
                .collect();
            for (turn, &first) in faults.iter().enumerate() {
                let refused = format!("refused 3 {} 0", first.0);
                assert_eq!(verdict_line(edition, &changed(&file, &[first])), refused);
                let second = rng.pick(&faults[turn..]);
                let both = changed(&file, &[first, second]);
                assert_eq!(verdict_line(edition, &both), refused, "{sheet:?}");
                let third = rng.pick(&faults[turn..]);
                let all = with(&sheet, &[first, second, third]);
                assert_eq!(found(&all), Some(first.0), "{all:?}");
            }
        }
    }
}

/// The drawn sheets of edition 2 have what it is for: a large first fold, folds that
/// rise, equal and different ones, and every number of rounds.
#[test]
fn drawn_sheets_are_of_every_kind() {
    let mut rng = Rng::new(33);
    let mut seen = BTreeSet::new();
    let (mut falling, mut rising, mut equal, mut different) = (0, 0, 0, 0);
    let mut rounds = [0; 6];
    for _ in 0..60_000 {
        let sheet = Sheet::read(&generate::sheet(Two, &mut rng)).unwrap();
        let folds = sheet.folds().to_vec();
        seen.insert(folds.clone());
        rounds[sheet.rounds] += 1;
        if folds.len() > 1 {
            falling += usize::from(folds.is_sorted_by(|a, b| a > b));
            rising += usize::from(folds.is_sorted_by(|a, b| a < b));
            equal += usize::from(folds.iter().all(|&k| k == folds[0]));
        }
        if folds.len() > 2 {
            let numbers: BTreeSet<_> = folds.iter().collect();
            different += usize::from(numbers.len() == folds.len());
        }
    }
    for folds in [
        &[16, 4, 2][..],
        &[8, 4, 2],
        &[2, 4, 8],
        &[2, 16],
        &[16, 2],
        &[4, 2, 8],
        &[2, 4, 2, 8],
    ] {
        assert!(seen.contains(folds), "{folds:?}");
    }
    let kinds = [falling, rising, equal, different];
    assert!(kinds.iter().all(|&count| count > 1000), "{kinds:?}");
    assert!(rounds.iter().all(|&count| count > 100), "{rounds:?}");
    assert!(seen.len() > 100, "{}", seen.len());
    for i in 1..=5 {
        for _ in 0..500 {
            let sheet = Sheet::read(&differing_at(&mut rng, i)).unwrap();
            let folds = sheet.folds();
            assert_eq!(folds.iter().position(|&k| k != folds[0]), Some(i));
        }
    }
}
