//! The nearest polynomial in the archive, against the model and against what is due by the way a table was made: every number of wrong entries, every place, and all
//! tables where they can be listed.

mod common;

use common::nearest::{most_wrong, search, sheet};
use common::{refused, One};
use std::collections::{BTreeMap, BTreeSet};
use tevrolig::nearest::{find, MAX_WORDS};
use tevrolig::InputRefusal;
use tevrolig_model::generate::nearest::{
    between, case, far, halfway, noise, planted, planted_at, some_places, spoiled_table, Case,
};
use tevrolig_model::generate::{self, Rng};
use tevrolig_model::{Answer, Fault};

/// From no wrong entry to one more than there may be, with elements enough for no other polynomial to be near then but in field 0.
#[test]
fn every_number_of_wrong_entries() {
    let sheets = [
        sheet(0, 4, 2),
        sheet(0, 16, 2),
        sheet(0, 16, 8),
        sheet(1, 8, 4),
        sheet(1, 128, 64),
        sheet(1, 64, 4),
        sheet(2, 32, 2),
        sheet(2, 128, 16),
        sheet(3, 4, 2),
        sheet(3, 16, 8),
        sheet(3, 32, 4),
    ];
    for (seed, sheet) in (0..).zip(sheets) {
        let rng = &mut Rng::new(seed);
        let most = most_wrong(&sheet);
        for wrong in 0..=most {
            for _ in 0..20 {
                let what = format!("{sheet:?}, {wrong} wrong");
                let answer = search(&planted(rng, &sheet, wrong), &what);
                assert!(matches!(answer, Answer::Done(_)), "{what}");
            }
        }
        for _ in 0..4 {
            let what = format!("{sheet:?}, one too many");
            let one_more = planted(rng, &sheet, most + 1);
            for case in [one_more, halfway(rng, &sheet), noise(rng, &sheet)] {
                let answer = search(&case, &what);
                assert!(sheet[0] == 0 || answer == refused((19, 0)), "{what}");
            }
        }
    }
}

/// Each place of a small table by itself, all pairs, and in field 0 with every wrong value.
#[test]
fn every_place_of_small_tables() {
    for field in 0..4 {
        for (n0, d0) in [(4, 2), (8, 2), (8, 4), (16, 2), (16, 4), (16, 8)] {
            let rng = &mut Rng::new(u64::from(field * 100 + n0 + d0));
            let sheet = sheet(field, n0, d0);
            for i in 0..n0 as usize {
                let what = format!("{sheet:?}, {i}");
                search(&planted_at(rng, &sheet, &[i]), &what);
                for j in i + 1..n0 as usize {
                    search(&planted_at(rng, &sheet, &[i, j]), &format!("{what} {j}"));
                }
            }
        }
    }
    let sheet = sheet(0, 16, 8);
    let rng = &mut Rng::new(7);
    let right = planted(rng, &sheet, 0);
    for i in 0..16 {
        for more in 1..17 {
            let mut case = right.clone();
            case.table[i] = (case.table[i] + more) % 17;
            let mut due = coefficients_of(&right);
            due.extend([1, i as u32]);
            case.due = Some(Ok(due));
            search(&case, &format!("{i} by {more}"));
        }
    }
}

/// The coefficients of a case without wrong entries.
fn coefficients_of(case: &Case) -> Vec<u32> {
    let mut words = case.due.clone().unwrap().unwrap();
    assert_eq!(words.pop(), Some(0));
    words
}

/// All 17⁴ tables of the smallest sheet: those that one of the 17² polynomials differs from in at most one point, and all others.
#[test]
fn all_tables_of_the_smallest_sheet() {
    let sheet = sheet(0, 4, 2);
    let mut near: BTreeMap<[u32; 4], Vec<u32>> = BTreeMap::new();
    for code in 0..17 * 17 {
        let f = [code / 17, code % 17];
        let mut table = [0; 4];
        assert_eq!(tevrolig::encode(&sheet, &f, &mut table), Ok(4));
        assert_eq!(near.insert(table, vec![f[0], f[1], 0]), None);
        for j in 0..4 {
            for more in 1..17 {
                let mut spoiled = table;
                spoiled[j] = (spoiled[j] + more) % 17;
                let written = vec![f[0], f[1], 1, j as u32];
                assert_eq!(near.insert(spoiled, written), None, "two are near");
            }
        }
    }
    assert_eq!(near.len(), 17 * 17 * (1 + 4 * 16));
    for code in 0..17_u32.pow(4) {
        let table = [0, 1, 2, 3].map(|i| code / 17_u32.pow(i) % 17);
        let mut output = [99; 5];
        let answer = find(&sheet, &table, &mut output[..4]).map(|found| found.wrong.len());
        let Some(written) = near.get(&table) else {
            assert_eq!(answer, Err(InputRefusal::NothingNear), "{table:?}");
            assert_eq!(output, [99; 5], "{table:?}");
            continue;
        };
        assert_eq!(answer, Ok(written.len() - 3), "{table:?}");
        assert_eq!(&output[..written.len()], written, "{table:?}");
        assert!(output[written.len()..].iter().all(|&word| word == 99));
    }
}

/// Drawn tables of every kind.
#[test]
fn drawn_tables() {
    let (mut found, mut none) = (0, 0);
    for seed in 0..20_000 {
        let rng = &mut Rng::new(seed);
        let most_n0 = if seed % 40 == 0 { 64 } else { 16 };
        let sheet = generate::sheet_up_to(One, rng, most_n0);
        let mut case = case(rng, &sheet);
        case.length += rng.pick(&[0, 0, 1, 50]);
        match search(&case, &format!("seed {seed}")) {
            Answer::Done(_) => found += 1,
            Answer::Refused { .. } => none += 1,
        }
    }
    assert!(found > 10_000 && none > 4_000, "{found} {none}");
}

/// The largest tables, and those with the most wrong entries.
#[test]
fn large_tables() {
    let sheets = [
        sheet(2, 4096, 2048),
        sheet(1, 4096, 2048),
        sheet(2, 4096, 512),
        sheet(1, 4096, 2),
        sheet(2, 2048, 256),
        sheet(1, 512, 256),
        sheet(2, 512, 2),
        sheet(2, 256, 128),
        sheet(3, 1024, 512),
        sheet(3, 1024, 2),
        sheet(3, 512, 128),
        sheet(3, 256, 128),
    ];
    for (seed, sheet) in (0..).zip(sheets) {
        let rng = &mut Rng::new(seed);
        let most = most_wrong(&sheet);
        for wrong in [0, 1, 2, 10, most / 2, most - 1, most] {
            let what = format!("{sheet:?}, {wrong} wrong");
            let case = planted(rng, &sheet, wrong);
            assert!(case.length <= MAX_WORDS);
            assert!(matches!(search(&case, &what), Answer::Done(_)), "{what}");
        }
        let what = format!("{sheet:?}, between two");
        assert!(matches!(
            search(&between(rng, &sheet), &what),
            Answer::Done(_)
        ));
        for _ in 0..3 {
            let what = format!("{sheet:?}, far");
            assert_eq!(search(&far(rng, &sheet), &what), refused((19, 0)), "{what}");
        }
    }
    let largest = planted(&mut Rng::new(1), &sheet(2, 4096, 2048), 0);
    assert_eq!(largest.length, MAX_WORDS);
}

/// Coefficients that are 0, at the top, at the bottom or all; and a table of one value.
#[test]
fn coefficients_that_are_zero() {
    for field in 0..4 {
        let (sheet, width) = (sheet(field, 16, 8), if field == 3 { 4 } else { 1 });
        let rng = &mut Rng::new(field.into());
        for first in 0..=8 {
            for last in first..=8 {
                let mut f = vec![0; 8 * width];
                f[first * width..last * width].fill(5);
                for wrong in 0..=4 {
                    let places = some_places(rng, 16, wrong);
                    let case = spoiled_table(rng, &sheet, f.clone(), &places);
                    search(&case, &format!("{field}: {first}..{last}, {places:?}"));
                }
            }
        }
    }
}

/// In field 3 a point with one wrong word counts as much as one with four: near in each of the four words is not near.
#[test]
fn four_words_are_one_entry() {
    for (n0, d0) in [(16, 8), (64, 32), (1024, 512)] {
        let sheet = sheet(3, n0, d0);
        let most = most_wrong(&sheet);
        let right = planted(&mut Rng::new(n0.into()), &sheet, 0);
        let coefficients = coefficients_of(&right);
        // So many points for each word: the same for all, or each word its own.
        for (apart, count) in [(0, most), (1, most), (most, most), (most / 4, most / 4)] {
            let mut case = right.clone();
            let mut wrong = BTreeSet::new();
            for word in 0..4 {
                for j in word * apart..word * apart + count {
                    case.table[4 * j + word] ^= 1;
                    wrong.insert(j as u32);
                }
            }
            let near = wrong.len() <= most;
            assert_eq!(near, apart == 0 || count < most);
            // Nothing else is near: it would be in each word by itself, where the words of this polynomial are.
            case.due = Some(if near {
                let count = vec![wrong.len() as u32];
                Ok([coefficients.clone(), count, wrong.into_iter().collect()].concat())
            } else {
                Err(Fault::new(19, 0))
            });
            search(&case, &format!("{sheet:?}, {count} by {apart}"));
        }
    }
}
