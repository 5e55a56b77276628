//! The prover's files are accepted, whatever the coins (document 01, demand 3),
//! and no bytes make anything panic.

mod common;

use common::*;
use std::collections::BTreeSet;
use std::time::{Duration, Instant};
use tevrolig_model::domain::Subgroup;
use tevrolig_model::elements::Elements;
use tevrolig_model::field::QUARTIC;
use tevrolig_model::generate::{self, rewrite_checks, Rng};
use tevrolig_model::layout::Part;
use tevrolig_model::polynomial::{evaluate, fold as fold_of, interpolate, interpolate_at, Pairs};
use tevrolig_model::sheet::Sheet;
use tevrolig_model::stream::read_word;
use tevrolig_model::verify::{fold_table, verify_in};
use tevrolig_model::{encode, Answer, Outcome};

#[test]
fn small_honest_files() {
    // All fields, M and s; every k of the first round, and in edition 2 of the second.
    let shape = |at: usize, values: &[u32]| -> BTreeSet<(usize, u32)> {
        values.iter().map(|&value| (at, value)).collect()
    };
    let all = [
        shape(0, &[0, 1, 2, 3]),
        shape(4, &[0, 1, 2, 3, 4, 5]),
        shape(5, &[1, 2]),
        shape(10, &[2, 4, 8, 16]),
    ];
    let later = [shape(11, &[2, 4, 8, 16]), shape(12, &[2, 4, 8])];
    for edition in Edition::BOTH {
        let mut rng = Rng::new(100);
        let mut shapes = BTreeSet::new();
        for round in 0..6000 {
            let sheet = generate::sheet_up_to(edition, &mut rng, 256);
            shapes.extend([(0, sheet[0]), (4, sheet[4]), (5, sheet[5])]);
            shapes.extend((0..=sheet[4] as usize).map(|i| (10 + i, fold(&sheet, i))));
            accept(&mut rng, &sheet, round % 3 != 0);
        }
        let later = if edition == Two { &later[..] } else { &[] };
        for shape in all.iter().chain(later) {
            assert!(shape.is_subset(&shapes), "{shape:?} of {shapes:?}");
        }
    }
}

#[test]
fn honest_files_of_any_size() {
    let mut rng = Rng::new(101);
    for round in 0..120 {
        for edition in Edition::BOTH {
            let sheet = generate::sheet(edition, &mut rng);
            accept(&mut rng, &sheet, round % 2 == 0);
        }
    }
    for i in 1..=5 {
        for round in 0..12 {
            let sheet = generate::differing_at(&mut rng, i);
            accept(&mut rng, &sheet, round % 2 == 0);
        }
    }
}

#[test]
fn the_largest_honest_files() {
    let mut rng = Rng::new(102);
    #[rustfmt::skip]
    let sheets: [&[u32]; 13] = [
        // The longest, the heaviest, and five rounds over field 1.
        &[2, 4096, 2048, 2, 5, 2, 48, 48, 48, 48, 48, 48],
        &[2, 4096, 2048, 16, 1, 2, 48, 48, 0, 0, 0, 0],
        &[1, 4096, 2048, 2, 5, 1, 48, 48, 48, 48, 48, 48],
        &[2, 4096, 512, 4, 2, 2, 36, 27, 22, 0, 0, 0],
        // The longest of edition 2, large first folds, and a large last one.
        &[2, 4096, 2048, 2, 5, 2, 48, 48, 48, 48, 48, 48, 2, 2, 2, 2, 2, 2],
        &[2, 4096, 2048, 16, 2, 2, 48, 29, 48, 0, 0, 0, 4, 2, 0, 0, 0, 2],
        &[2, 4096, 2048, 16, 3, 1, 48, 14, 2, 48, 0, 0, 8, 4, 2, 0, 0, 2],
        &[1, 4096, 2048, 16, 3, 1, 48, 30, 14, 48, 0, 0, 4, 2, 16, 0, 0, 2],
        &[2, 4096, 2048, 2, 3, 2, 48, 48, 29, 48, 0, 0, 4, 8, 16, 0, 0, 2],
        // Elements of four words.
        &[3, 1024, 512, 2, 5, 2, 48, 48, 48, 29, 13, 48],
        &[3, 1024, 512, 16, 1, 2, 29, 48, 0, 0, 0, 0],
        &[3, 1024, 512, 2, 5, 2, 48, 48, 48, 29, 13, 48, 2, 2, 2, 2, 2, 2],
        &[3, 1024, 512, 16, 3, 1, 30, 6, 2, 48, 0, 0, 4, 2, 2, 0, 0, 2],
    ];
    for sheet in sheets {
        for hostile in [false, true] {
            let file = accept(&mut rng, sheet, hostile);
            let start = Instant::now();
            verify_in(edition(sheet), &file);
            println!("{:?} for {sheet:?}", start.elapsed());
        }
    }
    // The six words more fit into the 67 blocks of edition 1.
    assert_eq!(layout(sheets[0]).blocks(), 67);
    assert_eq!(layout(sheets[4]).blocks(), 67);
    // Four words each of a quarter of the points, but more coins.
    assert_eq!(layout(sheets[9]).words(), 8466);
    assert_eq!(layout(sheets[9]).blocks(), 67);
    assert_eq!(layout(sheets[11]).blocks(), 67);
}

#[test]
fn hostile_coins_are_met() {
    // k = 2, and k = 4 2 4.
    let sheets: [&[u32]; 2] = [
        &[1, 64, 32, 2, 2, 2, 3, 3, 2, 0, 0, 0],
        &[1, 128, 64, 4, 2, 2, 3, 3, 2, 0, 0, 0, 2, 4, 0, 0, 0, 2],
    ];
    for words in sheets {
        let mut rng = Rng::new(103);
        let sheet = Sheet::read(words).unwrap();
        let (layout, subgroup) = (layout(words), Subgroup::of(&sheet));
        let mut met = [0; 8];
        for _ in 0..1000 {
            let file = accept(&mut rng, words, true);
            let read = |part| -> Vec<u64> {
                let range = layout.range(part);
                range.map(|word| read_word(&file, word).into()).collect()
            };
            let shifts: Vec<u64> = read(Part::ShiftIndices(1));
            let shift_points = shifts
                .iter()
                .map(|&j| subgroup.shift_point(0, sheet.k[0], j as usize));
            let outs = read(Part::OutCoins(1));
            let later = read(Part::OutCoins(2));
            assert!(outs[0] != outs[1] && later[0] != later[1]);
            let c = read(Part::Combination(1))[0];
            let inverse_of_c = sheet.field.inv(c);
            let facts = [
                read(Part::FoldCoin(0))[0] == 0,
                subgroup.domain(1).contains(&read(Part::FoldCoin(1))[0]),
                shift_points.into_iter().any(|point| outs.contains(&point)),
                later.iter().any(|coin| outs.contains(coin)),
                later.iter().all(|coin| outs.contains(coin)),
                shifts[0] == shifts[1] || shifts[1] == shifts[2],
                c == 0,
                inverse_of_c.is_some_and(|x| subgroup.domain(1).contains(&x)),
            ];
            for (count, fact) in met.iter_mut().zip(facts) {
                *count += usize::from(fact);
            }
        }
        assert!(met.iter().all(|&count| count > 20), "{met:?}");
    }
}

/// Table and polynomial tell the same: evaluation, fold and interpolation.
#[test]
fn tables_agree_with_polynomials() {
    let mut rng = Rng::new(104);
    for _ in 0..300 {
        let words = generate::sheet_of_one_word(One, &mut rng, 64);
        table_agrees(Sheet::read(&words).unwrap().field, &mut rng, &words);
    }
    for _ in 0..100 {
        let words = generate::sheet_over(One, &mut rng, 3, 64);
        table_agrees(QUARTIC, &mut rng, &words);
    }
}

fn table_agrees<F: Elements>(field: F, rng: &mut Rng, words: &[u32]) {
    let sheet = Sheet::read(words).unwrap();
    assert_eq!(sheet.width, F::WIDTH);
    let k = sheet.k[0];
    let subgroup = Subgroup::of(&sheet);
    let coefficients = generate::coefficients(rng, words);
    let f = field.list(&coefficients);
    let p = sheet.field.p;
    let any = |rng: &mut Rng| {
        let words: Vec<u32> = (0..F::WIDTH).map(|_| rng.below(p) as u32).collect();
        field.spelt(&words)
    };

    let due = F::WIDTH * sheet.n0;
    let mut table = vec![0; due];
    let done = Answer::Done(due as u64);
    assert_eq!(encode(words, &coefficients, &mut table), done);
    let table = field.list(&table);
    let points = subgroup.domain(0).into_iter();
    let points: Vec<F::Element> = points.map(|x| field.number(x)).collect();
    for (&x, &value) in points.iter().zip(&table) {
        assert_eq!(evaluate(field, &f, x), value);
    }

    let (zero, root) = (field.number(0), points[rng.place(points.len())]);
    for r in [zero, root, any(rng)] {
        let folded = fold_of(field, &f, k, r);
        let folds = fold_table(field, &subgroup, 0, &table, k, r);
        for (j, value) in folds.into_iter().enumerate() {
            let point = field.number(subgroup.shift_point(0, k, j));
            assert_eq!(evaluate(field, &folded, point), value);
        }
    }

    let pairs: Pairs<F::Element> = points.iter().copied().zip(table.iter().copied()).collect();
    let mut answer = interpolate(field, &pairs);
    for x in [zero, field.number(1), root, any(rng)] {
        let value = evaluate(field, &answer, x);
        assert_eq!(interpolate_at(field, &points, &table, x), value);
    }
    assert!(answer.drain(sheet.d0..).all(|c| c == zero));
    assert_eq!(answer, f);
}

#[test]
fn every_changed_word_gets_a_verdict() {
    let mut rng = Rng::new(105);
    let sheets: [&[u32]; 8] = [
        &SHEET,
        &[3, 16, 8, 2, 1, 2, 1, 1, 0, 0, 0, 0],
        &[3, 16, 8, 2, 1, 1, 2, 2, 0, 0, 0, 0, 4, 0, 0, 0, 0, 2],
        &[0, 16, 8, 2, 1, 2, 1, 3, 0, 0, 0, 0],
        &[1, 32, 16, 2, 2, 1, 3, 2, 2, 0, 0, 0],
        &[2, 64, 16, 4, 1, 2, 1, 5, 0, 0, 0, 0],
        &[0, 16, 8, 2, 1, 1, 2, 2, 0, 0, 0, 0, 4, 0, 0, 0, 0, 2],
        &[1, 64, 32, 4, 2, 1, 2, 1, 2, 0, 0, 0, 2, 2, 0, 0, 0, 2],
    ];
    for sheet in sheets {
        let edition = edition(sheet);
        let file = accept(&mut rng, sheet, true);
        for at in 0..file.len() / 4 {
            let old = u32::from_le_bytes(file[4 * at..4 * at + 4].try_into().unwrap());
            let values = [0, 1, 2, 4, 16, 17, 4096, 1 << 31, u32::MAX, rng.word()];
            for value in values.into_iter().chain([old ^ 1, old.wrapping_add(1)]) {
                let mut other = file.clone();
                other[4 * at..4 * at + 4].copy_from_slice(&value.to_le_bytes());
                let unchecked = verify_in(edition, &other);
                // A difference of the modulus itself does not show in the check.
                if value != old && value.abs_diff(old) != 4294967291 {
                    let place = (at / 128) as u64;
                    let refused = Outcome::Refused { number: 2, place };
                    assert_eq!(unchecked.outcome, refused);
                }
                rewrite_checks(&mut other);
                let verdict = verify_in(edition, &other);
                if value == old || at % 128 == 127 {
                    assert_eq!(verdict.outcome, Outcome::Accepted);
                } else if value == u32::MAX {
                    assert_ne!(verdict.outcome, Outcome::Accepted);
                }
            }
        }
    }
}

#[test]
fn any_bytes_get_a_verdict() {
    for edition in Edition::BOTH {
        let mut rng = Rng::new(106);
        let outcome = |bytes: &[u8]| verify_in(edition, bytes).outcome;
        for _ in 0..3000 {
            let length = rng.place(1100);
            let bytes: Vec<u8> = (0..length).map(|_| rng.bits() as u8).collect();
            assert_ne!(outcome(&bytes), Outcome::Accepted);
        }
        for byte in [0, 0xFF] {
            assert_ne!(outcome(&vec![byte; 1 << 20]), Outcome::Accepted);
        }
        // Random sheets of small words with right checks, the rest zero.
        for _ in 0..20_000 {
            let mut file = vec![0; 512 * (1 + rng.place(2))];
            for word in 0..edition.sheet_words() {
                let near: u32 = rng.pick(&[0, 1, 2, 4, 8, 16, 32, 64, 3]);
                file[4 * word..4 * word + 4].copy_from_slice(&near.to_le_bytes());
            }
            rewrite_checks(&mut file);
            outcome(&file);
        }
    }
}

#[test]
fn small_files_are_verified_quickly() {
    let mut rng = Rng::new(107);
    for edition in Edition::BOTH {
        let files: Vec<Vec<u8>> = (0..500)
            .map(|_| {
                let sheet = generate::sheet_up_to(edition, &mut rng, 64);
                honest(&mut rng, &sheet, false)
            })
            .collect();
        let start = Instant::now();
        for file in &files {
            verify_in(edition, file);
        }
        let each = start.elapsed() / 500;
        println!("{each:?} for each small file");
        // Wide enough for a busy machine.
        assert!(cfg!(debug_assertions) || each < Duration::from_millis(2));
    }
}
