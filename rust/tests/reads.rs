//! Shift and final indices repeated on purpose: the archive counts a table place once, however many coins lead to it, as the model does.

mod common;

use common::{edition, verdict_line, verify, Edition, ProverInput, LARGEST};
use tevrolig_model as model;
use tevrolig_model::convert::with_equal_folds;
use tevrolig_model::generate::repeats::{case, case_of, reads_due, Case, Met};
use tevrolig_model::generate::{self, Rng};
use tevrolig_model::verify::verify_in;

/// Verify of both, also in two steps, with the reads due, and prove of both.
fn agree(edition: Edition, case: &Case, met: &mut Met, what: &str) {
    let expected = verify_in(edition, &case.file);
    assert_eq!(
        verdict_line(edition, &case.file, what),
        model::line(expected)
    );
    let due = reads_due(&case.sheet, &case.file, expected.outcome);
    assert_eq!(expected.reads, due, "{what}");
    met.count(&case.sheet, &case.file, expected.outcome);

    let input = ProverInput {
        edition,
        sheet: case.sheet.clone(),
        coefficients: case.coefficients.clone(),
        coins: case.coins.clone(),
    };
    input.is_proved(0, what);
}

/// Of every kind, in honest files and in files with an 8 or a 9.
#[test]
fn repeats_of_every_kind() {
    for edition in Edition::BOTH {
        let mut met = Met::default();
        for seed in 0..40_000 {
            let most_n0 = if seed % 50 == 0 { 512 } else { 64 };
            let case = case(edition, &mut Rng::new(seed), most_n0);
            let what = format!("repeated indices, seed {seed}");
            agree(edition, &case, &mut met, &what);
        }
        assert!(met.rarest() > 100, "{met:?}");
    }
}

#[test]
fn the_largest_sheets() {
    let mut met = Met::default();
    for sheet in LARGEST {
        for seed in 0..12 {
            let case = case_of(&mut Rng::new(seed), sheet);
            let what = format!("largest, seed {seed}");
            agree(edition(sheet), &case, &mut met, &what);
        }
    }
    assert!(met.0["among many"] > 50, "{met:?}");
    assert!(met.0["one index in two levels"] > 20, "{met:?}");
}

/// The transcript by hand with two shift and two final indices, all lists of them, in both editions: 8 of the one, 4 of the other.
#[test]
fn all_pairs_of_indices() {
    let one = [0, 16, 8, 2, 1, 1, 2, 2, 0, 0, 0, 0];
    for sheet in [one.to_vec(), with_equal_folds(&one)] {
        let edition = edition(&sheet);
        for lists in 0..8 * 8 * 4 * 4 {
            let [a, b, c, d] = [lists % 8, lists / 8 % 8, lists / 64 % 4, lists / 256];
            let coins = [2, 0, 3, 4, a, b, c, d];
            let file = generate::honest_file(&sheet, &[1, 2, 3, 4, 5, 0, 0, 0], &coins);
            let different = 2 + u32::from(a != b) + u32::from(c != d);
            let accepted = format!("accepted 0 0 {}", 2 * different);
            assert_eq!(verify(edition, &file).line(), accepted, "{coins:?}");
            assert_eq!(model::line(verify_in(edition, &file)), accepted);
        }
    }
}

/// Every number of final indices that a sheet may have, all different, in pairs, and all but one different: a few are counted in
/// another way than many.
#[test]
fn every_length_of_a_list() {
    for t in 1..=48 {
        let one = [2, 4096, 64, 2, 0, 1, t, 0, 0, 0, 0, 0];
        for sheet in [one.to_vec(), with_equal_folds(&one)] {
            let edition = edition(&sheet);
            let coefficients = generate::coefficients(&mut Rng::new(t.into()), &sheet);
            let spread = |i: u32| (2047 - 43 * i, t);
            let pairs = |i: u32| (2047 - i / 2, t.div_ceil(2));
            let first_again = |i: u32| (if i + 1 == t { 0 } else { i }, t.max(2) - 1);
            let lists: [&dyn Fn(u32) -> (u32, u32); 3] = [&spread, &pairs, &first_again];
            for list in lists {
                let finals: Vec<u32> = (0..t).map(|i| list(i).0).collect();
                let coins = [&[5], &finals[..]].concat();
                let file = generate::honest_file(&sheet, &coefficients, &coins);
                let accepted = format!("accepted 0 0 {}", 2 * list(0).1);
                assert_eq!(verify(edition, &file).line(), accepted, "{finals:?}");
                assert_eq!(model::line(verify_in(edition, &file)), accepted);
            }
        }
    }
}
