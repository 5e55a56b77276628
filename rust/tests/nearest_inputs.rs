//! Inputs of the nearest polynomial with one fault or several, in the archive and in the model: which refusal it is, where, and that nothing is written.

mod common;

use common::nearest::{search, sheet};
use common::{refused, One};
use std::collections::BTreeSet;
use tevrolig_model::generate::nearest::{case, far, faulty, planted, Case, Test, TESTS};
use tevrolig_model::generate::{self, Rng};
use tevrolig_model::sheet::Sheet;
use tevrolig_model::{Answer, Fault};

/// The same input with another refusal due.
fn refused_case(case: Case, number: u32, place: usize) -> Case {
    let due = Some(Err(Fault::new(number, place)));
    Case { due, ..case }
}

/// Each refusal, and two or three at once: the first counts, and nothing is written.
#[test]
fn faulty_inputs() {
    let mut met = BTreeSet::new();
    for seed in 0..20_000 {
        let rng = &mut Rng::new(seed);
        let most_n0 = if seed % 100 == 0 { 1024 } else { 32 };
        let sheet = generate::sheet_up_to(One, rng, most_n0);
        let chosen: BTreeSet<Test> = (0..1 + rng.place(3)).map(|_| rng.pick(&TESTS)).collect();
        let case = faulty(rng, &sheet, chosen.iter().copied());
        let what = format!("{chosen:?}, seed {seed}");
        let Answer::Refused { place, .. } = search(&case, &what) else {
            panic!("{what}: done");
        };
        let test = *chosen.first().unwrap();
        met.insert((sheet[0], test, (test == Test::Sheet).then_some(place)));
    }
    for field in 0..4 {
        for test in TESTS {
            let places: Vec<Option<u64>> = match test {
                Test::Sheet => (0..12).map(Some).collect(),
                _ => vec![None],
            };
            for place in places {
                assert!(
                    met.contains(&(field, test, place)),
                    "{field} {test:?} {place:?}"
                );
            }
        }
    }
}

/// Every two of the tests, in every field.
#[test]
fn two_at_once() {
    for field in 0..4 {
        for first in TESTS {
            for second in TESTS {
                for seed in 0..20 {
                    let rng = &mut Rng::new(seed);
                    let sheet = generate::sheet_over(One, rng, field, 16);
                    let case = faulty(rng, &sheet, [first, second].into_iter());
                    search(&case, &format!("{field}, {first:?} and {second:?}"));
                }
            }
        }
    }
}

/// Every position of a table out of range, every length of a table, and every length of an output.
#[test]
fn every_position_and_every_length() {
    for (field, n0, d0) in [(0, 4, 2), (0, 16, 8), (1, 32, 4), (2, 64, 32), (3, 16, 4)] {
        let words = sheet(field, n0, d0);
        let known = Sheet::read(&words).unwrap();
        let rng = &mut Rng::new(field.into());
        let good = planted(rng, &words, 1);
        for at in 0..good.table.len() {
            for word in [known.field.p as u32, u32::MAX] {
                let mut case = good.clone();
                case.table[at] = word;
                case.length = at % (good.length + 1);
                search(
                    &refused_case(case, 5, at),
                    &format!("{words:?}, position {at}"),
                );
            }
        }
        for length in 0..good.table.len() + 5 {
            let mut case = good.clone();
            if length != case.table.len() {
                case.table.resize(length, u32::MAX);
                case = refused_case(case, 10, 1);
            }
            search(&case, &format!("{words:?}, {length} words"));
        }
        let nothing = far(rng, &words);
        for length in 0..good.length + 5 {
            for case in [&good, &nothing] {
                let mut case = case.clone();
                let due = case.length;
                case.length = length;
                if length < due {
                    case = refused_case(case, 11, due);
                }
                search(&case, &format!("{words:?}, room for {length}"));
            }
        }
    }
}

/// A sheet of edition 2 has too many words here, and a field's number past 3 is none.
#[test]
fn other_sheets() {
    let good = planted(&mut Rng::new(1), &sheet(0, 16, 8), 2);
    for length in (0..40).filter(|&length| length != 12) {
        let mut case = good.clone();
        case.sheet.resize(length, 0);
        search(
            &refused_case(case, 10, 0),
            &format!("{length} words of a sheet"),
        );
    }
    for field in [4, 5, 17, u32::MAX] {
        let mut case = good.clone();
        case.sheet[0] = field;
        assert_eq!(search(&refused_case(case, 3, 0), "field"), refused((3, 0)));
    }
}

/// Lists and outputs of any length, empty ones too, and words of any size.
#[test]
fn any_lists() {
    let empty = Case {
        sheet: Vec::new(),
        table: Vec::new(),
        length: 0,
        due: None,
    };
    assert_eq!(search(&empty, "empty"), refused((10, 0)));
    let (mut done, mut numbers) = (0, BTreeSet::new());
    for seed in 0..20_000 {
        let rng = &mut Rng::new(seed);
        let sheet = generate::sheet_up_to(One, rng, 16);
        let mut case = case(rng, &sheet);
        generate::disturb(rng, &mut case.sheet);
        generate::disturb(rng, &mut case.table);
        case.length = rng.pick(&[0, 3, 4, 13, 100, case.length]);
        case.due = None;
        match search(&case, &format!("any, seed {seed}")) {
            Answer::Done(_) => done += 1,
            Answer::Refused { number, place } => {
                numbers.insert((number, if number == 10 { place } else { 0 }));
            }
        }
    }
    assert!(done > 1_500, "{done} of these are found");
    let lengths = [(10, 0), (10, 1)];
    let others = [3, 5, 11, 19].map(|number| (number, 0));
    assert_eq!(numbers, lengths.into_iter().chain(others).collect());
}
