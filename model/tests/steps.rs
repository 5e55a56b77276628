//! Verify in two steps (document 02, CR 7): which refusals each gives, and that both in
//! turn say what verify says.

mod common;

use common::*;
use std::collections::BTreeMap;
use tevrolig_model::generate::{self, Rng};
use tevrolig_model::verify::{decide_in, read_in, verify_in};
use tevrolig_model::{Outcome, Verdict};

/// Both steps of a file, the second only where the first accepts. Answers the number of
/// the verdict.
fn in_turn(edition: Edition, file: &[u8], what: &str) -> u32 {
    let read = read_in(edition, file);
    let decided = decide_in(edition, file);
    let (expected, number) = match read {
        Outcome::Accepted => {
            let number = match decided.outcome {
                Outcome::Accepted => 0,
                Outcome::Refused { number, .. } => number,
            };
            assert!(matches!(number, 0 | 7 | 14 | 8 | 9), "{what}: {number}");
            (decided, number)
        }
        Outcome::Refused { number, .. } => {
            assert!((1..=6).contains(&number), "{what}: {number}");
            let refused = Verdict {
                outcome: read,
                reads: 0,
            };
            assert_eq!(decided, refused, "{what}: refused again");
            (refused, number)
        }
    };
    assert_eq!(verify_in(edition, file), expected, "{what}");
    number
}

#[test]
fn the_file_by_hand() {
    let file = hand_file();
    let accepted = Outcome::Accepted;
    assert_eq!(read_in(One, &file), accepted);
    let verdict = Verdict {
        outcome: accepted,
        reads: 4,
    };
    assert_eq!(decide_in(One, &file), verdict);

    // A final coefficient is wrong, which reading does not see.
    let wrong = changed(&file, &[(FINAL, 15)]);
    assert_eq!(read_in(One, &wrong), accepted);
    let outcome = Outcome::Refused {
        number: 9,
        place: 0,
    };
    assert_eq!(decide_in(One, &wrong), Verdict { outcome, reads: 4 });

    // And no element of the field, which deciding says too.
    let outcome = Outcome::Refused {
        number: 5,
        place: FINAL as u64,
    };
    let wrong = changed(&file, &[(FINAL, 17)]);
    assert_eq!(read_in(One, &wrong), outcome);
    assert_eq!(decide_in(One, &wrong), Verdict { outcome, reads: 0 });
}

#[test]
fn both_steps_in_turn_are_verify() {
    for edition in Edition::BOTH {
        let mut rng = Rng::new(707);
        let mut seen = BTreeMap::new();
        for round in 0..20_000 {
            let sheet = generate::sheet_up_to(edition, &mut rng, 64);
            let mut file = honest(&mut rng, &sheet, round % 2 == 0);
            for _ in 0..round % 3 {
                generate::damage(edition, &mut rng, &mut file);
            }
            let number = in_turn(edition, &file, &format!("{round}: {sheet:?}"));
            *seen.entry(number).or_insert(0) += 1;
            in_turn(edition.other(), &file, &format!("{round}: as the other"));
        }
        for number in OUTCOMES {
            assert!(seen[&number] > 50, "every outcome is met: {seen:?}");
        }
    }
}

#[test]
fn every_length_of_a_file() {
    for (edition, sheet) in [(One, &TWO_ROUNDS[..]), (Two, &LARGE_FIRST)] {
        let file = honest(&mut Rng::new(7), sheet, true);
        let longer = [&file[..], &[0; 1024]].concat();
        for length in 0..=longer.len() {
            in_turn(edition, &longer[..length], &format!("{length} bytes"));
        }
    }
}
