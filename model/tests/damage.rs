//! The generator's damage: the first test that fails decides, and damage aimed at a
//! refusal finds it.

mod common;

use common::*;
use std::collections::BTreeMap;
use tevrolig_model::generate::{aim, damage, sheet_up_to, Rng, REFUSALS};

/// Faults that leave sheet and length alone, each with an earlier one added.
#[test]
fn the_earlier_test_wins() {
    for edition in Edition::BOTH {
        let mut rng = Rng::new(77);
        let mut pairs = BTreeMap::new();
        for _ in 0..6000 {
            let sheet = sheet_up_to(edition, &mut rng, 64);
            let mut file = honest(&mut rng, &sheet, false);
            let turn = 4 + rng.place(6);
            let (late, early) = (REFUSALS[turn], REFUSALS[rng.place(turn)]);
            let mut aimed = |number| aim(edition, &mut rng, &mut file, number);
            if aimed(late) && aimed(early) {
                *pairs.entry((early, late)).or_insert(0) += 1;
                // A small field may let a clash miss.
                if early != 8 {
                    assert_eq!(number(edition, &file), early, "{early} before {late}");
                }
            }
        }
        // Each of the six after each of those before it.
        assert_eq!(pairs.len(), 4 + 5 + 6 + 7 + 8 + 9, "{pairs:?}");
        assert!(pairs.values().all(|&count| count > 15), "{pairs:?}");
    }
}

/// The same among the first four tests, by hand.
#[test]
fn the_first_tests_in_order() {
    let mut broken = changed(&hand_file(), &[(3, 7)]);
    assert_eq!(verdict_line(One, &broken), "refused 3 3 0");
    broken.resize(1024, 0);
    assert_eq!(verdict_line(One, &broken), "refused 2 1 0");
    assert_eq!(verdict_line(One, &changed(&broken, &[])), "refused 3 3 0");
    assert_eq!(
        verdict_line(One, &changed(&broken, &[(3, 2)])),
        "refused 4 1 0"
    );
    broken.push(0);
    assert_eq!(verdict_line(One, &broken), "refused 1 0 0");
    assert_eq!(verdict_line(One, &changed(&broken, &[])), "refused 1 0 0");
}

#[test]
fn damage_hits_what_it_aims_at() {
    for (edition, most_n0) in [(One, 32), (Two, 64)] {
        let mut rng = Rng::new(78);
        let mut seen = BTreeMap::new();
        let mut missed = 0;
        for _ in 0..20_000 {
            let sheet = sheet_up_to(edition, &mut rng, most_n0);
            let hostile = rng.one_in(2);
            let mut file = honest(&mut rng, &sheet, hostile);
            let aimed = damage(edition, &mut rng, &mut file);
            let found = number(edition, &file);
            *seen.entry(found).or_insert(0) += 1;
            match aimed {
                Some(aimed @ (8 | 9)) => missed += u32::from(found != aimed),
                Some(aimed) => assert_eq!(found, aimed),
                None => {}
            }
        }
        assert!(seen.keys().eq(&OUTCOMES), "{seen:?}");
        assert!(seen.values().all(|&count| count > 100), "{seen:?}");
        assert!(missed < 1500, "{missed}");
    }
}

/// Damage over damage, from any state of the file, also as if it were of the other
/// edition.
#[test]
fn damage_takes_any_file() {
    let mut rng = Rng::new(79);
    for _ in 0..5000 {
        let edition = rng.pick(&Edition::BOTH);
        let sheet = sheet_up_to(edition, &mut rng, 32);
        let mut file = honest(&mut rng, &sheet, true);
        for _ in 0..4 {
            let edition = rng.pick(&[edition, edition, One, Two]);
            damage(edition, &mut rng, &mut file);
            verdict_line(One, &file);
            verdict_line(Two, &file);
        }
    }
}
