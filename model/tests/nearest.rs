//! The nearest polynomial (document 02, CR 14) in the model: against a search through all
//! polynomials where they are few, against what is due by the way a table was made, and its
//! refusals.

mod common;

use common::{with, One};
use std::collections::BTreeSet;
use tevrolig_model::domain::Subgroup;
use tevrolig_model::elements::Elements;
use tevrolig_model::field::{Field, QUARTIC};
use tevrolig_model::generate::nearest::{
    between, case, far, faulty, halfway, planted, planted_at, Case, Test, TESTS,
};
use tevrolig_model::generate::{self, Rng};
use tevrolig_model::nearest::{decode, most_words, most_wrong};
use tevrolig_model::polynomial::evaluate;
use tevrolig_model::sheet::Sheet;
use tevrolig_model::{encode, nearest, Answer};

/// n0 = 4 and d0 = 2 over field 0: one wrong entry at most.
const SMALLEST: [u32; 12] = [0, 4, 2, 2, 0, 1, 1, 0, 0, 0, 0, 0];

/// A sheet of this field, n0 and d0.
fn sheet(field: u32, n0: u32, d0: u32) -> [u32; 12] {
    [field, n0, d0, 2, 0, 1, 1, 0, 0, 0, 0, 0]
}

fn refused(number: u32, place: u64) -> Answer {
    Answer::Refused { number, place }
}

/// The answer and the output, whose words were all 9.
fn run(sheet: &[u32], table: &[u32], length: usize) -> (Answer, Vec<u32>) {
    let mut output = vec![9; length];
    (nearest(sheet, table, &mut output), output)
}

/// The answer, after it and the output were compared with what is due, where that is known.
fn run_case(case: &Case, what: &str) -> Answer {
    let (answer, output) = run(&case.sheet, &case.table, case.length);
    let mut expected = vec![9; case.length];
    match &case.due {
        None => {}
        Some(Ok(words)) => {
            assert_eq!(answer, Answer::Done(words.len() as u64), "{what}");
            expected[..words.len()].copy_from_slice(words);
            assert_eq!(output, expected, "{what}");
        }
        Some(Err(fault)) => {
            assert_eq!(answer, refused(fault.number, fault.place), "{what}");
            assert_eq!(output, expected, "{what}");
        }
    }
    answer
}

#[test]
fn by_hand() {
    // 6 + 7X over 13 16 4 1.
    let table = [12, 16, 0, 13];
    assert_eq!(
        run(&SMALLEST, &table, 4),
        (Answer::Done(3), vec![6, 7, 0, 9])
    );
    for j in 0..4 {
        let spoiled = with(&table, &[(j, 5)]);
        let written = vec![6, 7, 1, j as u32, 9];
        assert_eq!(run(&SMALLEST, &spoiled, 5), (Answer::Done(4), written));
    }
    let far = [12, 12, 16, 16];
    assert_eq!(run(&SMALLEST, &far, 4), (refused(19, 0), vec![9; 4]));
    assert_eq!(run(&SMALLEST, &far, 3), (refused(11, 4), vec![9; 3]));
    assert_eq!(
        run(&SMALLEST, &[0; 4], 4),
        (Answer::Done(3), vec![0, 0, 0, 9])
    );
    assert_eq!(
        run(&SMALLEST, &[5, 5, 5, 0], 4),
        (Answer::Done(4), vec![5, 0, 1, 3])
    );
    // Elements of four words: (1, 2, 3, 4) + (5, 6, 7, 8)X, and an entry with one other word.
    let four = with(&SMALLEST, &[(0, 3)]);
    let mut table = vec![0; 16];
    assert_eq!(
        encode(&four, &[1, 2, 3, 4, 5, 6, 7, 8], &mut table),
        Answer::Done(16)
    );
    table[4 * 2 + 3] += 1;
    let written = vec![1, 2, 3, 4, 5, 6, 7, 8, 1, 2, 9];
    assert_eq!(run(&four, &table, 11), (Answer::Done(10), written));
}

/// Every polynomial of degree below 2 over the field of 17 elements, tried.
fn by_search(field: Field, points: &[u64], table: &[u64]) -> Option<(Vec<u64>, Vec<usize>)> {
    let most = (points.len() - 2) / 2;
    (0..17 * 17).find_map(|code| {
        let f = vec![code / 17, code % 17];
        let differs = |&j: &usize| evaluate(field, &f, points[j]) != table[j];
        let wrong: Vec<usize> = (0..points.len()).filter(differs).collect();
        (wrong.len() <= most).then_some((f, wrong))
    })
}

#[test]
fn as_a_search_through_all_polynomials() {
    for n0 in [4, 8, 16] {
        let (mut some, mut none) = (0, 0);
        let words = sheet(0, n0, 2);
        let known = Sheet::read(&words).unwrap();
        let points = Subgroup::of(&known).domain(0);
        for seed in 0..3000 {
            let case = case(&mut Rng::new(seed), &words);
            let table = known.field.list(&case.table);
            let found = decode(known.field, &points, &table, 2);
            assert_eq!(
                found,
                by_search(known.field, &points, &table),
                "seed {seed}"
            );
            *(if found.is_some() {
                &mut some
            } else {
                &mut none
            }) += 1;
        }
        assert!(some > 500 && none > 500, "{some} {none}");
    }
}

#[test]
fn planted_polynomials_come_back() {
    for (field, n0, d0) in [
        (0, 16, 8),
        (0, 16, 4),
        (1, 32, 4),
        (1, 64, 32),
        (2, 64, 8),
        (2, 128, 64),
        (3, 16, 8),
        (3, 32, 2),
    ] {
        let rng = &mut Rng::new(u64::from(field + n0));
        let words = sheet(field, n0, d0);
        let most = (n0 - d0) as usize / 2;
        for wrong in 0..=most {
            run_case(
                &planted(rng, &words, wrong),
                &format!("{words:?}, {wrong} wrong"),
            );
        }
        for _ in 0..4 {
            run_case(&between(rng, &words), &format!("{words:?}, between two"));
        }
    }
}

#[test]
fn every_place_wrong_by_itself_and_all_pairs() {
    for field in 0..4 {
        let words = sheet(field, 8, 4);
        let rng = &mut Rng::new(field.into());
        for i in 0..8 {
            run_case(
                &planted_at(rng, &words, &[i]),
                &format!("field {field}, {i}"),
            );
            for j in i + 1..8 {
                run_case(
                    &planted_at(rng, &words, &[i, j]),
                    &format!("field {field}, {i} {j}"),
                );
            }
        }
    }
}

/// Far tables are refused; one point too many is, with elements enough for nothing else to be near.
#[test]
fn nothing_is_near() {
    for seed in 0..300 {
        let rng = &mut Rng::new(seed);
        let words = generate::sheet_up_to(One, rng, 32);
        assert_eq!(
            run_case(&far(rng, &words), &format!("seed {seed}")),
            refused(19, 0)
        );
        if words[0] < 2 {
            continue;
        }
        let most = (words[1] - words[2]) as usize / 2;
        let one_more = planted(rng, &words, most + 1);
        for case in [one_more, halfway(rng, &words)] {
            assert_eq!(run_case(&case, &format!("seed {seed}")), refused(19, 0));
        }
    }
}

/// A wrong point is one however many of its words differ: what is near in each of the four words
/// by itself need not be near as a whole.
#[test]
fn four_words_are_one_entry() {
    let words = sheet(3, 16, 8);
    let known = Sheet::read(&words).unwrap();
    let most = most_wrong(&known);
    let rng = &mut Rng::new(5);
    let case = planted(rng, &words, 0);
    // Each word wrong in as many points as there may be, but not in the same ones.
    let mut table = case.table.clone();
    for (word, first) in [(0, 0), (1, 4), (2, 8), (3, 12)] {
        for j in first..first + most {
            table[4 * j + word] ^= 1;
        }
    }
    assert_eq!(run(&words, &table, case.length).0, refused(19, 0));
    let points = Subgroup::of(&known).domain(0);
    for word in 0..4 {
        let plane: Vec<u64> = table.chunks(4).map(|entry| entry[word].into()).collect();
        assert!(decode(QUARTIC.base, &points, &plane, known.d0).is_some());
    }
    // All four words wrong in the same ones: near.
    let mut table = case.table;
    for j in 3..3 + most {
        for word in 0..4 {
            table[4 * j + word] ^= 1;
        }
    }
    let (answer, _) = run(&words, &table, case.length);
    assert_eq!(answer, Answer::Done(4 * 8 + 1 + most as u64));
}

#[test]
fn each_refusal_and_two_at_once() {
    let mut met = BTreeSet::new();
    for seed in 0..6_000 {
        let rng = &mut Rng::new(seed);
        let words = generate::sheet_up_to(One, rng, 16);
        let (first, second) = (rng.pick(&TESTS), rng.pick(&TESTS));
        let case = faulty(rng, &words, [first, second].into_iter());
        let what = format!("{first:?} and {second:?}, seed {seed}");
        let Answer::Refused { number, place } = run_case(&case, &what) else {
            panic!("{what}: done");
        };
        let test = first.min(second);
        met.insert((test, (test == Test::Sheet).then_some(place), number));
    }
    let mut all: BTreeSet<_> = [
        (Test::SheetLength, None, 10),
        (Test::TableLength, None, 10),
        (Test::Entries, None, 5),
        (Test::Output, None, 11),
        (Test::Near, None, 19),
    ]
    .into();
    all.extend((0..12).map(|place| (Test::Sheet, Some(place), 3)));
    assert_eq!(met, all);
}

#[test]
fn sizes() {
    let size = |field, n0, d0| most_words(&Sheet::read(&sheet(field, n0, d0)).unwrap());
    assert_eq!(size(0, 4, 2), 4);
    assert_eq!(size(2, 4096, 2048), 2048 + 1 + 1024);
    assert_eq!(size(2, 4096, 2), 2 + 1 + 2047);
    assert_eq!(size(3, 1024, 512), 2048 + 1 + 256);
    // The size is due also where less is written, and a longer output is as good.
    let table = [12, 16, 0, 13];
    assert_eq!(run(&SMALLEST, &table, 3).0, refused(11, 4));
    assert_eq!(run(&SMALLEST, &table, 7).1, [6, 7, 0, 9, 9, 9, 9]);
}
