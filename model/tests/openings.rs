//! Opening files (document 02, CR 13): the worked transcript's, honest ones of every
//! kind, each refusal in its order, and the builder's answers.

mod common;

use common::*;
use std::collections::BTreeMap;
use tevrolig_model::generate::openings::{
    aim_openings, honest_full, honest_openings, number_at, refused_openings, Parts,
    OPENING_REFUSALS,
};
use tevrolig_model::generate::{self, Rng};
use tevrolig_model::layout::{opening_words, Layout, Part};
use tevrolig_model::openings::shut;
use tevrolig_model::sheet::Sheet;
use tevrolig_model::stream::read_word;
use tevrolig_model::tree::{hash_words, leaf, node};
use tevrolig_model::verify::opened_in;
use tevrolig_model::{build_openings, line, verify, verify_openings, Answer, Outcome};

fn opening_line(file: &[u8]) -> String {
    line(verify_openings(file))
}

/// The number of a refusal, 0 for accepted.
fn number_in(outcome: Outcome) -> u32 {
    match outcome {
        Outcome::Accepted => 0,
        Outcome::Refused { number, .. } => number,
    }
}

fn known(file: &[u8]) -> Sheet {
    let words: Vec<u32> = (0..12).map(|word| read_word(file, word)).collect();
    Sheet::read(&words).unwrap()
}

fn front(file: &[u8]) -> Layout {
    Layout::of_openings(&known(file), 0)
}

/// The root over entries of one word, by halves.
fn root(table: &[u32]) -> [u8; 32] {
    match table {
        [entry] => leaf(&[*entry]),
        _ => {
            let (left, right) = table.split_at(table.len() / 2);
            node(&root(left), &root(right))
        }
    }
}

#[test]
fn the_worked_transcript() {
    let file = shut(&hand_file()).unwrap();
    assert_eq!(file.len(), 1024);
    let parts = Parts::of(&file).unwrap();
    let [first, second] = [&STREAM[12..28], &STREAM[29..37]].map(|table| hash_words(&root(table)));
    let expected = [&SHEET[..], &first, &[2], &second, &STREAM[37..]].concat();
    assert_eq!(parts.front, expected);
    // Worked out by another program.
    assert_eq!(first[..3], [2516936685, 3374515799, 830694301]);
    assert_eq!(second[5..], [4215234280, 269076613, 897755955]);
    let places: Vec<&[u32]> = parts.openings.iter().map(|o| &o[..3]).collect();
    assert_eq!(places, [[0, 0, 3], [0, 8, 13], [1, 1, 3], [1, 5, 4]]);
    // The first sibling of point 0 is the leaf of point 1; table 1 has no use for the last.
    assert_eq!(parts.openings[0][3..11], hash_words(&leaf(&[11])));
    assert_eq!(parts.openings[1][3..11], hash_words(&leaf(&[8])));
    assert_eq!(parts.openings[2][3..11], hash_words(&leaf(&[15])));
    assert_eq!(
        parts.openings[0][27..35],
        hash_words(&root(&STREAM[20..28]))
    );
    assert_eq!(
        parts.openings[1][27..35],
        hash_words(&root(&STREAM[12..20]))
    );
    assert_eq!(parts.openings[3][27..35], [0; 8]);
    assert_eq!(opening_line(&file), "accepted 0 0 4");
}

#[test]
fn honest_ones_of_every_kind_are_accepted_with_the_same_count() {
    let mut fields = BTreeMap::new();
    for seed in 0..600 {
        let rng = &mut Rng::new(seed);
        let sheet = generate::sheet_up_to(One, rng, 64);
        let full = honest_full(rng, &sheet, seed % 2 == 0);
        let file = shut(&full).unwrap();
        let (verdict, opened) = opened_in(One, &full);
        assert_eq!(verify_openings(&file), verdict, "seed {seed}");
        let parts = Parts::of(&file).unwrap();
        let given = parts
            .openings
            .iter()
            .map(|o| (o[0] as usize, o[1] as usize));
        assert!(given.eq(opened), "seed {seed}");
        *fields.entry((sheet[0], sheet[4])).or_insert(0) += 1;
    }
    assert!(fields.len() > 13, "fields and rounds: {fields:?}");
}

#[test]
fn the_largest() {
    let sheets = [
        [2, 4096, 2048, 16, 1, 2, 48, 48, 0, 0, 0, 0],
        [3, 1024, 512, 2, 0, 2, 48, 0, 0, 0, 0, 0],
    ];
    for sheet in sheets {
        let rng = &mut Rng::new(1);
        let full = honest_full(rng, &sheet, false);
        let file = shut(&full).unwrap();
        assert_eq!(verify_openings(&file), verify(&full));
        assert!(file.len() <= 613_888);
    }
}

/// A file that deciding refuses is refused with its roots and paths right too.
#[test]
fn refused_full_files() {
    let mut seen = BTreeMap::new();
    for seed in 0..1200 {
        let rng = &mut Rng::new(seed);
        let sheet = generate::sheet_up_to(One, rng, 32);
        let mut full = honest_full(rng, &sheet, false);
        let number = [7, 14, 8, 9][seed as usize % 4];
        if !generate::aim(One, rng, &mut full, number) {
            continue;
        }
        let (of_full, of_openings) = (verify(&full), verify_openings(&shut(&full).unwrap()));
        *seen.entry(number_in(of_full.outcome)).or_insert(0) += 1;
        assert_eq!(of_openings.reads, of_full.reads, "seed {seed}");
        let Outcome::Refused { number, place } = of_full.outcome else {
            assert_eq!(of_openings.outcome, Outcome::Accepted, "seed {seed}");
            continue;
        };
        let known = known(&full);
        let plain = Layout::new(&known);
        let parts = plain.sections.iter().map(|section| section.part);
        let expected = match number {
            // The same coin at the number that it has there.
            7 | 14 => {
                let word = place as usize;
                let mut outs = parts.filter(|part| matches!(part, Part::OutCoins(_)));
                let part = outs
                    .find(|&part| plain.range(part).contains(&word))
                    .unwrap();
                let shut = Layout::of_openings(&known, 0).range(part);
                (shut.start + word - plain.range(part).start) as u64
            }
            _ => place,
        };
        let outcome = Outcome::Refused {
            number,
            place: expected,
        };
        assert_eq!(of_openings.outcome, outcome, "seed {seed}");
    }
    for number in [7, 14, 8, 9] {
        assert!(seen[&number] > 50, "{seen:?}");
    }
}

#[test]
fn each_refusal_and_two_at_once() {
    let mut seen = BTreeMap::new();
    let mut pairs = BTreeMap::new();
    for seed in 0..6000 {
        let rng = &mut Rng::new(seed);
        let sheet = generate::sheet_up_to(One, rng, 32);
        let hostile = rng.one_in(2);
        let full = honest_full(rng, &sheet, hostile);
        let mut file = shut(&full).unwrap();
        let mut last = None;
        // The later test is made to fail first, so that what the earlier one needs stands.
        let [one, other] = [(); 2].map(|()| rng.place(OPENING_REFUSALS.len()));
        let mut numbers = vec![
            OPENING_REFUSALS[one.max(other)],
            OPENING_REFUSALS[one.min(other)],
        ];
        if matches!(numbers[0], 8 | 9) && rng.one_in(2) {
            if let Some(refused) = refused_openings(rng, &full, numbers[0]) {
                file = refused;
                last = Some(numbers.remove(0));
            }
        }
        for number in numbers {
            if aim_openings(rng, &mut file, number) {
                if let Some(before) = last {
                    pairs.entry((before, number)).or_insert(seed);
                }
                last = Some(number);
            }
        }
        let verdict = verify_openings(&file);
        let found = number_in(verdict.outcome);
        match last {
            // Damage of these two may miss, or hit the other.
            None | Some(8 | 9) => {}
            Some(number) => assert_eq!(found, number, "seed {seed}"),
        }
        assert!(matches!(found, 0 | 8 | 9) || verdict.reads == 0);
        *seen.entry(found).or_insert(0) += 1;
        for number in [1, 2] {
            let mut broken = file.clone();
            if generate::aim(One, rng, &mut broken, number) {
                let found = number_in(verify_openings(&broken).outcome);
                assert_eq!(found, number, "seed {seed}");
            }
        }
    }
    for number in [0].into_iter().chain(OPENING_REFUSALS) {
        assert!(seen[&number] > 50, "every outcome is met: {seen:?}");
    }
    for later in [17, 18] {
        for other in [7, 14, 8, 9] {
            let [one, two] = [(later, other), (other, later)];
            assert!(pairs.contains_key(&one) || pairs.contains_key(&two));
        }
    }
}

/// What every single bit of an opening file is good for.
#[test]
fn every_word_of_a_small_file() {
    let file = shut(&hand_file()).unwrap();
    let other = |word: usize, value: u32| opening_line(&changed(&file, &[(word, value)]));
    let one_bit = |word: usize| other(word, read_word(&file, word) ^ 1 << (word % 32));
    for word in 12..20 {
        assert_eq!(one_bit(word), "refused 17 0 0");
    }
    for word in 21..29 {
        assert_eq!(one_bit(word), "refused 17 2 0");
    }
    for q in 0..4 {
        let start = 38 + 35 * q;
        let wrong = format!("refused 18 {q} 0");
        let table = (q / 2) as u32;
        // Above M no node is unused; below it the last is.
        for number in [2, 3, u32::MAX] {
            assert_eq!(other(start, number), wrong);
        }
        let exchanged = match table {
            0 => format!("refused 6 {} 0", start + 27),
            _ => wrong.clone(),
        };
        assert_eq!(other(start, 1 - table), exchanged);
        for number in [2, 16, 1 << 31] {
            assert_eq!(other(start + 1, number), wrong);
        }
        let outside = format!("refused 5 {} 0", start + 2);
        assert_eq!(other(start + 2, 17), outside);
        assert_eq!(other(start + 2, 16), format!("refused 17 {q} 0"));
        let used = if table == 0 { 35 } else { 27 };
        for word in start + 3..start + used {
            assert_eq!(one_bit(word), format!("refused 17 {q} 0"));
        }
        for word in start + used..start + 35 {
            assert_eq!(one_bit(word), format!("refused 6 {word} 0"));
        }
    }
    for word in 178..254 {
        assert_eq!(one_bit(word), format!("refused 6 {word} 0"));
    }
    // The number: 4 by the blocks that it needs, else 6 in what becomes the fill, or 18.
    for (number, said) in [
        (0, "refused 4 1 0"),
        (2, "refused 4 1 0"),
        (3, "refused 6 143 0"),
        (5, "refused 18 4 0"),
        (6, "refused 18 4 0"),
        (7, "refused 4 3 0"),
        (u32::MAX, "refused 4 1183652405 0"),
    ] {
        assert_eq!(other(37, number), said);
    }
}

/// A file too short to hold the number is 4 with the blocks up to it, also where the number
/// is the first or the last word of a block.
#[test]
fn too_short_for_the_number() {
    let sheets = [
        [1, 256, 128, 2, 0, 1, 1, 0, 0, 0, 0, 0],
        [3, 64, 32, 2, 0, 1, 1, 0, 0, 0, 0, 0],
        [2, 4096, 2048, 2, 1, 1, 48, 48, 0, 0, 0, 0],
        [3, 1024, 512, 2, 0, 2, 48, 0, 0, 0, 0, 0],
    ];
    for sheet in sheets {
        for place in [0, 1, 125, 126] {
            let Some(sheet) = number_at(&sheet, place) else {
                continue;
            };
            let rng = &mut Rng::new(7);
            let file = honest_openings(rng, &sheet, false);
            let number = front(&file).range(Part::OpeningCount).start;
            let up_to_it = number / 127 + 1;
            assert_eq!(number % 127, place);
            for blocks in 1..file.len() / 512 {
                let cut = changed(&file[..512 * blocks], &[]);
                let due = if blocks < up_to_it {
                    up_to_it
                } else {
                    file.len() / 512
                };
                assert_eq!(opening_line(&cut), format!("refused 4 {due} 0"));
            }
            for length in (512 * up_to_it).saturating_sub(600)..512 * up_to_it {
                if length % 512 != 0 {
                    assert_eq!(opening_line(&file[..length]), "refused 1 0 0");
                }
            }
            assert!(opening_line(&file).starts_with("accepted"));
        }
    }
    for (sheet, place) in [(0, 0), (0, 126), (1, 0), (1, 126), (2, 0), (2, 126)] {
        assert!(number_at(&sheets[sheet], place).is_some());
    }
}

/// As many openings as a word can say.
#[test]
fn the_largest_number_announced() {
    for seed in 0..40 {
        let rng = &mut Rng::new(seed);
        let sheet = generate::sheet_up_to(One, rng, 64);
        let file = honest_openings(rng, &sheet, false);
        let mut parts = Parts::of(&file).unwrap();
        parts.number = Some(u32::MAX);
        let words = parts.front.len() as u64 + 1 + 4294967295 * opening_words(&parts.sheet) as u64;
        let said = format!("refused 4 {} 0", words.div_ceil(127));
        assert_eq!(opening_line(&parts.file()), said);
    }
}

#[test]
fn the_builder() {
    for seed in 0..400 {
        let rng = &mut Rng::new(seed);
        let sheet = generate::sheet_up_to(One, rng, 32);
        let mut full = honest_full(rng, &sheet, seed % 2 == 0);
        if seed % 3 == 0 {
            generate::damage(One, rng, &mut full);
        }
        let before: Vec<u8> = (0..40_000).map(|_| rng.bits() as u8).collect();
        let mut output = before.clone();
        let answer = build_openings(&full, &mut output);
        match (verify(&full).outcome, answer) {
            (Outcome::Accepted, Answer::Done(blocks)) => {
                let (file, rest) = output.split_at(512 * blocks as usize);
                assert_eq!(file, shut(&full).unwrap());
                assert_eq!(rest, &before[file.len()..]);
                assert_eq!(verify_openings(file), verify(&full));
                // One byte too short: 11 with the blocks due, and nothing is written.
                let mut short = before[..file.len() - 1].to_vec();
                let number = 11;
                let place = blocks;
                let refused = Answer::Refused { number, place };
                assert_eq!(build_openings(&full, &mut short), refused);
                assert_eq!(short, before[..short.len()]);
            }
            (Outcome::Refused { number, place }, answer) => {
                // Its own refusal, also before 11.
                let refused = Answer::Refused { number, place };
                assert_eq!((answer, &output), (refused, &before), "seed {seed}");
                assert_eq!(build_openings(&full, &mut []), refused, "seed {seed}");
            }
            other => panic!("seed {seed}: {other:?}"),
        }
    }
}

/// Nothing in a file says of what kind it is.
#[test]
fn files_of_another_kind() {
    let file = shut(&hand_file()).unwrap();
    assert_eq!(line(verify(&file)), "refused 4 1 0");
    // The hand file's word 37, its out coin, is 0 openings; what follows is fill.
    assert_eq!(opening_line(&hand_file()), "refused 5 36 0");
}
