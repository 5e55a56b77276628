//! The programs, run as their users run them.

mod common;

use common::*;
use std::collections::BTreeMap;
use std::io::Write;
use std::process::{Command, Stdio};
use tevrolig_model::convert::convert_to;
use tevrolig_model::generate::equal_outs::equal_coin_drawn;
use tevrolig_model::generate::repeats::Met;
use tevrolig_model::load::{Generator, WORKED_SHEET};
use tevrolig_model::stream::read_word;
use tevrolig_model::verify::{decide_in, read_in, verify_in};
use tevrolig_model::{line, Answer, Outcome, Verdict};

/// What model-check prints for an input.
fn check(input: &[u8]) -> String {
    check_as(&[], input)
}

/// The same for an edition, and a step of verify.
fn check_as(arguments: &[&str], input: &[u8]) -> String {
    let mut program = Command::new(env!("CARGO_BIN_EXE_model-check"))
        .args(arguments)
        .stdin(Stdio::piped())
        .stdout(Stdio::piped())
        .spawn()
        .unwrap();
    // The program may stop reading before the input ends.
    let _ = program.stdin.take().unwrap().write_all(input);
    let output = program.wait_with_output().unwrap();
    String::from_utf8(output.stdout).unwrap()
}

fn cases(arguments: &[&str]) -> String {
    let output = Command::new(env!("CARGO_BIN_EXE_definition-cases"))
        .args(arguments)
        .output()
        .unwrap();
    assert!(output.status.success());
    String::from_utf8(output.stdout).unwrap()
}

fn bytes(hexadecimal: &str) -> Vec<u8> {
    if hexadecimal == "-" {
        return Vec::new();
    }
    (0..hexadecimal.len() / 2)
        .map(|i| u8::from_str_radix(&hexadecimal[2 * i..2 * i + 2], 16).unwrap())
        .collect()
}

#[test]
fn check_prints_one_line() {
    assert_eq!(check(&hand_file()), "accepted 0 0 4\n");
    assert_eq!(check(&[]), "refused 1 0 0\n");
    let wrong = changed(&hand_file(), &[(FINAL, 15)]);
    assert_eq!(check(&wrong), "refused 9 0 4\n");
    assert_eq!(check_as(&["1", "verify"], &wrong), "refused 9 0 4\n");
    assert_eq!(check_as(&["1", "read"], &wrong), "accepted 0 0 0\n");
    assert_eq!(check_as(&["1", "decide"], &wrong), "refused 9 0 4\n");
    assert_eq!(check_as(&["2", "read"], &wrong), "refused 3 12 0\n");
    assert_eq!(check_as(&["2", "decide"], &wrong), "refused 3 12 0\n");
}

#[test]
fn check_verifies_the_first_65536_bytes() {
    let mut long = hand_file();
    long.resize(65_536, 0);
    let mut long = changed(&long, &[]);
    assert_eq!(check(&long), "refused 4 1 0\n");
    long.extend([1, 2, 3]);
    assert_eq!(verdict_line(One, &long), "refused 1 0 0");
    assert_eq!(check(&long), "refused 4 1 0\n");
}

/// At most two blocks, or four where elements have four words.
fn is_small(file: &[u8]) -> bool {
    let most = if file.first() == Some(&3) { 2048 } else { 1024 };
    file.len() <= most
}

#[test]
fn definition_cases_are_small_and_of_every_kind() {
    let text = cases(&["9", "800"]);
    assert_eq!(text, cases(&["9", "800"]));
    assert_ne!(text, cases(&["10", "800"]));
    let mut kinds: BTreeMap<String, usize> = BTreeMap::new();
    let (mut empty, mut fields) = (0, [0; 4]);
    for case in text.lines() {
        let (hexadecimal, verdict) = case.split_once(' ').unwrap();
        let file = bytes(hexadecimal);
        assert_eq!(verdict_line(One, &file), verdict);
        assert!(is_small(&file));
        empty += usize::from(file.is_empty());
        let kind = verdict.split(' ').nth(1).unwrap();
        *kinds.entry(kind.to_string()).or_default() += 1;
        if kind == "0" {
            fields[usize::from(file[0])] += 1;
            assert!(file[4] <= 32, "n0");
        }
    }
    assert_eq!(text.lines().count(), 800);
    assert_eq!(empty, 1);
    assert_eq!(kinds.len(), OUTCOMES.len());
    assert!(kinds.values().all(|&count| count >= 15), "{kinds:?}");
    assert!((200..=350).contains(&kinds["0"]), "{kinds:?}");
    assert!(fields.iter().all(|&count| count >= 40), "{fields:?}");
}

#[test]
fn definition_cases_of_edition_2() {
    let text = cases(&["9", "800", "edition2"]);
    let mut kinds: BTreeMap<String, usize> = BTreeMap::new();
    let mut differing = 0;
    for case in text.lines() {
        let (hexadecimal, verdict) = case.split_once(' ').unwrap();
        let file = bytes(hexadecimal);
        assert_eq!(verdict_line(Two, &file), verdict);
        assert!(is_small(&file));
        let kind = verdict.split(' ').nth(1).unwrap();
        *kinds.entry(kind.to_string()).or_default() += 1;
        if kind == "0" && file[16] > 0 {
            // k_0 and k_1.
            differing += usize::from(file[12] != file[48]);
        }
    }
    assert_eq!(text.lines().count(), 800);
    assert_eq!(kinds.len(), OUTCOMES.len());
    assert!(kinds.values().all(|&count| count >= 15), "{kinds:?}");
    assert!(differing >= 40, "{differing}");
}

#[test]
fn definition_cases_in_one_step() {
    let text = cases(&["9", "2000", "steps"]);
    assert_eq!(text.lines().count(), 2000);
    let mut kinds: BTreeMap<(&str, &str, &str), usize> = BTreeMap::new();
    for case in text.lines() {
        let parts: Vec<&str> = case.splitn(4, ' ').collect();
        let &[number, step, file, said] = &parts[..] else {
            panic!("{case}");
        };
        let file = bytes(file);
        let edition = if number == "2" { Two } else { One };
        let verdict = match step {
            "read" => Verdict {
                outcome: read_in(edition, &file),
                reads: 0,
            },
            _ => decide_in(edition, &file),
        };
        assert_eq!(line(verdict), said);
        assert!(is_small(&file));
        let kind = said.split(' ').nth(1).unwrap();
        *kinds.entry((number, step, kind)).or_default() += 1;
    }
    // Of each edition accepted and 1 to 6 of reading, and all of deciding.
    assert_eq!(kinds.len(), 2 * (7 + OUTCOMES.len()), "{kinds:?}");
    assert!(kinds.values().all(|&count| count >= 5), "{kinds:?}");
}

/// So many files and runs are tried on every run of the gate; equal out coins are among
/// them, repeated indices, and equal out coins that the load draws again.
#[test]
fn cases_of_the_gate() {
    for (edition, arguments) in [(One, &["1", "100"][..]), (Two, &["1", "100", "edition2"])] {
        let text = cases(arguments);
        let met = repeats_met(edition, &text);
        for kind in [
            "accepted, a shift index",
            "accepted, a final index",
            "8, in its round",
            "9, in a round",
            "9, before the failing coin",
            "9, after it",
            "one index in two levels",
        ] {
            assert!(met.0[kind] > 0, "{met:?}");
        }
        assert!(met.0["accepted, a final index"] >= 10, "{met:?}");
        for outcome in OUTCOMES {
            let kind = outcome.to_string();
            let met = text
                .lines()
                .any(|case| case.split(' ').nth(2) == Some(&kind));
            assert!(met, "{kind}");
        }
    }
    let steps = cases(&["1", "100", "steps"]);
    for (step, numbers) in [("read", &[0, 1, 2, 3, 4, 5, 6][..]), ("decide", &OUTCOMES)] {
        for number in numbers {
            let kind = number.to_string();
            let met = steps.lines().any(|case| {
                let parts: Vec<&str> = case.split(' ').collect();
                parts[1] == step && parts[4] == kind
            });
            assert!(met, "{step} {kind}");
        }
    }
    assert!(equal_coins_drawn(&cases(&["1", "150", "inputs"])) > 15);
}

/// The repeats in files that pass reading.
fn repeats_met(edition: Edition, text: &str) -> Met {
    let mut met = Met::default();
    for case in text.lines() {
        let (hexadecimal, _) = case.split_once(' ').unwrap();
        let file = bytes(hexadecimal);
        let outcome = verify_in(edition, &file).outcome;
        if matches!(
            outcome,
            Outcome::Accepted | Outcome::Refused { number: 8 | 9, .. }
        ) {
            let words = 0..edition.sheet_words();
            let sheet: Vec<u32> = words.map(|word| read_word(&file, word)).collect();
            met.count(&sheet, &file, outcome);
        }
    }
    met
}

/// The runs in which an out coin that equals the one before it is drawn.
fn equal_coins_drawn(text: &str) -> usize {
    let drawn = |case: &&str| {
        let (v, _) = case.split_once(" | ").unwrap();
        let before = Generator {
            v: v.parse().unwrap(),
        };
        let input = before.clone().draw_input();
        input.sheet[4] > 0 && input.sheet[5] == 2 && equal_coin_drawn(&before, &input)
    };
    text.lines().filter(drawn).count()
}

#[test]
fn conversions_are_small_and_of_every_kind() {
    let text = cases(&["9", "1000", "convert"]);
    assert_eq!(text.lines().count(), 1000);
    let mut kinds: BTreeMap<(String, String), usize> = BTreeMap::new();
    for case in text.lines() {
        let parts: Vec<&str> = case.split(' ').collect();
        let &[edition, file, length, answer, number, place, after] = &parts[..] else {
            panic!("{case}");
        };
        let (file, after) = (bytes(file), bytes(after));
        let mut output = vec![165; length.parse().unwrap()];
        let to = if edition == "2" { Two } else { One };
        let said = convert_to(to, &file, &mut output);
        let (number_said, place_said) = match said {
            Answer::Done(blocks) => (0, blocks),
            Answer::Refused { number, place } => (number, place),
        };
        assert_eq!(
            (number, place),
            (&*number_said.to_string(), &*place_said.to_string())
        );
        assert_eq!(answer == "done", number == "0");
        assert_eq!(output, after);
        assert!(file.len() <= 1024 && after.len() <= 1024);
        *kinds.entry((edition.into(), number.into())).or_default() += 1;
    }
    // 1 to 6, 11 and done both ways, and 13 to edition 1.
    assert_eq!(kinds.len(), 17, "{kinds:?}");
    assert!(kinds.values().all(|&count| count >= 10), "{kinds:?}");
}

#[test]
fn drawn_inputs_are_short_and_of_every_kind() {
    let text = cases(&["9", "400", "inputs"]);
    assert_eq!(text.lines().count(), 400);
    let (mut worked, mut rounds, mut fields) = (0, 0, [0; 3]);
    for case in text.lines() {
        let (v, rest) = case.split_once(" | ").unwrap();
        let (next, input) = rest.split_once(" | ").unwrap();
        let mut generator = Generator {
            v: v.parse().unwrap(),
        };
        let drawn = generator.draw_input();
        assert_eq!(drawn.to_string(), input);
        assert_eq!(generator.v.to_string(), next);
        assert!(drawn.coefficients.len() + drawn.coins.len() <= 100);
        worked += usize::from(drawn.sheet == WORKED_SHEET);
        rounds += usize::from(drawn.sheet[4] > 0);
        fields[drawn.sheet[0] as usize] += 1;
    }
    assert!(worked >= 50 && rounds >= 200, "{worked}, {rounds}");
    assert!(equal_coins_drawn(&text) >= 50);
    assert!(fields.iter().all(|&count| count >= 20), "{fields:?}");
}
