//! The stated load (document 02, CR 2 and CR 6).

mod common;

use common::{verdict_line, One, SHEET};
use std::collections::BTreeSet;
use std::process::Command;
use tevrolig_model::domain::Subgroup;
use tevrolig_model::generate::equal_outs::equal_coin_drawn;
use tevrolig_model::generate::{honest_file, Rng};
use tevrolig_model::load::*;
use tevrolig_model::sheet::Sheet;

fn from(v: u32) -> Generator {
    Generator { v }
}

/// The first draws of seed 1 are the published ones of xorshift32 with 13, 17, 5.
#[test]
fn steps() {
    let mut generator = from(1);
    let first: Vec<u32> = (0..4).map(|_| generator.step()).collect();
    assert_eq!(first, [270369, 67634689, 2647435461, 307599695]);
    assert_eq!(from(u32::MAX).step(), 253983);
    assert_eq!(from(0).step(), 0);
}

/// The remainder of the new v picks, lowest first.
#[test]
fn a_draw_uses_the_new_v() {
    let mut generator = from(1);
    assert_eq!(generator.below(1000), 369);
    assert_eq!(generator.below(1 << 40), 67634689);
    assert_eq!(generator.below(1), 0);
    assert_eq!(
        generator.v, 2647435461,
        "a single choice takes its step too"
    );
}

#[test]
fn seeds() {
    assert_eq!(seed(&[]), 0);
    assert_eq!(seed(&[1]), 1);
    assert_eq!(seed(&[1, 2]), 513);
    assert_eq!(seed(&[0, 0, 1]), 65536);
    assert_eq!(seed(&[4, 3, 2, 1]), 0x01020304);
    assert_eq!(seed(&[1, 0, 0, 1, 9]), 16777217);
    assert_eq!(seed(&[0, 0, 0, 0, 9, 9]), 0);
    assert_eq!(lines(0), ["refused 12 0 0"]);
}

#[test]
fn permitted_values() {
    let powers: Vec<u32> = (1..=12).map(|bit| 1 << bit).collect();
    assert_eq!(permitted(&[]), [0, 1, 2]);
    assert_eq!(permitted(&[0]), [4, 8, 16]);
    assert_eq!(permitted(&[1]), powers[1..]);
    assert_eq!(permitted(&[2]), powers[1..]);
    assert_eq!(permitted(&[2, 4096]), powers[..11]);
    assert_eq!(permitted(&[2, 4]), [2]);
    assert_eq!(permitted(&[2, 4096, 2048]), [2, 4, 8, 16]);
    assert_eq!(permitted(&[2, 4096, 8]), [2, 4, 8]);
    assert_eq!(permitted(&[2, 4096, 2048, 2]), [0, 1, 2, 3, 4, 5]);
    assert_eq!(permitted(&[2, 4096, 2048, 16]), [0, 1]);
    assert_eq!(permitted(&[2, 4096, 2, 2]), [0]);
    assert_eq!(permitted(&[2, 4096, 2048, 2, 5]), [1, 2]);
    let counts: Vec<u32> = (1..=48).collect();
    let five = [2, 4096, 2048, 2, 5, 2, 48, 48, 48, 48];
    assert_eq!(permitted(&five), counts, "48 + 2 < d_5 = 64");
    assert_eq!(
        permitted(&[2, 4096, 1024, 2, 5, 2, 1, 1, 1, 1]),
        counts[..29]
    );
    assert_eq!(
        permitted(&[0, 4, 2, 2, 0, 1]),
        counts,
        "t_M has no other bound"
    );
    assert_eq!(permitted(&[0, 4, 2, 2, 0, 1, 1]), [0]);
    assert_eq!(permitted(&[0, 16, 4, 2, 1, 1]), [], "t_0 + 1 < 2");
    assert_eq!(permitted(&[0, 16, 8, 2, 1, 2]), [1]);
}

/// Written out here, the rules are those by which sheets are read.
#[test]
fn permitted_values_are_those_that_sheets_keep() {
    let mut rng = Rng::new(12);
    let mut ends = 0;
    for _ in 0..300 {
        let mut words = Vec::new();
        while words.len() < 12 {
            let at = words.len();
            let mut sheet = [0; 12];
            sheet[..at].copy_from_slice(&words);
            let keeps = |value: &u32| {
                sheet[at] = *value;
                Sheet::read(&sheet).map_or_else(|place| place > at, |_| true)
            };
            let mut values: Vec<u32> = (0..=8192).chain([u32::MAX]).filter(keeps).collect();
            if at == 0 {
                // The load keeps to elements of one word (document 02, CR 11).
                assert_eq!(values.pop(), Some(3));
            }
            assert_eq!(permitted(&words), values, "after {words:?}");
            if values.is_empty() {
                ends += 1;
                break;
            }
            words.push(rng.pick(&values));
        }
    }
    assert!(ends > 5);
}

/// The runs from the states 849, 6 and 56080, worked out by the written definition too.
/// In the last the second out coin is drawn equal to the first, then in the domain.
#[test]
fn three_inputs() {
    let mut generator = from(849);
    let input = generator.draw_input();
    assert_eq!(input.sheet, [0, 16, 8, 2, 1, 1, 1, 10, 0, 0, 0, 0]);
    assert_eq!(input.coefficients, [2, 14, 2, 11, 15, 7, 15, 4]);
    let coins = [0, 2, 1, 16, 0, 1, 0, 3, 1, 1, 0, 0, 1, 0, 3];
    assert_eq!(input.coins, coins);
    assert_eq!(generator.v, 2168865843);

    let mut generator = from(6);
    let input = generator.draw_input();
    assert_eq!(input.sheet, WORKED_SHEET);
    assert_eq!(input.coefficients, [0, 9, 0, 0, 0, 3, 9, 3]);
    assert_eq!(input.coins, [11, 9, 8, 12, 0, 3]);
    assert_eq!(generator.v, 509620375);

    let mut generator = from(56080);
    let input = generator.draw_input();
    assert_eq!(input.sheet, [0, 16, 8, 2, 1, 2, 1, 2, 0, 0, 0, 0]);
    assert_eq!(input.coefficients, [8, 10, 2, 11, 10, 6, 1, 9]);
    assert_eq!(input.coins, [9, 16, 8, 15, 10, 6, 1, 0]);
    assert_eq!(generator.v, 1591568000);
    assert!(equal_coin_drawn(&from(56080), &input));
}

/// From 6 the words 0 to 6 are drawn, and then no t_1 is left: seven steps, the worked
/// sheet, and no step for word 7 or a later one. From 849 a sheet takes twelve steps.
#[test]
fn steps_of_a_sheet() {
    let after = |v: u32, steps: usize| {
        let mut generator = from(v);
        for _ in 0..steps {
            generator.step();
        }
        generator.v
    };
    assert_eq!(WORKED_SHEET, SHEET);
    let mut generator = from(6);
    assert_eq!(generator.sheet(), WORKED_SHEET);
    let mut words = Vec::new();
    let mut drawing = from(6);
    while !permitted(&words).is_empty() {
        let values = permitted(&words);
        words.push(values[drawing.step() as usize % values.len()]);
    }
    assert_eq!(words, [0, 16, 8, 2, 2, 1, 1], "d_2 = 2");
    assert_eq!(generator.v, after(6, 7));

    let mut generator = from(849);
    generator.sheet();
    assert_eq!(generator.v, after(849, 12));
}

/// An out coin inside its domain is drawn again, one step each.
#[test]
fn out_coins_drawn_again() {
    let mut generator = from(1);
    let drawn: Vec<u32> = (0..4).map(|_| generator.below(17)).collect();
    assert_eq!(
        drawn,
        [270369 % 17, 67634689 % 17, 2647435461 % 17, 307599695 % 17]
    );
    let inside: Vec<u64> = drawn[..2].iter().map(|&coin| coin.into()).collect();
    assert!(!inside.contains(&drawn[2].into()));
    let mut generator = from(1);
    assert_eq!(generator.out_coin(17, &inside, None), drawn[2]);
    assert_eq!(generator.v, 2647435461);

    // One draw and 64 more, then 0 without a step.
    let everything: Vec<u64> = (0..17).collect();
    let (mut generator, mut steps) = (from(1), from(1));
    assert_eq!(generator.out_coin(17, &everything, None), 0);
    for _ in 0..65 {
        steps.step();
    }
    assert_eq!(generator, steps);

    // The sixty-fifth draw still counts.
    let mut draws = from(1);
    let drawn: Vec<u32> = (0..65).map(|_| draws.below(65537)).collect();
    let inside: Vec<u64> = drawn[..64].iter().map(|&coin| coin.into()).collect();
    assert!(drawn[64] != 0 && !inside.contains(&drawn[64].into()));
    assert_eq!(from(1).out_coin(65537, &inside, None), drawn[64]);
}

/// A second coin is drawn again also where it equals the first, with one count for both
/// causes.
#[test]
fn second_out_coins_drawn_again() {
    let p = 65537;
    let mut draws = from(1);
    let drawn: Vec<u32> = (0..66).map(|_| draws.below(p)).collect();
    let distinct: BTreeSet<u32> = drawn.iter().copied().collect();
    assert!(distinct.len() == 66 && distinct.range(..5).next().is_none());
    let inside = |drawn: &[u32]| -> Vec<u64> { drawn.iter().map(|&coin| coin.into()).collect() };
    let after = |steps: usize| {
        let mut generator = from(1);
        for _ in 0..steps {
            generator.step();
        }
        generator
    };
    // What is taken, and the number of draws.
    let taken = |domain: &[u64], first: Option<u32>, coin: u32, draws: usize| {
        let mut generator = from(1);
        assert_eq!(generator.out_coin(p, domain, first), coin);
        assert_eq!(generator, after(draws));
    };

    taken(&[], Some(5), drawn[0], 1);
    taken(&[], Some(drawn[0]), drawn[1], 2);
    // A first coin has none before it that it could equal.
    taken(&[], None, drawn[0], 1);
    taken(&inside(&drawn[..1]), Some(drawn[1]), drawn[2], 3);
    taken(&inside(&drawn[1..4]), Some(drawn[0]), drawn[4], 5);
    // The last draw still counts, and not one more, whichever the causes are.
    for equal in [0, 1, 30, 63] {
        let domain = [inside(&drawn[..equal]), inside(&drawn[equal + 1..64])].concat();
        taken(&domain, Some(drawn[equal]), drawn[64], 65);
    }
    for equal in [0, 30, 64] {
        let domain = [inside(&drawn[..equal]), inside(&drawn[equal + 1..65])].concat();
        taken(&domain, Some(drawn[equal]), 0, 65);
    }

    // Then it is the smallest element that is neither inside nor the first.
    let domain = inside(&drawn[..65]);
    taken(&domain, Some(1), 0, 65);
    taken(&domain, Some(0), 1, 65);
    let with = |more: &[u64]| [&domain[..], more].concat();
    taken(&with(&[1]), Some(0), 2, 65);
    taken(&with(&[2, 1]), Some(0), 3, 65);
    taken(&with(&[1, 3]), Some(2), 0, 65);
    taken(&with(&[0, 2]), Some(1), 3, 65);
    // The first coin keeps its 0.
    taken(&domain, None, 0, 65);
    taken(&with(&[0]), None, 0, 65);
}

/// The coins of runs with two out coins in field 0, from the draws one by one: in one
/// of nine the first draw outside the domain is the first coin again.
#[test]
fn equal_coins_of_drawn_inputs() {
    let (mut pairs, mut equal) = (0, 0);
    for v in 1..100_000 {
        let mut generator = from(v);
        if generator.sheet()[..6] != [0, 16, 8, 2, 1, 2] {
            continue;
        }
        // The coefficients and fold coin 0.
        for _ in 0..9 {
            generator.step();
        }
        let domain = [3, 10, 5, 11, 14, 7, 12, 6];
        let outside = |generator: &mut Generator| loop {
            let coin = generator.below(17);
            if !domain.contains(&coin) {
                return coin;
            }
        };
        let first = outside(&mut generator);
        let mut second = outside(&mut generator);
        let again = second == first;
        while second == first {
            second = outside(&mut generator);
        }
        let [combination, fold] = [generator.below(17), generator.below(17)];
        let shift = generator.below(8);

        let input = from(v).draw_input();
        let coins = [first, second, combination, fold, shift];
        assert_eq!(input.coins[1..6], coins, "{v}");
        assert_eq!(equal_coin_drawn(&from(v), &input), again);
        assert!(input.promised() == line_of(&input), "{v}");
        pairs += 1;
        equal += usize::from(again);
    }
    assert!(pairs > 150 && equal > 10, "{equal} of {pairs}");
}

/// The verdict line of an input's honest file.
fn line_of(input: &ProverInput) -> String {
    let file = honest_file(&input.sheet, &input.coefficients, &input.coins);
    verdict_line(One, &file)
}

/// In field 0 nearly half of the elements lie in domain 1, so that coins are drawn
/// again in many runs; what is taken lies outside.
#[test]
fn drawn_coins_are_allowed() {
    let (mut again, mut rounds, mut sheets) = (0, 0, BTreeSet::new());
    for v in 1..3000 {
        let mut generator = from(v);
        let input = generator.draw_input();
        let sheet = Sheet::read(&input.sheet).unwrap();
        sheets.insert(input.sheet);
        if input.sheet[..5] != [0, 16, 8, 2, 1] {
            continue;
        }
        rounds += 1;
        let domain = Subgroup::of(&sheet).domain(1);
        let outs = &input.coins[1..1 + sheet.outs];
        assert!(outs.iter().all(|&coin| !domain.contains(&coin.into())));
        assert!(outs.len() == 1 || outs[0] != outs[1]);
        let mut least = from(v);
        least.sheet();
        for _ in 0..8 + input.coins.len() {
            least.step();
        }
        again += usize::from(least != generator);
    }
    assert!(sheets.len() > 2000, "{}", sheets.len());
    assert!(again > 50 && rounds > again + 50, "{again} of {rounds}");
}

#[test]
fn every_line_is_accepted() {
    let mut kinds = BTreeSet::new();
    for seed in [1, 6, 1 << 31, u32::MAX] {
        let lines = lines(seed);
        assert_eq!(lines.len(), 1000);
        assert!(lines.iter().all(|line| line.starts_with("accepted 0 0 ")));
        assert_eq!(lines, lines_by(seed, ProverInput::promised), "seed {seed}");
        kinds.extend(lines);
    }
    assert!(kinds.len() > 150, "{}", kinds.len());
}

/// What is stored for the program `load`: an out coin that equals the one before it is
/// drawn there, and without drawing again the runs after it would be others.
#[test]
fn the_stored_load() {
    let seed = seed(include_bytes!("../../crates/loader/stdin"));
    let stored = include_str!("../../crates/loader/stdout");
    assert_eq!(lines(seed).join("\n") + "\n", stored);
    let mut generator = from(seed);
    let equal = (0..1000).filter(|_| {
        let before = generator.clone();
        let input = generator.draw_input();
        input.sheet[4] > 0 && input.sheet[5] == 2 && equal_coin_drawn(&before, &input)
    });
    assert!(equal.count() > 0);
}

/// The runs follow on one generator.
#[test]
fn one_generator() {
    let mut generator = from(77);
    let mut inputs = drawn_inputs(77);
    for _ in 0..1000 {
        assert_eq!(inputs.next(), Some(generator.draw_input()));
    }
    assert_eq!(inputs.next(), None);
}

#[test]
fn the_program_prints_lines_and_inputs() {
    let printed = |arguments: &[&str]| {
        let program = env!("CARGO_BIN_EXE_load");
        let output = Command::new(program).args(arguments).output().unwrap();
        String::from_utf8(output.stdout).unwrap()
    };
    assert_eq!(printed(&["0"]), "refused 12 0 0\n");
    assert_eq!(printed(&["1"]), lines(1).join("\n") + "\n");
    let inputs = printed(&["6", "inputs"]);
    assert_eq!(inputs.lines().count(), 1000);
    let first = "0 16 8 2 1 1 1 1 0 0 0 0 | 0 9 0 0 0 3 9 3 | 11 9 8 12 0 3";
    assert_eq!(inputs.lines().next(), Some(first));
}
