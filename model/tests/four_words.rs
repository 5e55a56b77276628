//! Elements of four words (document 02, CR 11): transcripts whose words were worked out
//! apart, by another program, with the places and lengths that count words.

mod common;

use common::*;
use tevrolig_model::convert::convert_to;
use tevrolig_model::field::QUARTIC;
use tevrolig_model::generate::{self, Rng};
use tevrolig_model::layout::Part;
use tevrolig_model::prove::prove_in;
use tevrolig_model::sheet::Sheet;
use tevrolig_model::stream::{read_word, to_blocks};
use tevrolig_model::{encode, Answer};

/// The smallest sheet, M = 0: sheet; table 0; fold coin; final coefficient; final index.
#[rustfmt::skip]
const SMALL: [u32; 37] = [
    3, 4, 2, 2, 0, 1, 1, 0, 0, 0, 0, 0,
    588958882, 304097475, 19236068, 1747640582, 2013265917, 2013265917, 2013265917,
    2013265917, 1424307041, 1709168450, 1994029859, 265625347, 6, 8, 10, 12,
    9, 10, 11, 12, 2565, 1998, 1237, 272,
    1,
];

/// 1 to 32 as eight coefficients, with M = 1 and s = 2: fold coin, two out coins that
/// differ in their last words, combination coin, fold coin, shift index, final index.
const GIVEN: [u32; 22] = [
    2, 1, 0, 0, 3, 0, 0, 1, 3, 0, 0, 2, 5, 6, 7, 8, 4, 3, 2, 1, 0, 1,
];

/// Their stream: sheet; table 0; fold coin 0; table 1; out coins; replies; combination
/// coin, fold coin 1, shift index; final coefficients, final index.
#[rustfmt::skip]
const FOUR: [u32; 146] = [
    3, 16, 8, 2, 1, 2, 1, 1, 0, 0, 0, 0,
    1561083551, 162191882, 776566134, 1390940386, 1864808957, 1864808957, 1864808957,
    1864808957, 281619993, 194077232, 106534471, 18991710, 531250670, 531250670, 531250670,
    531250670, 152800623, 1927153993, 1688241442, 1449328891, 802307585, 802307585,
    802307585, 802307585, 1955046453, 1544230626, 1133414799, 722598972, 2013265905,
    2013265905, 2013265905, 2013265905, 1829923158, 227473066, 638288895, 1049104724,
    1210958304, 1210958304, 1210958304, 1210958304, 222763707, 461676260, 700588813,
    939501366, 1482015219, 1482015219, 1482015219, 1482015219, 1244807980, 1332350743,
    1419893506, 1507436269, 148456932, 148456932, 148456932, 148456932, 805018227,
    190643977, 1589535648, 975161398, 120, 128, 136, 144,
    2, 1, 0, 0,
    228406228, 266427966, 1697463303, 1115232719, 1625048382, 1026956942, 1404047882,
    1781138822, 1688261312, 450392923, 1950882967, 1438107090, 281214212, 1788541805,
    247397639, 719519394, 1674548504, 328527945, 1570092723, 798391580, 259318433,
    1906838564, 1210267263, 513695962, 435316194, 967917163, 821358862, 674800561,
    1860951211, 1317460528, 1164819150, 1012177772,
    3, 0, 0, 1, 3, 0, 0, 2,
    359409, 243307, 107903, 44935, 1965948, 1088316, 388348, 196516,
    5, 6, 7, 8, 4, 3, 2, 1, 0,
    891797, 471557, 251025, 143873, 536958031, 1637615673, 1997814606, 1085614438, 1,
];

/// The final coefficient in edition 2, where k_1 is 4; what is before it stays.
const LAST_2: [u32; 4] = [1735186995, 952934839, 1162518953, 77074547];

/// The first words of the out coins.
const FIRST_OUT: usize = 112;
const SECOND_OUT: usize = 116;
/// A point of domain 1, and the shift point of index 0.
const INSIDE: u32 = 196396260;
const SHIFT_POINT: u32 = 1592366214;

fn coefficients() -> Vec<u32> {
    (1..=32).collect()
}

/// The stream in edition 2, with k_1 = 4: two reads more, and a coefficient less.
fn four_2() -> Vec<u32> {
    let later = [4, 0, 0, 0, 0, 2];
    [&FOUR[..12], &later, &FOUR[12..137], &LAST_2, &FOUR[145..]].concat()
}

/// A file whose stream has some words changed, and whose checks are right.
fn file(stream: &[u32], changes: &[(usize, u32)]) -> Vec<u8> {
    to_blocks(&with(stream, changes))
}

fn proved(stream: &[u32], coefficients: &[u32], coins: &[u32], room: usize) -> (Answer, Vec<u8>) {
    let edition = if stream.len() == 146 { One } else { Two };
    let mut output = vec![7; room];
    let sheet = &stream[..edition.sheet_words()];
    let answer = prove_in(edition, sheet, coefficients, coins, &mut output);
    (answer, output)
}

fn refused(number: u32, place: u64) -> Answer {
    Answer::Refused { number, place }
}

#[test]
fn streams() {
    let mut output = [7; 512];
    let answer = prove_in(
        One,
        &SMALL[..12],
        &[1, 2, 3, 4, 5, 6, 7, 8],
        &[9, 10, 11, 12, 1],
        &mut output,
    );
    assert_eq!(answer, Answer::Done(1));
    assert_eq!(output[..], file(&SMALL, &[]));
    assert_eq!(verdict_line(One, &output), "accepted 0 0 2");

    let two = four_2();
    assert_eq!((layout(&FOUR[..12]).words(), FOUR.len()), (146, 146));
    assert_eq!((layout(&two[..18]).words(), two.len()), (148, 148));
    for (edition, stream, reads) in [(One, &FOUR[..], 4), (Two, &two, 6)] {
        let (answer, output) = proved(stream, &coefficients(), &GIVEN, 1030);
        assert_eq!(answer, Answer::Done(2));
        assert_eq!(output[..1024], file(stream, &[]));
        assert_eq!(output[1024..], [7; 6]);
        let accepted = format!("accepted 0 0 {reads}");
        assert_eq!(verdict_line(edition, &output[..1024]), accepted);
    }
}

#[test]
fn tables_in_words() {
    let sheet = &SMALL[..12];
    let given = [1, 2, 3, 4, 5, 6, 7, 8];
    let encoded = |coefficients: &[u32], room: usize| {
        let mut output = vec![7; room];
        let answer = encode(sheet, coefficients, &mut output);
        (answer, output)
    };
    let written = [&SMALL[12..28], &[7]].concat();
    assert_eq!(encoded(&given, 17), (Answer::Done(16), written));
    assert_eq!(encoded(&given, 15), (refused(11, 16), vec![7; 15]));
    assert_eq!(encoded(&given[..7], 16), (refused(10, 1), vec![7; 16]));
    assert_eq!(encoded(&given[..2], 16), (refused(10, 1), vec![7; 16]));
    let above = with(&given, &[(6, 2013265921)]);
    assert_eq!(encoded(&above, 16), (refused(5, 6), vec![7; 16]));
    // n0 ends at 1024, at word 1; the table is 4,096 words.
    let largest = [3, 1024, 2, 2, 0, 1, 1, 0, 0, 0, 0, 0];
    let mut output = vec![7; 4096];
    assert_eq!(encode(&largest, &given, &mut output), Answer::Done(4096));
    let above = with(&largest, &[(1, 2048)]);
    assert_eq!(encode(&above, &given, &mut output), refused(3, 1));
}

#[test]
fn sheets() {
    let two = four_2();
    for sheet in [&FOUR[..12], &two[..18]] {
        let read = |changes: &[(usize, u32)]| Sheet::read(&with(sheet, changes));
        assert_eq!(read(&[]).map(|sheet| sheet.width), Ok(4));
        assert_eq!(read(&[(1, 1024)]).map(|sheet| sheet.n0), Ok(1024));
        assert_eq!(read(&[(1, 2048)]), Err(1));
        assert_eq!(read(&[(0, 2), (1, 2048)]).map(|sheet| sheet.width), Ok(1));
        assert_eq!(read(&[(0, 4)]), Err(0));
    }
}

#[test]
fn prover_refusals() {
    let two = four_2();
    let whole = coefficients();
    for stream in [&FOUR[..], &two] {
        let tried = |coefficients: &[u32], coins: &[u32], room: usize| {
            let (answer, output) = proved(stream, coefficients, coins, room);
            assert_eq!(output, vec![7; room]);
            answer
        };
        let coin = |changes: &[(usize, u32)], room| tried(&whole, &with(&GIVEN, changes), room);
        assert_eq!(tried(&whole[..31], &GIVEN, 1024), refused(10, 1));
        assert_eq!(tried(&whole[..8], &GIVEN, 1024), refused(10, 1));
        assert_eq!(tried(&whole, &GIVEN[..21], 1024), refused(10, 2));
        // Coefficients of 32 words come before the coins.
        for at in [0, 3, 9, 19, 20] {
            assert_eq!(coin(&[(at, u32::MAX)], 0), refused(5, 32 + at as u64));
        }
        assert_eq!(coin(&[(20, 8), (21, 8)], 0), refused(5, 52));
        // Out coins at their first words.
        for at in [4, 8] {
            let inside = [(at, INSIDE), (at + 3, 0)];
            assert_eq!(coin(&inside, 1024), refused(7, at as u64));
        }
        assert_eq!(coin(&[(11, 1)], 1024), refused(14, 8));
        assert_eq!(
            coin(&[(4, INSIDE), (7, 0), (8, INSIDE), (11, 0)], 0),
            refused(7, 4)
        );
        assert_eq!(coin(&[], 1023), refused(11, 2));
    }
}

/// 5 and 6 by the word, 7 and 14 by a coin's first word.
#[test]
fn refusals() {
    let of = |changes: &[(usize, u32)]| verdict_line(One, &file(&FOUR, changes));
    for word in [12, 15, 75, 79, 111, 114, 119, 127, 133, 144] {
        assert_eq!(of(&[(word, 2013265921)]), format!("refused 5 {word} 0"));
    }
    assert_eq!(of(&[(136, 8)]), "refused 5 136 0");
    assert_eq!(of(&[(145, 4)]), "refused 5 145 0");
    let longer = [&FOUR[..], &[0, 5]].concat();
    assert_eq!(verdict_line(One, &to_blocks(&longer)), "refused 6 147 0");

    // In its domain by b = c = d = 0 and a.
    for out in [FIRST_OUT, SECOND_OUT] {
        let inside = [(out, INSIDE), (out + 3, 0)];
        assert_eq!(of(&inside), format!("refused 7 {out} 0"));
        for later in 1..4 {
            assert_eq!(
                of(&[inside[0], inside[1], (out + later, 1)]),
                "refused 9 0 4"
            );
        }
    }
    // A later word is no coin, and none begins with it.
    assert_eq!(of(&[(112, 0), (113, INSIDE), (115, 0)]), "refused 9 0 4");
    let across = [(115, INSIDE), (116, 0), (119, 5)];
    assert_eq!(of(&across), "refused 9 0 4");

    // Equal in all four words, or in fewer.
    assert_eq!(of(&[(119, 1)]), "refused 14 116 0");
    assert_eq!(of(&[(115, 2)]), "refused 14 116 0");
    assert_eq!(of(&[(117, 9), (118, 9), (119, 9)]), "refused 9 0 4");
    for out in [FIRST_OUT, SECOND_OUT] {
        assert_eq!(
            of(&[(119, 1), (out, INSIDE), (out + 3, 0)]),
            format!("refused 7 {out} 0")
        );
    }

    let of_2 = |changes: &[(usize, u32)]| verdict_line(Two, &file(&four_2(), changes));
    assert_eq!(of_2(&[(125, 1)]), "refused 14 122 0");
    assert_eq!(of_2(&[(122, INSIDE), (125, 0)]), "refused 7 122 0");
}

/// A shift point is a number: an out coin that is one meets it, with all words of its
/// reply compared.
#[test]
fn clashes() {
    let met = [(FIRST_OUT, SHIFT_POINT), (FIRST_OUT + 3, 0)];
    assert_eq!(verdict_line(One, &file(&FOUR, &met)), "refused 8 1 2");
    let coins = with(&GIVEN, &[(4, SHIFT_POINT), (7, 0)]);
    let (answer, honest) = proved(&FOUR, &coefficients(), &coins, 1024);
    assert_eq!(answer, Answer::Done(2));
    assert_eq!(verdict_line(One, &honest), "accepted 0 0 4");
    for word in 120..124 {
        let wrong = changed(&honest, &[(word, read_word(&honest, word) ^ 1)]);
        assert_eq!(verdict_line(One, &wrong), "refused 8 1 2");
    }
    for later in 1..4 {
        let apart = changed(&honest, &[(FIRST_OUT + later, 1)]);
        assert_eq!(verdict_line(One, &apart), "refused 9 0 4");
    }
}

/// Every word that a comparison hangs on, and no other.
#[test]
fn comparisons() {
    let honest = file(&FOUR, &[]);
    let layout = layout(&FOUR[..12]);
    let shifts = [0, 8].map(|entry| layout.range(Part::Table(0)).start + 4 * entry);
    let finals = [1, 5].map(|entry| layout.range(Part::Table(1)).start + 4 * entry);
    let tables = 12..112;
    for word in (12..146).filter(|&word| ![136, 145].contains(&word)) {
        let used = shifts.iter().chain(&finals);
        let opened = used
            .clone()
            .any(|&entry| (entry..entry + 4).contains(&word));
        let wrong = changed(&honest, &[(word, read_word(&honest, word) ^ 2)]);
        let expected = if tables.contains(&word) && !opened && !(76..80).contains(&word) {
            "accepted 0 0 4"
        } else {
            "refused 9 0 4"
        };
        assert_eq!(verdict_line(One, &wrong), expected, "word {word}");
    }
}

#[test]
fn conversions() {
    let convert = |to: Edition, stream: &[u32], room: usize| {
        let mut output = vec![7; room];
        let answer = convert_to(to, &file(stream, &[]), &mut output);
        (answer, output)
    };
    let equal = [&FOUR[..12], &[2, 0, 0, 0, 0, 2], &FOUR[12..]].concat();
    assert_eq!(
        convert(Two, &FOUR, 1024),
        (Answer::Done(2), file(&equal, &[]))
    );
    assert_eq!(
        convert(One, &equal, 1024),
        (Answer::Done(2), file(&FOUR, &[]))
    );
    assert_eq!(
        convert(One, &four_2(), 1024),
        (refused(13, 1), vec![7; 1024])
    );
    assert_eq!(convert(Two, &FOUR, 1023), (refused(11, 2), vec![7; 1023]));
}

/// What the drawn coins of four words are for: numbers, points but for one word, coins
/// that agree in three words, coins with a single word that is not 0.
#[test]
fn hostile_coins_are_met() {
    let words = [3, 64, 32, 2, 2, 2, 3, 3, 2, 0, 0, 0];
    let sheet = Sheet::read(&words).unwrap();
    let layout = layout(&words);
    let subgroup = tevrolig_model::domain::Subgroup::of(&sheet);
    let mut rng = Rng::new(108);
    let mut met = [0; 7];
    for _ in 0..1000 {
        let file = accept(&mut rng, &words, true);
        let read = |part| -> Vec<[u32; 4]> {
            let words: Vec<u32> = layout
                .range(part)
                .map(|word| read_word(&file, word))
                .collect();
            words
                .chunks_exact(4)
                .map(|four| four.try_into().unwrap())
                .collect()
        };
        let zeros = |coin: &[u32; 4]| coin.iter().filter(|&&word| word == 0).count();
        let (outs, later) = (read(Part::OutCoins(1)), read(Part::OutCoins(2)));
        let equal_words = outs[0].iter().zip(&outs[1]).filter(|(a, b)| a == b).count();
        let in_domain = |coin: &[u32; 4]| subgroup.domain(1).contains(&u64::from(coin[0]));
        let shift_index = read_word(&file, layout.range(Part::ShiftIndices(1)).start) as usize;
        let shift = subgroup.shift_point(0, 2, shift_index) as u32;
        let facts = [
            outs.iter().any(|coin| coin[1..] == [0; 3]),
            outs.iter().any(|coin| in_domain(coin) && zeros(coin) == 2),
            equal_words == 3,
            outs.contains(&[shift, 0, 0, 0]),
            later.iter().any(|coin| outs.contains(coin)),
            zeros(&read(Part::FoldCoin(1))[0]) == 3,
            read(Part::Combination(1))
                .iter()
                .all(|coin| !coin.contains(&0)),
        ];
        assert!(!outs
            .iter()
            .any(|coin| in_domain(coin) && coin[1..] == [0; 3]));
        for (count, fact) in met.iter_mut().zip(facts) {
            *count += usize::from(fact);
        }
    }
    assert!(met.iter().all(|&count| count > 20), "{met:?}");
    assert_eq!(QUARTIC.base, sheet.field);
    assert_eq!(generate::coefficients(&mut rng, &words).len(), 128);
}
