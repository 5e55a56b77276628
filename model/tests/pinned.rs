//! Transcripts whose words were worked out separately, by other formulas than the
//! model's: Newton's interpolation, powers, synthetic division, folds by repeated
//! halving.

mod common;

use common::*;
use tevrolig_model::prove::prove_in;
use tevrolig_model::stream::{read_word, BLOCK_BYTES};
use tevrolig_model::{prove, Answer};

/// Proves, compares the check words, which every word of a block goes into, and has
/// the file verified.
fn proved(
    sheet: &[u32],
    coefficients: &[u32],
    coins: &[u32],
    checks: &[u32],
    reads: u32,
) -> Vec<u8> {
    let edition = edition(sheet);
    let mut file = vec![0xAA; BLOCK_BYTES * checks.len()];
    let answer = prove_in(edition, sheet, coefficients, coins, &mut file);
    assert_eq!(answer, Answer::Done(checks.len() as u64));
    for (block, check) in file.chunks(BLOCK_BYTES).zip(checks) {
        assert_eq!(block[508..], check.to_le_bytes());
    }
    assert_eq!(
        verdict_line(edition, &file),
        format!("accepted 0 0 {reads}")
    );
    file
}

/// The same, and compares the stream after the sheet.
fn compare(
    sheet: &[u32],
    coefficients: &[u32],
    coins: &[u32],
    words: &[u32],
    checks: &[u32],
    reads: u32,
) -> Vec<u8> {
    let file = proved(sheet, coefficients, coins, checks, reads);
    let mut stream = [sheet, words].concat();
    stream.resize(127 * checks.len(), 0);
    for (word, &value) in stream.iter().enumerate() {
        assert_eq!(read_word(&file, word), value, "word {word}");
    }
    file
}

/// Field 1, two rounds. Round 1 repeats its shift index and has c·x = 1 at a
/// point; round 2's out coin is its shift point; both fold coins are roots.
#[test]
fn two_rounds_with_one_fold() {
    let sheet = [1, 32, 16, 2, 2, 1, 2, 1, 2, 0, 0, 0];
    let coefficients: Vec<u32> = (3..19).collect();
    let coins = [7, 1000, 63489, 65409, 4, 4, 4, 9, 32769, 5, 0, 3];
    #[rustfmt::skip]
    let words = [
        30748, 26007, 42439, 34681, 48, 39319, 60558, 2040,
        41847, 43670, 58262, 30585, 34342, 22166, 61550, 65529,
        24072, 43355, 25727, 34936, 14578, 21851, 63672, 63481,
        7729, 26202, 65519, 30840, 20743, 39514, 38047, 168,
        7,
        61566, 40728, 24157, 57984, 864, 52886, 48154, 11700,
        2877, 11151, 18961, 35357, 49483, 32513, 56334, 20077,
        1000, 13646, 63489, 65409, 4, 4,
        6996, 7799, 2677, 62731, 35575, 21667, 39282, 57870,
        4, 37839, 9, 32769, 5,
        60250, 60172,
        0, 3,
    ];
    compare(&sheet, &coefficients, &coins, &words, &[101028082], 8);
}

/// Field 2, k = 4, one round with two out coins; equal ones are refused.
#[test]
fn fours_over_the_large_field() {
    let sheet = [2, 64, 16, 4, 1, 2, 1, 2, 0, 0, 0, 0];
    let coefficients: Vec<u32> = (0..16).map(|l| 1 << l).collect();
    let coins = [123456789, 5, 9, 2013265920, 31, 15, 7, 2];
    #[rustfmt::skip]
    let words = [
        1209936877, 30851578, 1788512725, 1762662461, 509565425, 698906834, 493803691, 860088965,
        1374949271, 1315981503, 233672001, 839411880, 90557623, 107378452, 1106275864, 153635216,
        95723395, 1136250791, 481270683, 1957348119, 3121482, 1779288324, 608455074, 1777731791,
        731769296, 213481679, 1393645274, 1684381387, 459323176, 442794430, 1491156705, 2013244076,
        701127697, 1348429108, 295487111, 1278528042, 281967684, 1299077082, 211172550, 386512722,
        263232207, 1722171053, 45442135, 590285916, 1680181475, 615493573, 111359805, 1859604491,
        1265116114, 986981460, 1301709791, 1348425092, 323698683, 909451680, 264943212, 1002182944,
        73157166, 1749870026, 1256986348, 605284668, 1002902050, 1749719811, 995702573, 65535,
        123456789,
        1438704941, 1505387362, 722468045, 1795069566, 886371561, 1234770393, 373177797, 957348134,
        1328831737, 1527343115, 1601933201, 785199602, 1859333544, 1154162042, 535757484, 516739265,
        769625099, 1971779512, 1545209348, 142425609, 737704085, 830223086, 1133609052, 35423933,
        1951553947, 484205735, 1619105130, 752755026, 2005306534, 256294282, 1432905470, 1965938471,
        5, 9, 793160831, 1835118651, 2013265920, 31, 15,
        988160292,
        7, 2,
    ];
    let file = compare(&sheet, &coefficients, &coins, &words, &[1992673263], 12);

    let equal = prove(&sheet, &coefficients, &with(&coins, &[(2, 5)]), &mut []);
    let (number, place) = (14, 2);
    assert_eq!(equal, Answer::Refused { number, place });
    let out = 12 + 64 + 1 + 32;
    for reply in [793160831, 1835118651] {
        let equal = changed(&file, &[(out + 1, 5), (out + 3, reply)]);
        assert_eq!(verdict_line(One, &equal), "refused 14 110 0");
    }
}

/// The transcript by hand of document 01, in edition 2: its words after the sheet
/// stay, so that a word's number is six higher.
#[test]
fn the_transcript_by_hand() {
    let file = compare(&SHEET_2, &COEFFICIENTS, &COINS, &STREAM[12..], &[7495], 4);
    let [out, reply, last] = [OUT, REPLY, FINAL].map(|word| word + 6);
    let cases: [(&[(usize, u32)], &str); 6] = [
        (&[(last, 15)], "refused 9 0 4"),
        (&[(out, 9), (reply, 5)], "refused 8 1 2"),
        (
            &[(out, 9), (reply, 16), (last, 0), (last + 1, 15)],
            "accepted 0 0 4",
        ),
        (&[(out, 3)], "refused 7 43 0"),
        (&[(18, 17)], "refused 5 18 0"),
        (&[(51, 1)], "refused 6 51 0"),
    ];
    for (changes, line) in cases {
        assert_eq!(verdict_line(Two, &changed(&file, changes)), line);
    }
}

/// Field 0, k = 2 and then 4.
#[test]
fn a_larger_fold_second() {
    let sheet = [0, 16, 8, 2, 1, 1, 2, 2, 0, 0, 0, 0, 4, 0, 0, 0, 0, 2];
    let coefficients: Vec<u32> = (1..9).collect();
    let coins = [2, 0, 3, 4, 0, 5, 1, 0];
    #[rustfmt::skip]
    let words = [
        5, 1, 9, 12, 13, 3, 5, 13, 0, 6, 11, 14, 8, 8, 8, 2,
        2,
        13, 12, 11, 3, 14, 15, 16, 7,
        0, 5, 3, 4, 0, 5,
        5,
        1, 0,
    ];
    compare(&sheet, &coefficients, &coins, &words, &[8101], 12);
}

/// Field 1, k = 4 and then 2, with a repeated shift index, and c·x = 1 at a point.
#[test]
fn a_larger_fold_first() {
    let sheet = [1, 32, 16, 4, 1, 1, 2, 2, 0, 0, 0, 0, 2, 0, 0, 0, 0, 2];
    let coefficients: Vec<u32> = (3..19).collect();
    let coins = [7, 1000, 63489, 65409, 4, 4, 5, 0];
    #[rustfmt::skip]
    let words = [
        30748, 26007, 42439, 34681, 48, 39319, 60558, 2040,
        41847, 43670, 58262, 30585, 34342, 22166, 61550, 65529,
        24072, 43355, 25727, 34936, 14578, 21851, 63672, 63481,
        7729, 26202, 65519, 30840, 20743, 39514, 38047, 168,
        7,
        14817, 58855, 55729, 24215, 51429, 25067, 20603, 58479,
        42833, 32615, 17243, 41721, 31331, 23873, 46835, 15995,
        1000, 6317, 63489, 65409, 4, 4,
        55986, 17832,
        5, 0,
    ];
    compare(&sheet, &coefficients, &coins, &words, &[86497571], 8);
}

/// Field 1, two rounds and two blocks, k = 4, 2, 2.
#[test]
fn three_folds() {
    let sheet = [1, 64, 32, 4, 2, 1, 2, 1, 2, 0, 0, 0, 2, 2, 0, 0, 0, 2];
    let coefficients: Vec<u32> = (5..37).collect();
    let coins = [7, 1000, 63489, 65409, 4, 9, 4, 9, 32769, 5, 0, 3];
    #[rustfmt::skip]
    let words = [
        41007, 29124, 55295, 52014, 64858, 55700, 15124, 3825,
        61220, 65473, 12976, 13101, 54313, 21142, 13219, 4080,
        59332, 63520, 39830, 21803, 51227, 21835, 706, 61170,
        57851, 29466, 15772, 44332, 31933, 56138, 64110, 65521,
        52857, 9367, 23118, 21173, 863, 36039, 49524, 4335,
        48571, 43670, 1614, 43702, 4817, 1985, 27003, 61425,
        46319, 44363, 10238, 52404, 28928, 32, 49427, 61680,
        19571, 9805, 49697, 13491, 11304, 36381, 51665, 656,
        7,
        26843, 15430, 10661, 6455, 53897, 48727, 44141, 38629,
        2098, 35341, 28598, 53666, 52320, 21114, 15297, 51723,
        52088, 38799, 42660, 60376, 19570, 1344, 2813, 23331,
        12879, 32570, 5688, 14325, 1988, 28358, 6288, 38715,
        1000, 35443, 63489, 65409, 4, 9,
        55467, 46116, 61930, 43171, 62879, 32425, 52356, 21249,
        65360, 6753, 36147, 19312, 26405, 59280, 59678, 60842,
        4, 7674, 9, 32769, 5,
        26761, 14407,
        0, 3,
    ];
    compare(
        &sheet,
        &coefficients,
        &coins,
        &words,
        &[248614330, 3643394],
        14,
    );
}

/// Field 2, a large first fold: k = 16, 4, 2. An out coin is -1, which is a power of
/// ω, and indices repeat.
#[test]
fn a_large_first_fold() {
    let sheet = [2, 512, 256, 16, 2, 2, 5, 1, 3, 0, 0, 0, 4, 2, 0, 0, 0, 2];
    let coefficients: Vec<u32> = (0..256_u64)
        .map(|l| ((l * l * l * 977 + 5 * l + 3) % 2013265921) as u32)
        .collect();
    #[rustfmt::skip]
    let coins = [
        123456789,
        2013265920, 5, 7, 31, 0, 31, 17, 17, 9,
        77, 99, 1000000007, 2, 63,
        0, 63, 31,
    ];
    #[rustfmt::skip]
    let checks = [
        3585986461, 3022312472, 459460905, 397036231,
        70036375, 3634828638, 3778393786, 1898954556,
    ];
    let reads = 16 * 4 + 4 + 2 * 3;
    proved(&sheet, &coefficients, &coins, &checks, reads);
}
