//! Every refusal of prove, in both editions, and of encode, their order, and what
//! stays untouched.

mod common;

use common::*;
use tevrolig_model::generate::{self, Rng};
use tevrolig_model::prove::prove_in;
use tevrolig_model::{encode, Answer};

/// Room for every file.
const ROOM: usize = 512 * 67;

/// Proves into an output of any length and tests that a refusal left it alone.
fn proved(
    edition: Edition,
    sheet: &[u32],
    coefficients: &[u32],
    coins: &[u32],
    length: usize,
) -> (u32, u64) {
    let mut output: Vec<u8> = (0..length).map(|i| (i % 251) as u8).collect();
    let before = output.clone();
    match prove_in(edition, sheet, coefficients, coins, &mut output) {
        Answer::Done(blocks) => {
            let end = 512 * blocks as usize;
            assert_eq!(output[end..], before[end..]);
            (0, blocks)
        }
        Answer::Refused { number, place } => {
            assert_eq!(output, before);
            (number, place)
        }
    }
}

/// The same for encode.
fn encoded(sheet: &[u32], coefficients: &[u32], length: usize) -> (u32, u64) {
    let mut output: Vec<u32> = (0..length as u32).map(|i| i + 7_000).collect();
    let before = output.clone();
    match encode(sheet, coefficients, &mut output) {
        Answer::Done(words) => {
            let end = words as usize;
            assert_eq!(output[end..], before[end..]);
            (0, words)
        }
        Answer::Refused { number, place } => {
            assert_eq!(output, before);
            (number, place)
        }
    }
}

/// What prove says of a sample's input with another list.
trait Proves {
    fn with_sheet(&self, sheet: &[u32], length: usize) -> (u32, u64);
    fn with_lists(&self, coefficients: &[u32], coins: &[u32], length: usize) -> (u32, u64);
}

impl Proves for Sample {
    fn with_sheet(&self, sheet: &[u32], length: usize) -> (u32, u64) {
        proved(self.edition, sheet, &self.coefficients, &self.coins, length)
    }

    fn with_lists(&self, coefficients: &[u32], coins: &[u32], length: usize) -> (u32, u64) {
        proved(self.edition, self.words, coefficients, coins, length)
    }
}

/// The list without its first word, without any, and with one more.
fn other_lengths(list: &[u32]) -> [Vec<u32>; 3] {
    [Vec::new(), list[1..].to_vec(), [list, &[0]].concat()]
}

#[test]
fn prove_lengths_10() {
    let counts = [
        1 + (2 + 2 + 4) + (2 + 2 + 3) + 5,
        1 + (2 + 2 + 3) + (2 + 2 + 2) + 4,
    ];
    for (sample, count) in samples().iter().zip(counts) {
        let (coefficients, coins) = (&sample.coefficients, &sample.coins);
        assert_eq!(coins.len(), count);
        for length in 0..30 {
            let mut sheet = sample.words.to_vec();
            sheet.resize(length, 0);
            if length != sample.words.len() {
                assert_eq!(sample.with_sheet(&sheet, ROOM), (10, 0));
                assert_eq!(proved(sample.edition, &sheet, &[], &[], 0), (10, 0));
            }
        }
        for list in other_lengths(coefficients) {
            assert_eq!(sample.with_lists(&list, &[], 0), (10, 1));
            assert_eq!(sample.with_lists(&list, coins, ROOM), (10, 1));
        }
        let wrong = with(coefficients, &[(0, u32::MAX)]);
        for list in other_lengths(coins) {
            assert_eq!(sample.with_lists(coefficients, &list, 0), (10, 2));
            assert_eq!(sample.with_lists(&wrong, &list, ROOM), (10, 2));
        }
    }
    // A sheet of one edition is none of the other.
    let [one, two] = samples();
    assert_eq!(one.with_sheet(two.words, ROOM), (10, 0));
    assert_eq!(two.with_sheet(one.words, ROOM), (10, 0));
}

#[test]
fn prove_sheet_3() {
    let faults: [&[(usize, u32)]; 2] = [
        &[(0, 4), (1, 5), (3, 64), (6, 30), (8, 49), (8, 65), (11, 1)],
        &[
            (0, 4),
            (3, 0),
            (4, 6),
            (12, 32),
            (13, 16),
            (14, 2),
            (17, 1),
            (6, 30),
            (9, 1),
        ],
    ];
    for (sample, faults) in samples().iter().zip(faults) {
        for &fault in faults {
            let sheet = with(sample.words, &[fault]);
            let expected = (3, fault.0 as u64);
            assert_eq!(sample.with_sheet(&sheet, ROOM), expected);
            assert_eq!(proved(sample.edition, &sheet, &[], &[], 0), expected);
            let late = with(&sheet, &[(11, 1)]);
            assert_eq!(proved(sample.edition, &late, &[], &[], 0), expected);
            if sample.edition == One {
                assert_eq!(encoded(&sheet, &sample.coefficients, 5000), expected);
                assert_eq!(encoded(&sheet, &[], 0), expected);
            }
        }
    }
}

#[test]
fn prove_range_5() {
    let p = 65537;
    // Fold; out, out, combination, fold, shifts; the same again; final.
    let limits = [
        [&[p; 5][..], &[128; 4], &[p; 4], &[64; 3], &[32; 5]],
        [&[p; 5], &[64; 3], &[p; 4], &[128; 2], &[128; 4]],
    ];
    for (sample, limits) in samples().iter().zip(limits) {
        let (coefficients, coins) = (&sample.coefficients, &sample.coins);
        let count = coefficients.len();
        for at in [0, count / 2, count - 1] {
            let wrong = with(coefficients, &[(at, p)]);
            let expected = (5, at as u64);
            assert_eq!(sample.with_lists(&wrong, coins, ROOM), expected);
            let coins = with(coins, &[(0, p)]);
            assert_eq!(sample.with_lists(&wrong, &coins, 0), expected);
        }
        let limits = limits.concat();
        assert_eq!(limits.len(), coins.len());
        for (at, limit) in limits.into_iter().enumerate() {
            for word in [limit, limit + 1, u32::MAX] {
                let wrong = with(coins, &[(at, word)]);
                let expected = (5, (count + at) as u64);
                assert_eq!(sample.with_lists(coefficients, &wrong, ROOM), expected);
                assert_eq!(sample.with_lists(coefficients, &wrong, 0), expected);
            }
            if limit < p {
                let right = with(coins, &[(at, limit - 1)]);
                let blocks = sample.layout.blocks() as u64;
                let done = sample.with_lists(coefficients, &right, ROOM);
                assert_eq!(done, (0, blocks));
            }
        }
    }
}

#[test]
fn prove_out_coin_7() {
    // The positions of the out coins of round 1 and of round 2, and a final index that
    // is too large.
    let places = [
        ([(1, 1), (1, 2), (2, 9), (2, 10)], (20, 32)),
        ([(1, 1), (1, 2), (2, 8), (2, 9)], (17, 128)),
    ];
    for (sample, (places, late)) in samples().iter().zip(places) {
        let Sample {
            coefficients,
            coins,
            subgroup,
            ..
        } = sample;
        let second = (places[3].1, subgroup.point(2, 0) as u32);
        for (i, at) in places {
            let wrong = with(coins, &[(at, subgroup.point(i, 5) as u32)]);
            let expected = (7, at as u64);
            assert_eq!(sample.with_lists(coefficients, &wrong, ROOM), expected);
            // Before 11, and the first counts.
            assert_eq!(sample.with_lists(coefficients, &wrong, 0), expected);
            let two = with(&wrong, &[second]);
            assert_eq!(sample.with_lists(coefficients, &two, 0), expected);
            // All ranges come before any 7.
            let above = with(&wrong, &[late]);
            let expected = (5, (coefficients.len() + late.0) as u64);
            assert_eq!(sample.with_lists(coefficients, &above, 0), expected);
        }
    }
}

/// 14 at the position of the second of two equal out coins, after every 7 and before
/// 11.
#[test]
fn prove_equal_out_coins_14() {
    // The positions of the first out coin of each round.
    for (sample, [one, two]) in samples().iter().zip([[1, 9], [1, 8]]) {
        let Sample {
            coefficients,
            coins,
            subgroup,
            ..
        } = sample;
        let proved = |changes: &[(usize, u32)], length: usize| {
            sample.with_lists(coefficients, &with(coins, changes), length)
        };
        let equal = |out: usize| (out + 1, coins[out]);
        for out in [one, two] {
            let expected = (14, out as u64 + 1);
            for length in [0, 512, ROOM] {
                assert_eq!(proved(&[equal(out)], length), expected);
                assert_eq!(proved(&[(out, coins[out + 1])], length), expected);
                assert_eq!(proved(&[(out, 0), (out + 1, 0)], length), expected);
            }
        }
        assert_eq!(proved(&[equal(one), equal(two)], 0), (14, one as u64 + 1));
        // All rounds are tested for 7 before, and all ranges before that.
        for (i, inside, out) in [(2, two, one), (2, two + 1, one), (1, one + 1, two)] {
            let moved = (inside, subgroup.point(i, 1) as u32);
            assert_eq!(proved(&[moved, equal(out)], 0), (7, inside as u64));
        }
        let point = subgroup.point(2, 0) as u32;
        let both = [(two, point), (two + 1, point)];
        assert_eq!(proved(&both, ROOM), (7, two as u64));
        let last = coins.len() - 1;
        let above = (5, (coefficients.len() + last) as u64);
        assert_eq!(proved(&[equal(one), (last, 128)], 0), above);
        // Out coins of different rounds may be equal.
        let blocks = sample.layout.blocks() as u64;
        let shared = [(two, coins[one]), (two + 1, coins[one + 1])];
        assert_eq!(proved(&shared, ROOM), (0, blocks));
        let swapped = [(two, coins[one + 1]), (two + 1, coins[one])];
        assert_eq!(proved(&swapped, ROOM), (0, blocks));
    }
}

#[test]
fn prove_output_11() {
    for (sample, blocks) in samples().iter().zip([4, 15]) {
        let (coefficients, coins) = (&sample.coefficients, &sample.coins);
        let due = blocks as u64;
        for length in [0, 1, 512, 512 * blocks - 1] {
            let answer = sample.with_lists(coefficients, coins, length);
            assert_eq!(answer, (11, due));
        }
        for length in [512 * blocks, 512 * blocks + 1, 512 * blocks + 2000] {
            let answer = sample.with_lists(coefficients, coins, length);
            assert_eq!(answer, (0, due));
        }
    }
    for (edition, sheet) in [(One, &SHEET[..]), (Two, &SHEET_2)] {
        let answer = |length| proved(edition, sheet, &COEFFICIENTS, &COINS, length);
        assert_eq!(answer(511), (11, 1));
        assert_eq!(answer(512), (0, 1));
    }
}

#[test]
fn encode_refusals() {
    let [Sample { coefficients, .. }, _] = samples();
    assert_eq!(encoded(&[], &coefficients, 256), (10, 0));
    assert_eq!(encoded(&TWO_ROUNDS[..11], &[], 0), (10, 0));
    let long = [&TWO_ROUNDS[..], &[0]].concat();
    assert_eq!(encoded(&long, &coefficients, 256), (10, 0));
    // Encode keeps the sheet of edition 1.
    assert_eq!(encoded(&SHEET_2, &COEFFICIENTS, 256), (10, 0));

    let longer = [&coefficients[..], &[u32::MAX]].concat();
    for list in [&[], &coefficients[1..], &longer[..]] {
        assert_eq!(encoded(&TWO_ROUNDS, list, 256), (10, 1));
        assert_eq!(encoded(&TWO_ROUNDS, list, 0), (10, 1));
    }
    for at in [0, 40, 63] {
        let wrong = with(&coefficients, &[(63, u32::MAX), (at, 65537)]);
        assert_eq!(encoded(&TWO_ROUNDS, &wrong, 256), (5, at as u64));
        assert_eq!(encoded(&TWO_ROUNDS, &wrong, 0), (5, at as u64));
    }
    for length in [0, 1, 255] {
        assert_eq!(encoded(&TWO_ROUNDS, &coefficients, length), (11, 256));
    }
    for length in [256, 257, 1000] {
        assert_eq!(encoded(&TWO_ROUNDS, &coefficients, length), (0, 256));
    }
}

/// Lists and outputs of any length, words of any size: an answer, and nothing
/// written but what is announced.
#[test]
fn any_lists_get_an_answer() {
    for edition in Edition::BOTH {
        let mut rng = Rng::new(22);
        let mut done = 0;
        for _ in 0..5000 {
            let mut sheet = generate::sheet_up_to(edition, &mut rng, 32);
            let mut coefficients = generate::coefficients(&mut rng, &sheet);
            let mut coins = generate::coins(&mut rng, &sheet, true);
            for list in [&mut sheet, &mut coefficients, &mut coins] {
                generate::disturb(&mut rng, list);
            }
            let length = rng.pick(&[0, 511, 512, 1024, 1500]);
            let answer = proved(edition, &sheet, &coefficients, &coins, length);
            done += usize::from(answer.0 == 0);
            encoded(&sheet, &coefficients, length / 30);
        }
        assert!(done > 500, "{done}");
    }
}
