//! P1 to P14 and the edges of document 01, "A transcript by hand".

mod common;

use common::*;
use tevrolig_model::domain::Subgroup;
use tevrolig_model::elements::Elements;
use tevrolig_model::field::Field;
use tevrolig_model::polynomial::{correction_at, interpolate, Pairs};
use tevrolig_model::prove::{rounds, Round};
use tevrolig_model::sheet::Sheet;
use tevrolig_model::stream::{read_word, to_blocks};
use tevrolig_model::verify::fold_table;
use tevrolig_model::{encode, prove, Answer};

fn subgroup() -> Subgroup {
    Subgroup::of(&Sheet::read(&SHEET).unwrap())
}

fn field() -> Field {
    Field::numbered(0).unwrap()
}

fn hand_round() -> Round {
    let all = rounds(&SHEET, &COEFFICIENTS, &COINS).unwrap();
    assert_eq!(all.len(), 1);
    all[0].clone()
}

#[test]
fn p1_domain_1() {
    assert_eq!(subgroup().domain(1), [3, 10, 5, 11, 14, 7, 12, 6]);
    assert_eq!(subgroup().point(0, 15), 1);
}

/// Points by their definition, roots of shift points, and no meeting of the two.
#[test]
fn domains_of_every_field() {
    for (number, n0) in [(0, 4), (0, 16), (1, 8), (1, 4096), (2, 64), (2, 4096)] {
        let field = Field::numbered(number).unwrap();
        let subgroup = Subgroup::new(field, n0);
        let omega = field.pow(field.g, (field.p - 1) / n0 as u64);
        assert_eq!(field.pow(omega, n0 as u64 / 2), field.p - 1);
        for i in 0..n0.ilog2().min(6) as usize {
            let domain = subgroup.domain(i);
            assert_eq!(domain.len(), n0 >> i);
            for (j, &point) in domain.iter().enumerate() {
                let exponent = 1 + (1 << i) * j as u64;
                assert_eq!(point, field.pow(omega, exponent));
            }
            for k in [2, 4, 8, 16].into_iter().filter(|k| k * 2 <= n0 >> i) {
                for j in [0, 1, (n0 >> i) / k - 1] {
                    let shift = subgroup.shift_point(i, k, j);
                    let places = subgroup.root_places(i, k, j);
                    let powers = places.map(|place| field.pow(domain[place], k as u64));
                    assert_eq!(powers.collect::<Vec<_>>(), vec![shift; k]);
                    assert!(!subgroup.domain(i + 1).contains(&shift));
                }
            }
        }
    }
    assert_eq!(subgroup().domain(2), [3, 5, 14, 12]);
}

#[test]
fn p2_fold_at_shift_0() {
    let table: Vec<u64> = STREAM[12..28].iter().map(|&word| word.into()).collect();
    assert_eq!(fold_table(field(), &subgroup(), 0, &table, 2, 2)[0], 16);
    assert_eq!(subgroup().shift_point(0, 2, 0), 9);
}

#[test]
fn p3_round_polynomial() {
    assert_eq!(hand_round().polynomial, [5, 11, 5, 0]);
}

#[test]
fn p4_answer_polynomial() {
    assert_eq!(hand_round().answer, [5, 5]);
    let pairs = Pairs::from([(0, 5), (9, 16)]);
    assert_eq!(interpolate(field(), &pairs), [5, 5]);
}

#[test]
fn p5_quotient() {
    assert_eq!(hand_round().quotient, [5, 0]);
}

#[test]
fn p6_corrected() {
    assert_eq!(hand_round().corrected, [5, 15, 11, 0]);
}

#[test]
fn p7_and_p8_correction() {
    assert_eq!(correction_at(field(), 12, 10, 2), 3);
    for x in 0..17 {
        for e in 0..5 {
            assert_eq!(correction_at(field(), 0, x, e), 1);
        }
    }
}

#[test]
fn p9_final_coefficients() {
    let mut file = [0; 512];
    prove(&SHEET, &COEFFICIENTS, &COINS, &mut file);
    assert_eq!(read_word(&file, FINAL), 14);
    assert_eq!(read_word(&file, FINAL + 1), 11);
}

#[test]
fn p10_the_whole_file() {
    let mut file = [0xAA; 512];
    let answer = prove(&SHEET, &COEFFICIENTS, &COINS, &mut file);
    assert_eq!(answer, Answer::Done(1));
    assert_eq!(file.to_vec(), hand_file());
    assert_eq!(to_blocks(&STREAM), hand_file());
    assert_eq!(u32::from_le_bytes(file[508..].try_into().unwrap()), 6143);
    assert_eq!(verdict_line(One, &file), "accepted 0 0 4");

    let mut table = [0; 16];
    let answer = encode(&SHEET, &COEFFICIENTS, &mut table);
    assert_eq!(answer, Answer::Done(16));
    assert_eq!(table, STREAM[12..28]);
}

#[test]
fn p11_wrong_final_coefficient() {
    let file = changed(&hand_file(), &[(FINAL, 15)]);
    assert_eq!(verdict_line(One, &file), "refused 9 0 4");
}

#[test]
fn p12_clash() {
    let file = changed(&hand_file(), &[(OUT, 9), (REPLY, 5)]);
    assert_eq!(verdict_line(One, &file), "refused 8 1 2");
}

#[test]
fn p13_one_point_twice() {
    let changes = [(OUT, 9), (REPLY, 16), (FINAL, 0), (FINAL + 1, 15)];
    let file = changed(&hand_file(), &changes);
    assert_eq!(verdict_line(One, &file), "accepted 0 0 4");

    let coins = [2, 9, 3, 4, 0, 1];
    let mut honest = [0; 512];
    prove(&SHEET, &COEFFICIENTS, &coins, &mut honest);
    assert_eq!(honest.to_vec(), file);
    let all = rounds(&SHEET, &COEFFICIENTS, &coins).unwrap();
    assert_eq!(all[0].answer, [16]);
}

#[test]
fn p14_out_coin_in_the_domain() {
    let file = changed(&hand_file(), &[(OUT, 3)]);
    assert_eq!(verdict_line(One, &file), "refused 7 37 0");
}

#[test]
fn edges() {
    let edge = |words: &[u32]| {
        let mut sheet = [0; 12];
        sheet[..words.len()].copy_from_slice(words);
        Sheet::read(&sheet).map(|_| ())
    };
    assert_eq!(edge(&[0, 4, 2, 2, 0, 1, 1]), Ok(()));
    assert_eq!(edge(&[0, 32, 2, 2, 0, 1, 1]), Err(1));
    assert_eq!(edge(&[0, 16, 8, 2, 1, 1, 2, 1]), Ok(()));
    assert_eq!(edge(&[0, 16, 8, 2, 1, 1, 3, 1]), Err(6));
    assert_eq!(edge(&[0, 16, 8, 2, 1, 2, 2, 1]), Err(6));
    // Document 02, CR 1: counts end at 48, for the final coins and, where d_1 leaves room, for shift coins.
    assert_eq!(edge(&[0, 4, 2, 2, 0, 1, 48]), Ok(()));
    for t in [49, 64, 65] {
        assert_eq!(edge(&[0, 4, 2, 2, 0, 1, t]), Err(6));
    }
    assert_eq!(edge(&[1, 256, 128, 2, 1, 2, 48, 48]), Ok(()));
    assert_eq!(edge(&[1, 256, 128, 2, 1, 2, 49, 48]), Err(6));
    assert_eq!(edge(&[1, 256, 128, 2, 1, 2, 48, 49]), Err(7));
    assert_eq!(verdict_line(One, &[]), "refused 1 0 0");

    // The same through whole files.
    let of_sheet = |changes: &[(usize, u32)]| verdict_line(One, &changed(&hand_file(), changes));
    assert_eq!(of_sheet(&[(1, 32)]), "refused 3 1 0");
    assert_eq!(of_sheet(&[(6, 3)]), "refused 3 6 0");
    for t in [49, 64, 65] {
        assert_eq!(of_sheet(&[(7, t)]), "refused 3 7 0");
    }
}

#[test]
fn the_smallest_sheet_by_hand() {
    // M = 0: 1 + 2X over the points 13 16 4 1, folded with coin 3 to 1 + 3·2.
    let sheet = [0, 4, 2, 2, 0, 1, 2, 0, 0, 0, 0, 0];
    assert_eq!(Subgroup::new(field(), 4).domain(0), [13, 16, 4, 1]);
    let mut file = [0; 512];
    let answer = prove(&sheet, &[1, 2], &[3, 0, 1], &mut file);
    assert_eq!(answer, Answer::Done(1));
    let stream: Vec<u32> = (12..21).map(|word| read_word(&file, word)).collect();
    assert_eq!(stream, [10, 16, 9, 3, 3, 7, 0, 1, 0]);
    assert_eq!(verdict_line(One, &file), "accepted 0 0 4");
}
