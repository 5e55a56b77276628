//! Batches (document 02, CR 9): the combination by hand, honest batches of every kind,
//! each refusal in its order, the reads, and what stays untouched.

mod common;

use common::*;
use std::collections::BTreeMap;
use tevrolig_model::batch::{opened_in_batch, prove_batch, verify_batch};
use tevrolig_model::elements::Elements;
use tevrolig_model::generate::batch::{
    aim_batch, honest_batch, most_tables, order, order_of, Order, BATCH_REFUSALS,
};
use tevrolig_model::generate::{self, Rng};
use tevrolig_model::layout::{Layout, Part};
use tevrolig_model::sheet::Sheet;
use tevrolig_model::stream::{read_word, to_blocks};
use tevrolig_model::{line, prove, verify, Answer, Outcome};

fn batch_line(file: &[u8]) -> String {
    line(verify_batch(file))
}

/// The number of a refusal, 0 for accepted.
fn number_in(outcome: Outcome) -> u32 {
    match outcome {
        Outcome::Accepted => 0,
        Outcome::Refused { number, .. } => number,
    }
}

/// The first words of a file.
fn words_of(file: &[u8], count: usize) -> Vec<u32> {
    (0..count).map(|word| read_word(file, word)).collect()
}

/// Bounds 3 and 8 for the sheet by hand, with this r.
fn by_hand(r: u32) -> Order {
    let mut coins = vec![r];
    coins.extend(COINS);
    Order {
        sheet: SHEET.to_vec(),
        bounds: vec![3, 8],
        coefficients: vec![1, 2, 3, 1, 2, 3, 4, 5, 6, 7, 8],
        coins,
    }
}

#[test]
fn two_tables_by_hand() {
    let file = honest_batch(&by_hand(5));
    let words = words_of(&file, 65);
    assert_eq!(words[..12], SHEET);
    assert_eq!(words[12..15], [2, 3, 8]);
    let tail = [5, 2, 6, 2, 1, 9, 5, 0, 3, 4, 0, 8, 3, 4, 0, 6, 16, 1];
    assert_eq!(words[47..], tail);
    assert_eq!(file[508..], 11604_u32.to_le_bytes());
    assert_eq!(batch_line(&file), "accepted 0 0 6");
    // r = 0 leaves table 1 alone.
    let file = honest_batch(&by_hand(0));
    assert_eq!(words_of(&file, 65)[49..57], [14, 1, 3, 4, 13, 9, 7, 6]);
    assert_eq!(batch_line(&file), "accepted 0 0 6");
}

#[test]
fn one_table_with_the_whole_bound_goes_on_as_the_plain_file() {
    for seed in 0..200 {
        let rng = &mut Rng::new(seed);
        let sheet = generate::sheet_up_to(One, rng, 64);
        let known = Sheet::read(&sheet).unwrap();
        let mut order = order_of(rng, &sheet, 1, true);
        order.bounds = vec![known.d0 as u32];
        order.coefficients = generate::coefficients(rng, &sheet);
        let file = honest_batch(&order);
        let coins = &order.coins[known.width..];
        let plain = generate::honest_file(&sheet, &order.coefficients, coins);
        let (batch, alone) = (Layout::of_batch(&known, 1), Layout::new(&known));
        let from = |layout: &Layout| layout.range(Part::FoldCoin(0)).start;
        assert_eq!(
            words_of(&file, batch.words())[from(&batch)..],
            words_of(&plain, alone.words())[from(&alone)..],
            "seed {seed}"
        );
        assert_eq!(batch_line(&file), line(verify(&plain)), "seed {seed}");
    }
}

#[test]
fn honest_batches_of_every_kind_are_accepted() {
    let mut counts = BTreeMap::new();
    for seed in 0..1500 {
        let rng = &mut Rng::new(seed);
        let sheet = generate::sheet_up_to(One, rng, 64);
        let hostile = rng.one_in(2);
        let order = order(rng, &sheet, hostile);
        let file = honest_batch(&order);
        let (verdict, opened) = opened_in_batch(&file);
        assert_eq!(number_in(verdict.outcome), 0, "seed {seed}");
        // The reads: k_0 for each different index of level 0 in each table, and as in a
        // plain file after it.
        let known = Sheet::read(&sheet).unwrap();
        let first: Vec<_> = opened.iter().filter(|place| place.0 > 100).collect();
        assert_eq!(first.len() % order.bounds.len(), 0);
        assert!(first.len() >= order.bounds.len() * known.k[0]);
        assert!(opened.iter().all(|&(table, _)| table != 0));
        *counts.entry((sheet[0], order.bounds.len())).or_insert(0) += 1;
    }
    for field in 0..4 {
        for count in 1..=8 {
            assert!(counts.contains_key(&(field, count)), "{field} {count}");
        }
    }
}

#[test]
fn each_table_has_its_polynomials_values() {
    let known = Sheet::read(&SHEET).unwrap();
    let (field, r) = (known.field, 5);
    let file = honest_batch(&by_hand(r as u32));
    let subgroup = tevrolig_model::domain::Subgroup::of(&known);
    let g = [[1, 2, 3, 0, 0, 0, 0, 0], [1, 2, 3, 4, 5, 6, 7, 8]];
    for (j, x) in subgroup.domain(0).into_iter().enumerate() {
        let value = |m: usize| {
            (0..8).fold(0, |sum, l| {
                field.add(sum, field.mul(g[m][l], field.pow(x, l as u64)))
            })
        };
        assert_eq!(u64::from(read_word(&file, 15 + j)), value(0));
        assert_eq!(u64::from(read_word(&file, 31 + j)), value(1));
    }
}

#[test]
fn each_refusal_and_two_at_once() {
    let mut seen: BTreeMap<u32, u32> = BTreeMap::new();
    for seed in 0..3000 {
        let rng = &mut Rng::new(seed);
        let sheet = generate::sheet_up_to(One, rng, 32);
        let hostile = rng.one_in(2);
        let mut file = honest_batch(&order(rng, &sheet, hostile));
        let (first, second) = (rng.place(9), rng.place(9));
        // The later test is made to fail first, so that what the earlier one needs stands.
        let mut aimed = Vec::new();
        for turn in [first.max(second), first.min(second)] {
            let refusal = BATCH_REFUSALS[turn];
            if aim_batch(rng, &mut file, refusal) {
                aimed.push(refusal);
            }
        }
        let Some(&last) = aimed.last() else { continue };
        let found = number_in(verify_batch(&file).outcome);
        if last != 8 && last != 9 {
            assert_eq!(found, last, "seed {seed}");
        }
        *seen.entry(found).or_default() += 1;
    }
    for refusal in [3, 15, 4, 5, 6, 7, 14, 8, 9] {
        assert!(
            seen.get(&refusal).is_some_and(|&n| n >= 5),
            "{refusal} {seen:?}"
        );
    }
}

#[test]
fn the_number_of_tables_and_the_bounds() {
    let refused =
        |changes: &[(usize, u32)]| batch_line(&changed(&honest_batch(&by_hand(5)), changes));
    assert_eq!(refused(&[(12, 0)]), "refused 15 0 0");
    assert_eq!(refused(&[(12, 9)]), "refused 15 0 0");
    assert_eq!(refused(&[(13, 0)]), "refused 15 1 0");
    assert_eq!(refused(&[(14, 9)]), "refused 15 2 0");
    assert_eq!(refused(&[(13, 9), (14, 0)]), "refused 15 1 0");
    // The third bound is the first entry of table 1, which is 6 in this place.
    assert_eq!(refused(&[(12, 3), (15, 9)]), "refused 15 3 0");
    // As many entries as there may be, and one table more.
    for (sheet, most) in [
        ([2, 4096, 2048, 2, 0, 1, 1, 0, 0, 0, 0, 0], 2),
        ([3, 1024, 512, 2, 0, 1, 1, 0, 0, 0, 0, 0], 2),
        ([2, 1024, 512, 2, 0, 1, 1, 0, 0, 0, 0, 0], 8),
    ] {
        assert_eq!(most_tables(&sheet), most);
        let rng = &mut Rng::new(7);
        let order = order_of(rng, &sheet, most, false);
        let file = honest_batch(&order);
        assert_eq!(number_in(verify_batch(&file).outcome), 0);
        let more = changed(&file, &[(12, most as u32 + 1)]);
        assert_eq!(batch_line(&more), "refused 15 0 0");
    }
}

#[test]
fn prove_refuses_in_order_and_leaves_the_output() {
    let answer = |order: &Order, length: usize| {
        let before: Vec<u8> = (0..length).map(|i| (i % 251) as u8).collect();
        let mut output = before.clone();
        let Order {
            sheet,
            bounds,
            coefficients,
            coins,
        } = order;
        let answer = prove_batch(sheet, bounds, coefficients, coins, &mut output);
        let written = match answer {
            Answer::Done(blocks) => 512 * blocks as usize,
            Answer::Refused { .. } => 0,
        };
        assert_eq!(output[written..], before[written..]);
        answer
    };
    let refused = |number, place| Answer::Refused { number, place };
    let good = by_hand(5);
    assert_eq!(answer(&good, 600), Answer::Done(1));
    assert_eq!(answer(&good, 511), refused(11, 1));
    let mut order = good.clone();
    order.coins[2] = 3;
    assert_eq!(answer(&order, 0), refused(7, 2));
    order.coins[0] = 17;
    assert_eq!(answer(&order, 0), refused(5, 11));
    order.coefficients[1] = 17;
    assert_eq!(answer(&order, 0), refused(5, 1));
    order.coins.pop();
    assert_eq!(answer(&order, 0), refused(10, 2));
    order.coefficients.pop();
    assert_eq!(answer(&order, 0), refused(10, 1));
    order.bounds[1] = 9;
    assert_eq!(answer(&order, 0), refused(15, 2));
    order.bounds.clear();
    assert_eq!(answer(&order, 0), refused(15, 0));
    order.sheet[0] = 5;
    assert_eq!(answer(&order, 0), refused(3, 0));
    order.sheet.pop();
    assert_eq!(answer(&order, 0), refused(10, 0));
}

#[test]
fn files_of_each_kind_in_the_other_operation() {
    // Each says what it finds; the worked transcript has 3 where a batch has its number
    // of tables, and then 11 for a bound.
    assert_eq!(batch_line(&hand_file()), "refused 15 1 0");
    let mut output = vec![0; 512];
    assert_eq!(
        prove(&SHEET, &COEFFICIENTS, &COINS, &mut output),
        Answer::Done(1)
    );
    assert_eq!(batch_line(&output), "refused 15 1 0");
    let file = honest_batch(&by_hand(5));
    let plain = verdict_line(One, &file);
    assert!(plain.starts_with("refused"), "{plain}");
    assert_eq!(batch_line(&to_blocks(&[])), "refused 1 0 0");
}
