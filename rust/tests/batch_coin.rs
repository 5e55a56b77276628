//! The combination of a batch's tables (document 02, CR 9) in the archive against the model: coins r and bounds at their ends, and one table with the whole bound beside
//! the plain file.

mod common;

use common::batch::{known, number_in, proved, verdict_line};
use common::{changed, One, ProverInput};
use std::collections::BTreeMap;
use tevrolig_model::domain::Subgroup;
use tevrolig_model::elements::Elements;
use tevrolig_model::generate::batch::{order, order_of, Order};
use tevrolig_model::generate::{self, Rng};
use tevrolig_model::layout::{Layout, Part};
use tevrolig_model::sheet::Sheet;
use tevrolig_model::stream::read_word;

/// The words of the stream, without the block checks.
fn words_of(file: &[u8]) -> Vec<u32> {
    (0..file.len() / 512 * 127)
        .map(|word| read_word(file, word))
        .collect()
}

/// The word of table m's entry at point j.
fn entry(layout: &Layout, width: usize, m: usize, j: usize) -> usize {
    layout.range(Part::BatchTable(m)).start + width * j
}

/// An order in which the first coin over domain 0 is this index, and r is this.
fn with_coins(mut order: Order, index: usize, r: u64) -> Order {
    let (sheet, layout) = known(&order);
    let part = match sheet.rounds {
        0 => Part::FinalIndices,
        _ => Part::ShiftIndices(1),
    };
    let at = layout.coin_position(layout.range(part).start);
    order.coins[at] = index as u32;
    order.coins[..sheet.width].fill(0);
    order.coins[0] = r as u32;
    order
}

/// Where r·x is 1 the geometric sums have their closed form's pole. Here x is the point of an entry that is read, each one of domain 0 in turn; then that entry is
/// changed, in each table.
#[test]
fn r_inverse_to_a_point_that_is_read() {
    let mut seen = BTreeMap::new();
    for field in 0..4 {
        for seed in 0..20 {
            let rng = &mut Rng::new(seed);
            let sheet = generate::sheet_over(One, rng, field, 32);
            let known = Sheet::read(&sheet).unwrap();
            let subgroup = Subgroup::of(&known);
            for j in 0..known.n0 {
                let what = format!("field {field}, seed {seed}, point {j}");
                let r = known.field.div(1, subgroup.point(0, j));
                let drawn = order(rng, &sheet, false);
                let order = with_coins(drawn, j % known.indices(0), r);
                let file = proved(&order, 0, &what);
                let layout = Layout::of_batch(&known, order.bounds.len());
                for m in 1..=order.bounds.len() {
                    let word = entry(&layout, known.width, m, j) + rng.place(known.width);
                    let value = (read_word(&file, word) + 1) % known.field.p as u32;
                    let line = verdict_line(&changed(&file, &[(word, value)]), &what);
                    *seen.entry((field, number_in(&line))).or_insert(0) += 1;
                }
            }
        }
    }
    // In the larger fields each change is seen; it may be lost in a fold of field 0.
    for field in 1..4 {
        assert_eq!(seen.get(&(field, 0)), None, "{seen:?}");
    }
    assert!(seen[&(0, 9)] > 500 && seen[&(2, 9)] > 1000, "{seen:?}");
}

/// With r = 0 the first table alone counts: every other one may be anything.
#[test]
fn r_zero() {
    for seed in 0..1500 {
        let rng = &mut Rng::new(seed);
        let sheet = generate::sheet_up_to(One, rng, 64);
        let known = Sheet::read(&sheet).unwrap();
        let (hostile, index) = (seed % 2 == 0, rng.place(known.indices(0)));
        let order = with_coins(order(rng, &sheet, hostile), index, 0);
        let what = format!("r = 0, seed {seed}");
        let file = proved(&order, 0, &what);
        let layout = Layout::of_batch(&known, order.bounds.len());
        let line = verdict_line(&file, &what);
        let mut others = Vec::new();
        for m in 2..=order.bounds.len() {
            for word in layout.range(Part::BatchTable(m)) {
                others.push((word, rng.below(known.field.p) as u32));
            }
        }
        assert_eq!(verdict_line(&changed(&file, &others), &what), line);
        let first = entry(&layout, known.width, 1, index);
        let value = (read_word(&file, first) + 1) % known.field.p as u32;
        let changed = verdict_line(&changed(&file, &[(first, value)]), &what);
        // It may be lost in a fold, in field 0 and with coins that are chosen for it.
        let may_be_lost = hostile || sheet[0] == 0;
        assert!(changed.starts_with("refused") || may_be_lost, "{what}");
    }
}

/// Every pair of bounds of a small sheet, and all bounds 1 or d0 in larger ones; a bound that is then made smaller is seen.
#[test]
fn bounds_from_one_to_d0() {
    let sheet = [2, 32, 16, 2, 1, 2, 5, 4, 0, 0, 0, 0];
    for first in 1..=16 {
        for second in 1..=16 {
            let rng = &mut Rng::new(16 * first + second);
            let what = format!("bounds {first} {second}");
            let mut order = order_of(rng, &sheet, 2, false);
            order.bounds = vec![first as u32, second as u32];
            let due = first + second;
            order.coefficients = (0..due).map(|_| 1 + rng.below(1 << 30) as u32).collect();
            let file = proved(&order, 0, &what);
            for (word, bound) in [(13, first), (14, second)] {
                if bound > 1 {
                    let file = changed(&file, &[(word, bound as u32 - 1)]);
                    let line = verdict_line(&file, &what);
                    assert!(line.starts_with("refused"), "{what}: {line}");
                }
            }
        }
    }
    for seed in 0..600 {
        let rng = &mut Rng::new(seed);
        let sheet = generate::sheet_up_to(One, rng, 128);
        let known = Sheet::read(&sheet).unwrap();
        for bound in [1, known.d0] {
            let mut order = order(rng, &sheet, seed % 2 == 0);
            order.bounds.fill(bound as u32);
            let due = order.bounds.len() * bound * known.width;
            let element = |_| rng.below(known.field.p) as u32;
            order.coefficients = (0..due).map(element).collect();
            proved(&order, 0, &format!("all bounds {bound}, seed {seed}"));
        }
    }
}

/// From fold coin 0 on a batch of one table with the whole bound is the plain file, and what is wrong there is refused alike, with the words' numbers higher by as many as
/// stand before.
#[test]
fn one_table_with_the_whole_bound() {
    let mut seen = BTreeMap::new();
    for seed in 0..6_000 {
        let rng = &mut Rng::new(seed);
        let sheet = generate::sheet_up_to(One, rng, 64);
        let known = Sheet::read(&sheet).unwrap();
        let subgroup = Subgroup::of(&known);
        let input = ProverInput::allowed(rng, &sheet, seed % 2 == 0);
        let r: Vec<u32> = (0..known.width)
            .map(|_| rng.below(known.field.p) as u32)
            .collect();
        let order = Order {
            sheet: sheet.clone(),
            bounds: vec![known.d0 as u32],
            coefficients: input.coefficients.clone(),
            coins: [&r[..], &input.coins].concat(),
        };
        let what = format!("one table, seed {seed}");
        let file = proved(&order, 0, &what);
        let mut plain = vec![0; 512 * tevrolig::MAX_BLOCKS];
        let blocks = input.proved(&mut plain).unwrap();
        plain.truncate(512 * blocks);
        let (batch, alone) = (Layout::of_batch(&known, 1), Layout::new(&known));
        let from = |layout: &Layout| layout.range(Part::FoldCoin(0)).start;
        let higher = from(&batch) - from(&alone);
        let words =
            |file: &[u8], layout: &Layout| words_of(file)[from(layout)..layout.words()].to_vec();
        assert_eq!(words(&file, &batch), words(&plain, &alone), "{what}");
        let lines = [verdict_line(&file, &what), tevrolig::verify(&plain).line()];
        assert_eq!(lines[0], lines[1], "{what}");

        for _ in 0..3 {
            let word = from(&alone) + rng.place(alone.words() - from(&alone));
            let old = read_word(&plain, word);
            let point = subgroup.point(1, rng.place(known.n(1))) as u32;
            let values = [0, 1, point, point, old.wrapping_add(1), rng.word()];
            let value = rng.pick(&values);
            let line = verdict_line(&changed(&file, &[(word + higher, value)]), &what);
            let due = tevrolig::verify(&changed(&plain, &[(word, value)]));
            let place = due
                .outcome
                .result()
                .err()
                .map_or(0, |refusal| refusal.place());
            let number = number_in(&due.line());
            let place = if matches!(number, 5 | 7 | 14) {
                place + higher as u64
            } else {
                place
            };
            let said = due.line();
            let outcome = said.split(' ').next().unwrap();
            let due = format!("{outcome} {number} {place} {}", due.reads);
            assert_eq!(line, due, "{what}");
            *seen.entry(number).or_insert(0) += 1;
        }
    }
    for number in [0, 5, 7, 8, 9] {
        assert!(seen[&number] > 20, "{seen:?}");
    }
}
