//! Batches (document 02, CR 9) in the archive against the model: the verdict on every file, and for every allowed order the answer and every byte of the output.

mod common;

use common::batch::{number_in, prove, proved, verdict_line};
use common::{changed, honest, refused, Edition, One};
use std::collections::BTreeMap;
use tevrolig_model::generate::batch::{
    aim_batch, honest_batch, most_tables, order, order_of, Order, BATCH_REFUSALS,
};
use tevrolig_model::generate::{self, Rng};

/// The sheets that have room for so many tables and no more: as many entries as there may be, or the most tables.
#[rustfmt::skip]
const LARGEST: [(&[u32], usize); 11] = [
    (&[2, 4096, 2048, 2, 5, 2, 48, 48, 48, 48, 48, 48], 2),
    (&[2, 4096, 2048, 16, 1, 2, 48, 48, 0, 0, 0, 0], 2),
    (&[1, 4096, 512, 4, 2, 2, 36, 27, 22, 0, 0, 0], 2),
    (&[2, 2048, 1024, 2, 0, 1, 1, 0, 0, 0, 0, 0], 4),
    (&[2, 1024, 512, 4, 2, 2, 20, 9, 12, 0, 0, 0], 8),
    (&[1, 1024, 2, 2, 0, 1, 48, 0, 0, 0, 0, 0], 8),
    (&[2, 512, 256, 8, 1, 1, 9, 7, 0, 0, 0, 0], 8),
    (&[3, 1024, 512, 2, 5, 2, 48, 48, 48, 29, 13, 48], 2),
    (&[3, 512, 256, 16, 0, 1, 48, 0, 0, 0, 0, 0], 4),
    (&[3, 256, 128, 4, 2, 2, 9, 5, 7, 0, 0, 0], 8),
    (&[0, 16, 8, 2, 1, 2, 1, 3, 0, 0, 0, 0], 8),
];

/// Bounds 3 and 8, and r = 5; the words were worked out by other formulas than the model's.
#[test]
fn two_tables_by_hand() {
    let order = Order {
        sheet: vec![0, 16, 8, 2, 1, 1, 1, 1, 0, 0, 0, 0],
        bounds: vec![3, 8],
        coefficients: vec![1, 2, 3, 1, 2, 3, 4, 5, 6, 7, 8],
        coins: vec![5, 2, 0, 3, 4, 0, 1],
    };
    let file = proved(&order, 300, "by hand");
    #[rustfmt::skip]
    let after = [
        2, 3, 8,
        0, 7, 15, 7, 1, 9, 12, 2, 5, 5, 9, 6, 15, 0, 2, 6,
        5, 1, 9, 12, 13, 3, 5, 13, 0, 6, 11, 14, 8, 8, 8, 2,
        5,
        2, 6, 2, 1, 9, 5, 0, 3, 4,
        0, 8, 3, 4, 0,
        6, 16, 1,
    ];
    let mut words = [&order.sheet[..], &after].concat();
    words.resize(127, 0);
    words.push(11604);
    let bytes: Vec<u8> = words.iter().flat_map(|word| word.to_le_bytes()).collect();
    assert_eq!(file, bytes);
    assert_eq!(verdict_line(&file, "by hand"), "accepted 0 0 6");
    assert_eq!(&file[..], include_bytes!("../../examples/batch-transcript"));
}

#[test]
fn every_number_of_tables_in_every_field() {
    for field in 0..4 {
        for count in 1..=8 {
            for seed in 0..150 {
                let rng = &mut Rng::new(1000 * count as u64 + seed);
                let sheet = generate::sheet_over(One, rng, field, 64);
                let order = order_of(rng, &sheet, count, seed % 2 == 0);
                let more = rng.place(700) * rng.place(2);
                let what = format!("field {field}, {count} tables, seed {seed}");
                proved(&order, more, &what);
            }
        }
    }
}

#[test]
fn as_many_entries_as_there_may_be() {
    let mut most = 0;
    for (seed, (sheet, count)) in (0..).zip(LARGEST) {
        let what = format!("largest {seed}");
        assert_eq!(most_tables(sheet), count);
        for hostile in [false, true] {
            let rng = &mut Rng::new(seed);
            let order = order_of(rng, sheet, count, hostile);
            let file = proved(&order, seed as usize, &what);
            most = most.max(file.len() / 512);
            for number in BATCH_REFUSALS {
                let mut damaged = file.clone();
                if aim_batch(rng, &mut damaged, number) {
                    verdict_line(&damaged, &what);
                }
            }
            // One table more.
            let more = changed(&file, &[(12, count as u32 + 1)]);
            assert_eq!(verdict_line(&more, &what), "refused 15 0 0");
            let mut order = order;
            order.bounds.push(1);
            assert_eq!(prove(&order, file.len(), &what).0, refused((15, 0)));
        }
    }
    assert_eq!(most, tevrolig::batch::MAX_BLOCKS);
}

#[test]
fn each_refusal_and_two_at_once() {
    let mut seen = BTreeMap::new();
    for seed in 0..20_000 {
        let rng = &mut Rng::new(seed);
        let sheet = generate::sheet_up_to(One, rng, 32);
        let hostile = rng.one_in(2);
        let mut file = honest_batch(&order(rng, &sheet, hostile));
        let what = format!("damaged, seed {seed}");
        let [first, second] = [(); 2].map(|()| rng.place(BATCH_REFUSALS.len()));
        // The later test is made to fail first, so that what the earlier one needs stands.
        let mut last = None;
        for turn in [first.max(second), first.min(second)] {
            let number = BATCH_REFUSALS[turn];
            if aim_batch(rng, &mut file, number) {
                last = Some(number);
            }
        }
        let found = number_in(&verdict_line(&file, &what));
        match last {
            // The model's damage of these two may miss, or hit the other.
            None | Some(8 | 9) => {}
            Some(number) => assert_eq!(found, number, "{what}"),
        }
        *seen.entry(found).or_insert(0) += 1;
        // Lengths and checks are tested before all else, and words of any kind stay the same for both.
        for number in [1, 2] {
            let mut broken = file.clone();
            if generate::aim(One, rng, &mut broken, number) {
                let found = number_in(&verdict_line(&broken, &what));
                assert_eq!(found, number, "{what}");
            }
        }
        generate::damage(One, rng, &mut file);
        verdict_line(&file, &what);
    }
    for number in [0].into_iter().chain(BATCH_REFUSALS) {
        assert!(seen[&number] > 100, "every outcome is met: {seen:?}");
    }
}

/// Nothing in a file says of what kind it is, so each operation says what it finds.
#[test]
fn files_of_each_kind_in_the_other_operations() {
    let mut seen = BTreeMap::new();
    for seed in 0..4_000 {
        let rng = &mut Rng::new(seed);
        let what = format!("of another kind, seed {seed}");
        let sheet = generate::sheet_up_to(One, rng, 32);
        let file = honest_batch(&order(rng, &sheet, seed % 2 == 0));
        for edition in Edition::BOTH {
            common::verdict_line(edition, &file, &what);
            let sheet = generate::sheet_up_to(edition, rng, 32);
            let mut file = honest(rng, &sheet, seed % 2 == 1);
            let line = verdict_line(&file, &what);
            *seen.entry(number_in(&line)).or_insert(0) += 1;
            // With a number and a bound where a batch has them, so that the tests after 15 are met.
            file = changed(&file, &[(12, 1), (13, 1 + rng.place(4) as u32)]);
            let line = verdict_line(&file, &what);
            *seen.entry(number_in(&line)).or_insert(0) += 1;
        }
    }
    assert!(seen[&15] > 1_000 && seen.len() > 3, "{seen:?}");
    let worked = include_bytes!("../../examples/worked-transcript");
    assert_eq!(verdict_line(worked, "worked"), "refused 15 1 0");
    // One file of both kinds, with two meanings: of words 12 to 18 the first four are table 0 of a plain file, and the third to the sixth the table of a batch.
    let both = include_bytes!("../../examples/both-kinds");
    assert_eq!(verdict_line(both, "both"), "accepted 0 0 2");
    assert_eq!(common::verdict_line(One, both, "both"), "accepted 0 0 2");
    assert_eq!(verdict_line(&[], "empty"), "refused 1 0 0");
}

#[test]
fn every_single_word_change_of_small_files() {
    for seed in 0..12 {
        let rng = &mut Rng::new(seed);
        let sheet = generate::sheet_over(One, rng, seed as u32 % 4, 16);
        let count = 1 + rng.place(3);
        let file = honest_batch(&order_of(rng, &sheet, count, true));
        let what = format!("one word changed, seed {seed}");
        for word in 0..file.len() / 4 {
            let any = rng.word();
            for value in [0, 1, 2, 8, any % 17, 17, 65537, any, u32::MAX] {
                let mut other = file.clone();
                other[4 * word..4 * word + 4].copy_from_slice(&value.to_le_bytes());
                verdict_line(&other, &what);
                generate::rewrite_checks(&mut other);
                verdict_line(&other, &what);
            }
        }
    }
}

/// Every length of a file, and numbers of blocks up to one more than any batch has, all checks right.
#[test]
fn every_length_of_a_file() {
    let rng = &mut Rng::new(1);
    let sheet = [3, 16, 8, 2, 1, 2, 1, 3, 0, 0, 0, 0];
    let file = honest_batch(&order_of(rng, &sheet, 3, false));
    let longer = [&file[..], &file, &[7; 1024]].concat();
    for length in 0..=longer.len() {
        verdict_line(&longer[..length], "cut");
    }
    let (largest, count) = LARGEST[0];
    let largest = honest_batch(&order_of(rng, largest, count, false));
    for blocks in 1..=130 {
        for file in [&file, &largest] {
            let mut other = file.clone();
            other.resize(512 * blocks, 0);
            let line = verdict_line(&changed(&other, &[]), "other blocks");
            let due = file.len() / 512;
            let expected = if blocks == due {
                "accepted 0 0".to_string()
            } else {
                format!("refused 4 {due}")
            };
            assert!(line.starts_with(&expected), "{blocks} blocks: {line}");
        }
    }
}

/// Random bytes, also after a sheet without fault and bounds with right checks.
#[test]
fn any_bytes() {
    for seed in 0..8_000 {
        let rng = &mut Rng::new(seed);
        let length = match seed % 3 {
            0 => rng.place(2048),
            1 => 512 * rng.place(8),
            _ => 512,
        };
        let file: Vec<u8> = (0..length).map(|_| rng.bits() as u8).collect();
        let what = format!("any bytes, seed {seed}");
        verdict_line(&file, &what);
        verdict_line(&changed(&file, &[]), &what);
        if length >= 512 {
            let mut front = generate::sheet_up_to(One, rng, 64);
            front.push(rng.place(10) as u32);
            front.extend((0..8).map(|_| rng.place(6) as u32));
            let changes: Vec<(usize, u32)> = front.into_iter().enumerate().collect();
            verdict_line(&changed(&file, &changes), &what);
        }
    }
}
