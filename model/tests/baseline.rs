//! The benchmark's baselines do the model's work: the same verdicts, blocks and tables.

mod common;

use common::Edition;
use tevrolig_model::baseline::{self, Lists, Newton};
use tevrolig_model::batch::verify_batch;
use tevrolig_model::generate::batch::{aim_batch, honest_batch, order, BATCH_REFUSALS};
use tevrolig_model::generate::nearest::{between, case, far, planted};
use tevrolig_model::generate::openings::{any_openings, honest_full};
use tevrolig_model::generate::{self, Rng};
use tevrolig_model::prove::prove_in;
use tevrolig_model::sha256::sha256;
use tevrolig_model::tree::Tree;
use tevrolig_model::verify::verify_in;
use tevrolig_model::{build_openings, encode, nearest, verify_openings, Answer};

#[test]
fn verdicts() {
    for edition in Edition::BOTH {
        for seed in 0..2_000 {
            let mut rng = Rng::new(seed);
            let most_n0 = if seed % 20 == 0 { 1024 } else { 64 };
            let sheet = generate::sheet_up_to(edition, &mut rng, most_n0);
            let mut file = common::honest(&mut rng, &sheet, seed % 2 == 0);
            if seed % 3 == 0 {
                generate::damage(edition, &mut rng, &mut file);
            }
            let verdict = verify_in(edition, &file);
            let verdicts = [
                baseline::verify::<Newton, false>(edition, &file),
                baseline::verify::<Newton, true>(edition, &file),
                baseline::verify::<Lists, true>(edition, &file),
            ];
            assert_eq!(verdicts, [verdict; 3], "seed {seed}");
        }
    }
}

#[test]
fn blocks() {
    for edition in Edition::BOTH {
        for seed in 0..500 {
            let mut rng = Rng::new(seed);
            let sheet = generate::sheet_up_to(edition, &mut rng, 256);
            let coefficients = generate::coefficients(&mut rng, &sheet);
            let coins = generate::coins(&mut rng, &sheet, seed % 2 == 0);
            let outputs = || [vec![9; 40960], vec![9; 40960], vec![9; 40960]];
            let [mut due, mut plain, mut tuned] = outputs();
            let answer = prove_in(edition, &sheet, &coefficients, &coins, &mut due);
            let Answer::Done(blocks) = answer else {
                panic!("seed {seed}: the input is honest");
            };
            let counts = [
                baseline::prove::<false>(edition, &sheet, &coefficients, &coins, &mut plain),
                baseline::prove::<true>(edition, &sheet, &coefficients, &coins, &mut tuned),
            ];
            assert_eq!(counts, [Some(blocks as usize); 2], "seed {seed}");
            assert!(due == plain && due == tuned, "seed {seed}");
        }
    }
}

#[test]
fn batches() {
    for seed in 0..600 {
        let mut rng = Rng::new(seed);
        let most_n0 = if seed % 20 == 0 { 1024 } else { 64 };
        let sheet = generate::sheet_up_to(Edition::One, &mut rng, most_n0);
        let order = order(&mut rng, &sheet, seed % 2 == 0);
        let mut file = honest_batch(&order);
        let mut outputs = [vec![9; 51_200], vec![9; 51_200]];
        let [plain, tuned] = &mut outputs;
        let (sheet, bounds) = (&order.sheet, &order.bounds);
        let (f, coins) = (&order.coefficients, &order.coins);
        let counts = [
            baseline::prove_batch::<false>(sheet, bounds, f, coins, plain),
            baseline::prove_batch::<true>(sheet, bounds, f, coins, tuned),
        ];
        assert_eq!(counts, [Some(file.len() / 512); 2], "seed {seed}");
        for output in outputs {
            assert!(output[..file.len()] == file, "seed {seed}");
        }
        if seed % 3 == 0 {
            let number = rng.pick(&BATCH_REFUSALS);
            aim_batch(&mut rng, &mut file, number);
        }
        let verdict = verify_batch(&file);
        let verdicts = [
            baseline::verify_batch::<Newton, false>(&file),
            baseline::verify_batch::<Newton, true>(&file),
            baseline::verify_batch::<Lists, true>(&file),
        ];
        assert_eq!(verdicts, [verdict; 3], "seed {seed}");
    }
}

#[test]
fn opening_files() {
    for seed in 0..2_000 {
        let mut rng = Rng::new(seed);
        let most_n0 = if seed % 40 == 0 { 256 } else { 32 };
        let mut file = any_openings(&mut rng, most_n0);
        if seed % 16 == 0 {
            generate::damage(Edition::One, &mut rng, &mut file);
        }
        let verdict = verify_openings(&file);
        let verdicts = [
            baseline::verify_openings::<Newton, false>(&file),
            baseline::verify_openings::<Newton, true>(&file),
            baseline::verify_openings::<Lists, true>(&file),
        ];
        assert_eq!(verdicts, [verdict; 3], "seed {seed}");
    }
}

#[test]
fn built_opening_files() {
    for seed in 0..300 {
        let mut rng = Rng::new(seed);
        let most_n0 = if seed % 20 == 0 { 1024 } else { 64 };
        let sheet = generate::sheet_up_to(Edition::One, &mut rng, most_n0);
        let mut full = honest_full(&mut rng, &sheet, seed % 2 == 0);
        if seed % 8 == 0 {
            generate::damage(Edition::One, &mut rng, &mut full);
        }
        let outputs = || [(); 3].map(|()| vec![9; 614_400]);
        let [mut due, mut plain, mut tuned] = outputs();
        let answer = match build_openings(&full, &mut due) {
            Answer::Done(blocks) => Some(blocks as usize),
            Answer::Refused { .. } => None,
        };
        let answers = [
            baseline::build_openings::<Newton, false>(&full, &mut plain),
            baseline::build_openings::<Lists, true>(&full, &mut tuned),
        ];
        assert_eq!(answers, [answer; 2], "seed {seed}");
        assert!(due == plain && due == tuned, "seed {seed}");
    }
}

#[test]
fn hashes_and_roots() {
    let mut rng = Rng::new(1);
    let message: Vec<u8> = (0..300).map(|_| rng.bits() as u8).collect();
    for length in 0..message.len() {
        let message = &message[..length];
        assert_eq!(baseline::sha256(message), sha256(message), "{length}");
    }
    for (height, width) in [(0, 1), (0, 4), (3, 1), (6, 4), (9, 1)] {
        let table: Vec<u32> = (0..width << height).map(|_| rng.word()).collect();
        let root = Tree::over(&table, width).root();
        assert_eq!(baseline::root(&table, width), root, "{height} {width}");
    }
}

#[test]
fn tables() {
    for seed in 0..500 {
        let mut rng = Rng::new(seed);
        let sheet = generate::sheet_up_to(Edition::One, &mut rng, 256);
        let coefficients = generate::coefficients(&mut rng, &sheet);
        let [mut due, mut plain, mut tuned] = [vec![9; 1100], vec![9; 1100], vec![9; 1100]];
        encode(&sheet, &coefficients, &mut due);
        baseline::encode::<false>(&sheet, &coefficients, &mut plain);
        baseline::encode::<true>(&sheet, &coefficients, &mut tuned);
        assert!(due == plain && due == tuned, "seed {seed}");
    }
}

#[test]
fn nearest_polynomials() {
    let (mut found, mut none) = (0, 0);
    for seed in 0..4_000 {
        let mut rng = Rng::new(seed);
        let most_n0 = if seed % 50 == 0 { 128 } else { 32 };
        let sheet = generate::sheet_up_to(Edition::One, &mut rng, most_n0);
        let case = case(&mut rng, &sheet);
        let outputs = || [(); 3].map(|()| vec![9; case.length]);
        let [mut due, mut plain, mut tuned] = outputs();
        let count = match nearest(&sheet, &case.table, &mut due) {
            Answer::Done(words) => Some(words as usize),
            Answer::Refused { .. } => None,
        };
        let counts = [
            baseline::nearest::<false>(&sheet, &case.table, &mut plain),
            baseline::nearest::<true>(&sheet, &case.table, &mut tuned),
        ];
        assert_eq!(counts, [count; 2], "seed {seed}");
        assert!(due == plain && due == tuned, "seed {seed}");
        *(if count.is_some() {
            &mut found
        } else {
            &mut none
        }) += 1;
    }
    assert!(found > 1_000 && none > 500, "{found} {none}");
}

/// Where elimination takes too long: tables of which the way they were made says what is due.
#[test]
fn nearest_polynomials_to_large_tables() {
    for (seed, sheet) in (0..).zip(LARGE) {
        let mut rng = Rng::new(seed);
        for turn in 0..6 {
            let most = (sheet[1] - sheet[2]) as usize / 2;
            let case = match turn {
                0 => planted(&mut rng, &sheet, 0),
                1 => planted(&mut rng, &sheet, 10),
                2 => planted(&mut rng, &sheet, most),
                3 => between(&mut rng, &sheet),
                _ => far(&mut rng, &sheet),
            };
            let mut output = vec![9; case.length];
            let count = baseline::nearest::<true>(&sheet, &case.table, &mut output);
            match case.due.expect("what is due is known") {
                Ok(words) => {
                    assert_eq!(count, Some(words.len()), "seed {seed}, turn {turn}");
                    assert!(output[..words.len()] == words, "seed {seed}, turn {turn}");
                }
                Err(_) => assert_eq!(count, None, "seed {seed}, turn {turn}"),
            }
        }
    }
}

const LARGE: [[u32; 12]; 5] = [
    [2, 4096, 2048, 2, 0, 1, 1, 0, 0, 0, 0, 0],
    [1, 4096, 512, 2, 0, 1, 1, 0, 0, 0, 0, 0],
    [2, 4096, 2, 2, 0, 1, 1, 0, 0, 0, 0, 0],
    [3, 1024, 512, 2, 0, 1, 1, 0, 0, 0, 0, 0],
    [3, 512, 2, 2, 0, 1, 1, 0, 0, 0, 0, 0],
];
