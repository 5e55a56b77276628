//! Writes the opening files that the C example is run on, into the folder given: honest ones, each refusal in every field, and the largest.

use std::path::Path;
use tevrolig_model::generate::openings::{aim_openings, honest_openings, OPENING_REFUSALS};
use tevrolig_model::generate::Rng;

const SHEETS: [[u32; 12]; 4] = [
    [0, 16, 8, 2, 1, 2, 1, 3, 0, 0, 0, 0],
    [1, 256, 128, 4, 2, 2, 9, 5, 7, 0, 0, 0],
    [2, 128, 64, 2, 3, 2, 7, 6, 5, 9, 0, 0],
    [3, 64, 32, 2, 2, 2, 7, 5, 6, 0, 0, 0],
];

const LARGEST: [[u32; 12]; 2] = [
    [2, 4096, 2048, 16, 1, 2, 48, 48, 0, 0, 0, 0],
    [3, 1024, 512, 16, 1, 2, 29, 48, 0, 0, 0, 0],
];

fn main() {
    let folder = std::env::args().nth(1).expect("a folder");
    let write = |name: String, file: &[u8]| {
        std::fs::write(Path::new(&folder).join(name), file).expect("the file is written");
    };
    for (field, sheet) in SHEETS.iter().enumerate() {
        let rng = &mut Rng::new(14 + field as u64);
        let file = honest_openings(rng, sheet, true);
        write(format!("openings-{field}"), &file);
        for number in OPENING_REFUSALS {
            let mut damaged = file.clone();
            // Of the kinds of damage some have no place in a file.
            while !aim_openings(rng, &mut damaged, number) {}
            write(format!("openings-refused-{number}-field-{field}"), &damaged);
        }
    }
    for (i, sheet) in LARGEST.iter().enumerate() {
        let rng = &mut Rng::new(100 + i as u64);
        let file = honest_openings(rng, sheet, false);
        write(format!("openings-largest-{i}"), &file);
    }
}
