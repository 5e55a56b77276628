//! Writes the batches that the C example is run on, into the folder given: honest ones, each refusal in every field, and the largest.

use std::path::Path;
use tevrolig_model::generate::batch::{
    aim_batch, honest_batch, most_tables, order_of, BATCH_REFUSALS,
};
use tevrolig_model::generate::Rng;

const SHEETS: [[u32; 12]; 4] = [
    [0, 16, 8, 2, 1, 2, 1, 3, 0, 0, 0, 0],
    [1, 256, 128, 4, 2, 2, 9, 5, 7, 0, 0, 0],
    [2, 128, 64, 2, 3, 2, 7, 6, 5, 9, 0, 0],
    [3, 64, 32, 2, 2, 2, 7, 5, 6, 0, 0, 0],
];

const LARGEST: [[u32; 12]; 4] = [
    [2, 4096, 2048, 2, 5, 2, 48, 48, 48, 48, 48, 48],
    [2, 4096, 2048, 16, 1, 2, 48, 48, 0, 0, 0, 0],
    [2, 1024, 512, 4, 2, 2, 20, 9, 12, 0, 0, 0],
    [3, 1024, 512, 2, 5, 2, 48, 48, 48, 29, 13, 48],
];

fn main() {
    let folder = std::env::args().nth(1).expect("a folder");
    let write = |name: String, file: &[u8]| {
        std::fs::write(Path::new(&folder).join(name), file).expect("the file is written");
    };
    for (field, sheet) in SHEETS.iter().enumerate() {
        let rng = &mut Rng::new(14 + field as u64);
        let file = honest_batch(&order_of(rng, sheet, 3, true));
        write(format!("batch-{field}"), &file);
        for number in BATCH_REFUSALS {
            let mut damaged = file.clone();
            assert!(aim_batch(rng, &mut damaged, number), "{field} {number}");
            write(format!("batch-refused-{number}-field-{field}"), &damaged);
        }
    }
    for (i, sheet) in LARGEST.iter().enumerate() {
        let rng = &mut Rng::new(100 + i as u64);
        let file = honest_batch(&order_of(rng, sheet, most_tables(sheet), false));
        write(format!("batch-largest-{i}"), &file);
    }
}
