//! Batches (document 02, CR 9): orders to the prover, honest files, and damage aimed at
//! one refusal each.

use super::damage::Target;
use super::{coins as plain_coins, known, Rng};
use crate::batch::{prove_batch, MOST_TABLES, MOST_WORDS};
use crate::domain::Subgroup;
use crate::elements::Elements;
use crate::layout::Layout;
use crate::prove::Answer;
use crate::sheet::{Edition, Sheet, SHEET_WORDS};
use crate::stream::{read_word, BLOCK_BYTES};

/// What the prover of a batch is given, but for the output.
#[derive(Debug, Clone)]
pub struct Order {
    pub sheet: Vec<u32>,
    pub bounds: Vec<u32>,
    pub coefficients: Vec<u32>,
    pub coins: Vec<u32>,
}

/// The most tables that a sheet without fault has room for.
pub fn most_tables(sheet: &[u32]) -> usize {
    most_tables_of(&known(sheet).expect("a sheet without fault"))
}

fn most_tables_of(sheet: &Sheet) -> usize {
    (MOST_WORDS / (sheet.n0 * sheet.width)).min(MOST_TABLES)
}

/// An order without fault for a sheet of edition 1. Bounds are 1, d0 or anything between;
/// r is now and then 0, 1, or inverse to a point of domain 0.
pub fn order(rng: &mut Rng, sheet: &[u32], hostile: bool) -> Order {
    let most = most_tables(sheet);
    let count = if rng.one_in(3) {
        most
    } else {
        1 + rng.place(most)
    };
    order_of(rng, sheet, count, hostile)
}

/// The same with so many tables.
pub fn order_of(rng: &mut Rng, sheet: &[u32], count: usize, hostile: bool) -> Order {
    let known = known(sheet).expect("a sheet without fault");
    let (p, width, d0) = (known.field.p, known.width, known.d0);
    let bounds: Vec<u32> = (0..count)
        .map(|_| {
            let any = 1 + rng.place(d0);
            rng.pick(&[1, d0, any, any]) as u32
        })
        .collect();
    let due: usize = bounds.iter().map(|&bound| bound as usize).sum();
    let sparse = rng.one_in(8);
    let coefficients = (0..width * due)
        .map(|_| {
            if sparse && !rng.one_in(8) {
                0
            } else {
                rng.below(p) as u32
            }
        })
        .collect();

    let mut coins: Vec<u32> = (0..width).map(|_| rng.below(p) as u32).collect();
    if hostile && rng.one_in(2) {
        let subgroup = Subgroup::of(&known);
        let inverse = known.field.div(1, subgroup.point(0, rng.place(known.n0)));
        coins.fill(0);
        coins[0] = rng.pick(&[0, 1, inverse, inverse]) as u32;
    }
    coins.extend(plain_coins(rng, sheet, hostile));
    Order {
        sheet: sheet.to_vec(),
        bounds,
        coefficients,
        coins,
    }
}

/// The prover's file for an order; empty if the prover refuses.
pub fn honest_batch(order: &Order) -> Vec<u8> {
    let Some(known) = known(&order.sheet) else {
        return Vec::new();
    };
    let mut file = vec![0; Layout::of_batch(&known, order.bounds.len()).blocks() * BLOCK_BYTES];
    let Order {
        sheet,
        bounds,
        coefficients,
        coins,
    } = order;
    match prove_batch(sheet, bounds, coefficients, coins, &mut file) {
        Answer::Done(_) => file,
        Answer::Refused { .. } => Vec::new(),
    }
}

/// The refusals of a batch that damage aims at, in the order of their tests.
pub const BATCH_REFUSALS: [u32; 9] = [3, 15, 4, 5, 6, 7, 14, 8, 9];

/// Damages an honest batch so that it is refused with this number, its checks right. False,
/// with the file as before, if the file has no place for that; damage of 8 and 9 may miss
/// in a small field.
pub fn aim_batch(rng: &mut Rng, file: &mut Vec<u8>, number: u32) -> bool {
    let layout = |sheet: &Sheet, file: &[u8]| {
        let count = read_word(file, SHEET_WORDS) as usize;
        let most = most_tables_of(sheet);
        (1..=most)
            .contains(&count)
            .then(|| Layout::of_batch(sheet, count))
    };
    let Some(mut target) = Target::laid_out(Edition::One, rng, file, layout) else {
        return false;
    };
    if number != 15 {
        return target.aim(number);
    }
    let (most, d0) = (most_tables_of(&target.sheet), target.sheet.d0 as u32);
    let count = target.tables();
    let rng = &mut *target.rng;
    let (word, value) = if rng.one_in(2) {
        (0, rng.pick(&[0, 9, u32::MAX, 1 + most as u32]))
    } else {
        (1 + rng.place(count), rng.pick(&[0, d0 + 1, u32::MAX]))
    };
    target.replace(SHEET_WORDS + word, value);
    true
}
