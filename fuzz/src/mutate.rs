//! New inputs from old ones. Most changes keep the shape of what they change, so that the inputs get past the first tests; now and then an input is
//! drawn from nothing, which also makes a corpus to begin with needless.

use crate::input::{Input, ProverInput, TableInput};
use tevrolig_model::convert::with_equal_folds;
use tevrolig_model::domain::Subgroup;
use tevrolig_model::generate::batch::{
    aim_batch, honest_batch, most_tables, order, Order, BATCH_REFUSALS,
};
use tevrolig_model::generate::nearest;
use tevrolig_model::generate::repeats::repeat;
use tevrolig_model::generate::{self, aim, coefficients, coins, honest_file, known, Rng};
use tevrolig_model::layout::{Layout, Part};
use tevrolig_model::sheet::Edition;
use tevrolig_model::stream::{read_word, write_word, BLOCK_BYTES, BLOCK_WORDS};

/// An input made from another. `change` alters bytes in libFuzzer's own ways, which know what the model compared.
pub fn mutate(bytes: &[u8], seed: u32, change: impl Fn(&mut [u8])) -> Vec<u8> {
    let mut rng = Rng::new(seed.into());
    if bytes.len() < 2 || rng.one_in(4) {
        return fresh(&mut rng).write();
    }
    if rng.one_in(4) {
        // A few bytes of any kind; the form and the length stay.
        let mut changed = bytes.to_vec();
        let start = 1 + rng.place(changed.len() - 1);
        let end = changed.len().min(start + rng.pick(&[1, 4, 16, 512]));
        change(&mut changed[start..end]);
        return changed;
    }
    let mut input = Input::read(bytes);
    match &mut input {
        Input::Raw(file) | Input::WithChecks(file) => change_file(&mut rng, file),
        Input::Prover(given) => change_prover_input(&mut rng, given),
        Input::Field(words) => change_word(&mut rng, words),
        Input::Quartic(words) => change_word(&mut rng, words),
        Input::Table(given) => change_table(&mut rng, given),
    }
    input.write()
}

/// An honest file of either edition or a batch, whole or damaged, an allowed input of the prover or of that of batches, words for a field or for field 3, or a table.
fn fresh(rng: &mut Rng) -> Input {
    match rng.below(6) {
        0 | 1 => return fresh_batch(rng),
        2 => return Input::Table(fresh_table(rng)),
        _ => {}
    }
    let (edition, given) = allowed(rng);
    match rng.below(16) {
        form @ 0..=7 => {
            let mut file = honest_file(&given.sheet, &given.coefficients, &given.coins);
            if form == 0 {
                return Input::Raw(file);
            }
            let number = rng.pick(&[3, 5, 6, 7, 14, 14, 8, 8, 9, 9, 9]);
            if rng.one_in(2) {
                aim(edition, rng, &mut file, number);
            }
            Input::WithChecks(file)
        }
        8..=14 => Input::Prover(given),
        _ if rng.one_in(2) => Input::Field([rng.below(3) as u32, rng.word(), rng.word()]),
        _ => Input::Quartic([(); 9].map(|()| some_word(rng, 0))),
    }
}

/// An honest batch, whole or damaged, or an allowed input.
fn fresh_batch(rng: &mut Rng) -> Input {
    let most_n0 = rng.pick(&[16, 16, 32, 64]);
    let sheet = generate::sheet_up_to(Edition::One, rng, most_n0);
    let hostile = rng.one_in(2);
    let mut order = order(rng, &sheet, hostile);
    if rng.one_in(2) {
        let coins = after_r(&sheet, true, &mut order.coins);
        repeat(rng, &sheet, coins);
    }
    match rng.below(4) {
        0 => Input::Raw(honest_batch(&order)),
        1 => {
            let mut file = honest_batch(&order);
            let number = rng.pick(&BATCH_REFUSALS);
            aim_batch(rng, &mut file, number);
            Input::WithChecks(file)
        }
        _ => {
            let mut given = batch_input(order);
            given.output = output_due(&given) + rng.pick(&[0, 0, 1, 600]);
            Input::Prover(given)
        }
    }
}

/// A table with spoiled entries, halfway between two polynomials, far from all, or drawn; in one of eight the input fails a test or two.
fn fresh_table(rng: &mut Rng) -> TableInput {
    let most_n0 = rng.pick(&[4, 8, 16, 16, 16, 32, 64, 128]);
    let sheet = generate::sheet_up_to(Edition::One, rng, most_n0);
    let case = if rng.one_in(8) {
        let tests = [(); 2].map(|()| rng.pick(&nearest::TESTS));
        nearest::faulty(rng, &sheet, tests.into_iter())
    } else {
        nearest::case(rng, &sheet)
    };
    TableInput {
        sheet: case.sheet,
        table: case.table,
        output: case.length as u16,
    }
}

/// Another number of wrong entries for the same sheet, some other entries, another length, or another word.
fn change_table(rng: &mut Rng, given: &mut TableInput) {
    let sheet = known(&given.sheet).filter(|sheet| sheet.edition == Edition::One);
    match (rng.below(8), sheet) {
        (0, Some(sheet)) => {
            let wrong = rng.place(tevrolig_model::nearest::most_wrong(&sheet) + 2);
            given.table = nearest::planted(rng, &given.sheet, wrong).table;
        }
        (1, _) => {
            let length = given.output;
            given.output = rng.pick(&[length.saturating_sub(1), length.saturating_add(1), 0, 600]);
        }
        (2, _) => change_word_or_length(rng, &mut given.sheet),
        _ => {
            for _ in 0..=rng.place(3) {
                change_word_or_length(rng, &mut given.table);
            }
        }
    }
}

/// An order of a batch as the prover's input, with no output.
fn batch_input(order: Order) -> ProverInput {
    ProverInput {
        sheet: order.sheet,
        bounds: order.bounds,
        coefficients: order.coefficients,
        coins: order.coins,
        output: 0,
    }
}

/// The coins that a plain input has too: in a batch those after r.
fn after_r<'a>(sheet: &[u32], of_batch: bool, coins: &'a mut [u32]) -> &'a mut [u32] {
    let width = if sheet.first() == Some(&3) { 4 } else { 1 };
    let before = if of_batch { width.min(coins.len()) } else { 0 };
    &mut coins[before..]
}

fn change_word(rng: &mut Rng, words: &mut [u32]) {
    let at = rng.place(words.len());
    words[at] = some_word(rng, words[at]);
}

/// An allowed input of the prover, of either edition, in half of them with repeated indices; in edition 2 the folding numbers are equal in one of four,
/// so that the file has an edition 1.
fn allowed(rng: &mut Rng) -> (Edition, ProverInput) {
    let most_n0 = rng.pick(&[16, 16, 32, 64, 128]);
    let (edition, sheet) = match rng.below(8) {
        0..=3 => (
            Edition::One,
            generate::sheet_up_to(Edition::One, rng, most_n0),
        ),
        4 => {
            let equal = generate::sheet_up_to(Edition::One, rng, most_n0);
            (Edition::Two, with_equal_folds(&equal))
        }
        _ => (
            Edition::Two,
            generate::sheet_up_to(Edition::Two, rng, 2 * most_n0),
        ),
    };
    let hostile = rng.one_in(2);
    let mut drawn = coins(rng, &sheet, hostile);
    if rng.one_in(2) {
        repeat(rng, &sheet, &mut drawn);
    }
    let mut given = ProverInput {
        bounds: Vec::new(),
        coefficients: coefficients(rng, &sheet),
        coins: drawn,
        output: 0,
        sheet,
    };
    given.output = output_due(&given) + rng.pick(&[0, 0, 1, 600]);
    (edition, given)
}

/// The bytes that prove's output needs; none for a sheet with a fault, or where the bounds are too many.
fn output_due(given: &ProverInput) -> u16 {
    let Some(sheet) = known(&given.sheet) else {
        return 0;
    };
    let layout = match given.bounds.len() {
        0 => Layout::new(&sheet),
        count if count <= most_tables(&given.sheet) => Layout::of_batch(&sheet, count),
        _ => return 0,
    };
    (layout.blocks() * BLOCK_BYTES) as u16
}

fn change_file(rng: &mut Rng, file: &mut Vec<u8>) {
    if rng.one_in(4) {
        let number = rng.pick(&BATCH_REFUSALS);
        if aim_batch(rng, file, number) {
            return;
        }
    }
    if file.len() < BLOCK_BYTES || rng.one_in(2) {
        let edition = rng.pick(&Edition::BOTH);
        generate::damage(edition, rng, file);
        return;
    }
    let words = file.len() / BLOCK_BYTES * BLOCK_WORDS;
    for _ in 0..=rng.place(3) {
        let (at, other) = (rng.place(words), rng.place(words));
        let word = if rng.one_in(4) {
            read_word(file, other)
        } else {
            some_word(rng, read_word(file, at))
        };
        write_word(file, at, word);
    }
}

fn change_prover_input(rng: &mut Rng, given: &mut ProverInput) {
    let of_batch = !given.bounds.is_empty();
    match rng.below(8) {
        0 => {
            let due = output_due(given);
            let lengths = [
                due,
                due.saturating_sub(1),
                due + 1,
                due + 512,
                0,
                given.output / 2,
            ];
            given.output = rng.pick(&lengths);
        }
        1 | 2 if of_batch => {
            if known(&given.sheet).is_some_and(|sheet| sheet.edition == Edition::One) {
                let output = given.output;
                *given = batch_input(order(rng, &given.sheet, true));
                given.output = output;
            }
        }
        1 => given.coins = coins(rng, &given.sheet, true),
        2 => given.coefficients = coefficients(rng, &given.sheet),
        3 => {
            let coins = after_r(&given.sheet, of_batch, &mut given.coins);
            change_out_coin(rng, &given.sheet, coins);
        }
        4 => {
            let coins = after_r(&given.sheet, of_batch, &mut given.coins);
            repeat(rng, &given.sheet, coins);
        }
        _ => {
            let list = match rng.below(5) {
                0 => &mut given.sheet,
                1 => &mut given.coefficients,
                2 if of_batch => &mut given.bounds,
                _ => &mut given.coins,
            };
            change_word_or_length(rng, list);
        }
    }
}

/// A list with a word more or less, or mostly with another word.
fn change_word_or_length(rng: &mut Rng, list: &mut Vec<u32>) {
    match rng.below(8) {
        0 => list.push(0),
        1 => {
            list.pop();
        }
        _ if list.is_empty() => {}
        _ => change_word(rng, list),
    }
}

/// Moves an out coin into its round's domain, or makes it equal to another, half of the time of its round, where the sheet has a round. Of four words, one
/// is then changed in one of four.
fn change_out_coin(rng: &mut Rng, words: &[u32], coins: &mut [u32]) {
    let Some(sheet) = known(words).filter(|sheet| sheet.rounds > 0) else {
        return;
    };
    let (layout, width) = (Layout::new(&sheet), sheet.width);
    let position = |rng: &mut Rng, round: usize| {
        let outs = layout.range(Part::OutCoins(round));
        layout.coin_position(outs.start + width * rng.place(sheet.outs))
    };
    let [round, any] = [(); 2].map(|()| 1 + rng.place(sheet.rounds));
    let (at, other) = (position(rng, round), rng.pick(&[round, any]));
    let coin = match rng.below(3) {
        0 => {
            let point = Subgroup::of(&sheet).point(round, rng.place(sheet.n(round)));
            let mut coin = vec![0; width];
            coin[0] = point as u32;
            Some(coin)
        }
        _ => {
            let from = position(rng, other);
            coins.get(from..from + width).map(<[u32]>::to_vec)
        }
    };
    if let (Some(places), Some(mut coin)) = (coins.get_mut(at..at + width), coin) {
        if width > 1 && rng.one_in(4) {
            let word = rng.place(width);
            coin[word] = some_word(rng, coin[word]);
        }
        places.copy_from_slice(&coin);
    }
}

/// A word near this one, an element, or a word at which something may change.
fn some_word(rng: &mut Rng, old: u32) -> u32 {
    let any = rng.word();
    let bit = 1 << rng.below(32);
    let near = [
        old.wrapping_add(1),
        old.wrapping_sub(1),
        old / 2,
        old.wrapping_mul(2),
        old ^ bit,
    ];
    let elements = [0, 1, 16, any % 17, any % 17, any % 65537, any % 2013265921];
    let others = [17, 48, 49, 64, 4096, 65537, 2013265921, u32::MAX, any];
    match rng.below(5) {
        0 | 1 => rng.pick(&near),
        2 | 3 => rng.pick(&elements),
        _ => rng.pick(&others),
    }
}
