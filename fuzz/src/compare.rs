//! The comparison of the archive with the model.

use crate::fence::Fence;
use crate::input::{Input, ProverInput, TableInput};
use std::cell::RefCell;
use tevrolig::convert::{to_edition_1, to_edition_2};
use tevrolig::{batch, edition2, nearest, quartic, Field, Outcome, Refusal, Verdict};
use tevrolig_model::baseline;
use tevrolig_model::batch::{prove_batch, verify_batch};
use tevrolig_model::convert::convert_to;
use tevrolig_model::generate::known;
use tevrolig_model::prove::prove_in;
use tevrolig_model::sheet::Edition;
use tevrolig_model::verify::{decide_in, read_in, verify_in};
use tevrolig_model::{self as model, field, stream, Answer};

/// The fences, made once.
struct Fences {
    file: Fence<u8>,
    lists: [Fence<u32>; 4],
    output: Fence<u8>,
    table: Fence<u32>,
}

impl Fences {
    fn new() -> Fences {
        Fences {
            file: Fence::new(),
            lists: [(); 4].map(|()| Fence::new()),
            output: Fence::new(),
            table: Fence::new(),
        }
    }
}

/// Why the C functions below write nothing, and those functions, as the header has them.
const NO_FIELD: u32 = 100;
const NO_INVERSE: u32 = 101;
const NO_WORD: u32 = 102;

extern "C" {
    fn tevrolig_word(file: *const u8, length: usize, number: u64, word: *mut u32) -> u32;
    fn tevrolig_sum(field: u32, a: u32, b: u32, element: *mut u32) -> u32;
    fn tevrolig_difference(field: u32, a: u32, b: u32, element: *mut u32) -> u32;
    fn tevrolig_product(field: u32, a: u32, b: u32, element: *mut u32) -> u32;
    fn tevrolig_power(field: u32, a: u32, exponent: u32, element: *mut u32) -> u32;
    fn tevrolig_inverse(field: u32, a: u32, element: *mut u32) -> u32;
    fn tevrolig_power_turns(
        field: u32,
        a: u32,
        exponent: u32,
        element: *mut u32,
        turns: *mut u32,
    ) -> u32;
    fn tevrolig_sum_3(a: *const u32, b: *const u32, out: *mut u32) -> u32;
    fn tevrolig_difference_3(a: *const u32, b: *const u32, out: *mut u32) -> u32;
    fn tevrolig_product_3(a: *const u32, b: *const u32, out: *mut u32) -> u32;
    fn tevrolig_power_3(a: *const u32, exponent: u32, out: *mut u32) -> u32;
    fn tevrolig_power_turns_3(a: *const u32, exponent: u32, out: *mut u32, turns: *mut u32) -> u32;
    fn tevrolig_inverse_3(a: *const u32, out: *mut u32) -> u32;
}

/// What stands in the place of a word or an element before the call.
const BEFORE: u32 = 0xA5A5_A5A5;

thread_local! {
    static FENCES: RefCell<Fences> = RefCell::new(Fences::new());
}

/// Panics where the archive and the model differ on an input.
pub fn agree(input: &Input) {
    FENCES.with_borrow_mut(|fences| match input {
        Input::Raw(file) | Input::WithChecks(file) => {
            verdicts(fences, file);
            conversions(fences, file);
        }
        Input::Prover(given) => proofs(fences, given),
        Input::Field(words) => elements(fences, *words),
        Input::Quartic(words) => elements_of_four(fences, *words),
        Input::Table(given) => nearest_polynomials(fences, given),
    });
}

/// Verify of an edition in the archive.
fn verify(edition: Edition, file: &[u8]) -> Verdict {
    match edition {
        Edition::One => tevrolig::verify(file),
        Edition::Two => edition2::verify(file),
    }
}

/// Its two steps.
fn read(edition: Edition, file: &[u8]) -> Outcome {
    match edition {
        Edition::One => tevrolig::read(file),
        Edition::Two => edition2::read(file),
    }
}

fn decide(edition: Edition, file: &[u8]) -> Verdict {
    match edition {
        Edition::One => tevrolig::decide(file),
        Edition::Two => edition2::decide(file),
    }
}

/// An outcome in the model's terms.
fn outcome(outcome: Outcome) -> model::Outcome {
    match outcome.result() {
        Ok(()) => model::Outcome::Accepted,
        Err(refusal) => model::Outcome::Refused {
            number: refusal.number(),
            place: refusal.place(),
        },
    }
}

/// The verdicts of both and their two steps in each edition, those on the file as a batch, and some words of the stream: the places of the refusals, the words at the
/// end, one that the file itself names, and the sheet.
fn verdicts(fences: &mut Fences, file: &[u8]) {
    let lent: &[u8] = fences.file.lend(file);
    let places = Edition::BOTH.map(|edition| {
        let verdict = verify(edition, lent);
        assert_eq!(verdict.line(), model::line(verify_in(edition, file)));
        assert_eq!(outcome(read(edition, lent)), read_in(edition, file));
        let decided = decide(edition, lent);
        assert_eq!(decided.line(), model::line(decide_in(edition, file)));
        place_of(verdict)
    });
    let of_batch = batch::verify(lent);
    assert_eq!(of_batch.line(), model::line(verify_batch(file)));

    let end = (file.len() / stream::BLOCK_BYTES * stream::BLOCK_WORDS) as u64;
    let named = file
        .iter()
        .take(8)
        .fold(0, |sum, &byte| sum << 8 | u64::from(byte));
    let [place, place_2] = places;
    let place_3 = place_of(of_batch);
    for number in [place, place_2, place_3, end.wrapping_sub(1), end, named] {
        let word = (number < end).then(|| stream::read_word(file, number as usize));
        assert_eq!(tevrolig::word(lent, number), word, "word {number}");
        let place = fences.table.lend(&[BEFORE]);
        // SAFETY: the file is lent, and so is a place for one word.
        let answer =
            unsafe { tevrolig_word(lent.as_ptr(), lent.len(), number, place.as_mut_ptr()) };
        assert_eq!((answer, place[0]), stored(word, NO_WORD), "word {number}");
    }
    let sheet = (0 < end).then(|| std::array::from_fn(|number| stream::read_word(file, number)));
    assert_eq!(tevrolig::sheet_of(lent), sheet, "the sheet");
    assert_eq!(lent, file, "the file is only read");
}

/// The place of a refusal, 0 where there is none.
fn place_of(verdict: Verdict) -> u64 {
    verdict.outcome.result().map_or_else(Refusal::place, |()| 0)
}

/// The converters of both, with an output that is long enough for every file that has as many blocks, with outputs of as many blocks and of a byte
/// less, and with none.
fn conversions(fences: &mut Fences, file: &[u8]) {
    let lent: &[u8] = fences.file.lend(file);
    for to in Edition::BOTH {
        let convert = match to {
            Edition::One => to_edition_1,
            Edition::Two => to_edition_2,
        };
        let length = file.len();
        for length in [length + 513, length, length.saturating_sub(1), 0] {
            let mut expected = vec![0xA5; length];
            let output = fences.output.lend(&expected);
            let answer = match convert(lent, output) {
                Ok(blocks) => Answer::Done(blocks as u64),
                Err(refusal) => Answer::Refused {
                    number: refusal.number(),
                    place: refusal.place(),
                },
            };
            assert_eq!(answer, convert_to(to, file, &mut expected));
            assert!(output == expected, "the converter's output differs");
        }
    }
    assert_eq!(lent, file, "the file is only read");
}

/// Prove of both in each edition and of batches, the verdicts on the files that come of it and their conversions, and encode of both.
fn proofs(fences: &mut Fences, given: &ProverInput) {
    let ProverInput {
        sheet,
        bounds,
        coefficients,
        coins,
        output,
    } = given;
    let length = usize::from(*output);
    let [lent_sheet, lent_bounds, lent_coefficients, lent_coins] = &mut fences.lists;
    let lent_sheet: &[u32] = lent_sheet.lend(sheet);
    let lent_bounds: &[u32] = lent_bounds.lend(bounds);
    let lent_coefficients: &[u32] = lent_coefficients.lend(coefficients);
    let lent_coins: &[u32] = lent_coins.lend(coins);

    let mut files = Vec::new();
    for edition in Edition::BOTH {
        let prove = match edition {
            Edition::One => tevrolig::prove,
            Edition::Two => edition2::prove,
        };
        let mut expected = vec![0xA5; length];
        let lent = fences.output.lend(&expected);
        let answer = model_answer(prove(lent_sheet, lent_coefficients, lent_coins, lent));
        let due = prove_in(edition, sheet, coefficients, coins, &mut expected);
        assert_eq!(answer, due);
        assert!(lent == expected, "prove's output differs");
        if let Answer::Done(blocks) = answer {
            expected.truncate(blocks as usize * tevrolig::BLOCK_BYTES);
            files.push((verify(edition, &expected), expected));
        }
    }
    let mut expected = vec![0xA5; length];
    let lent = fences.output.lend(&expected);
    let proved = batch::prove(lent_sheet, lent_bounds, lent_coefficients, lent_coins, lent);
    let answer = model_answer(proved);
    let due = prove_batch(sheet, bounds, coefficients, coins, &mut expected);
    assert_eq!(answer, due);
    assert!(lent == expected, "the output of a batch's prove differs");
    if let Answer::Done(blocks) = answer {
        expected.truncate(blocks as usize * tevrolig::BLOCK_BYTES);
        files.push((batch::verify(&expected), expected));
    }

    let mut table = vec![0xA5A5_A5A5; length];
    let lent = fences.table.lend(&table);
    let encoded = tevrolig::encode(lent_sheet, lent_coefficients, lent);
    assert_eq!(
        model_answer(encoded),
        model::encode(sheet, coefficients, &mut table)
    );
    assert!(lent == table, "encode's output differs");

    let only_read = lent_sheet == sheet && lent_coefficients == coefficients && lent_coins == coins;
    assert!(
        only_read && lent_bounds == bounds,
        "the lists are only read"
    );
    for (verdict, file) in files {
        assert_eq!(verdict.outcome, Outcome::Accepted, "the prover's file");
        verdicts(fences, &file);
        conversions(fences, &file);
    }
}

/// The most points, times the words of an entry, for which the model's elimination is short.
const FEW: usize = 64;

/// The nearest polynomial of both. Where the model's elimination would take long, the baseline finds what is near, and where it finds nothing the model says what is
/// refused before the search.
fn nearest_polynomials(fences: &mut Fences, given: &TableInput) {
    let TableInput {
        sheet,
        table,
        output,
    } = given;
    let [lent_sheet, lent_table, ..] = &mut fences.lists;
    let lent_sheet: &[u32] = lent_sheet.lend(sheet);
    let lent_table: &[u32] = lent_table.lend(table);
    let mut expected = vec![BEFORE; usize::from(*output)];
    let lent = fences.table.lend(&expected);
    let found = nearest::find(lent_sheet, lent_table, lent);
    let answer = model_answer(found.map(|found| found.coefficients.len() + 1 + found.wrong.len()));
    let many = known(sheet).is_some_and(|sheet| sheet.width * sheet.n0 > FEW);
    if many && (matches!(answer, Answer::Done(_)) || answer == NOTHING_NEAR) {
        let words = baseline::nearest::<true>(sheet, table, &mut expected);
        let due = words.map_or(NOTHING_NEAR, |words| Answer::Done(words as u64));
        assert_eq!(answer, due);
    } else {
        assert_eq!(answer, model::nearest(sheet, table, &mut expected));
    }
    assert!(lent == expected, "the nearest polynomial differs");
    let only_read = lent_sheet == sheet && lent_table == table;
    assert!(only_read, "the lists are only read");
}

const NOTHING_NEAR: Answer = Answer::Refused {
    number: 19,
    place: 0,
};

/// An answer in the model's terms.
fn model_answer(answer: Result<usize, tevrolig::InputRefusal>) -> Answer {
    match answer {
        Ok(size) => Answer::Done(size as u64),
        Err(refusal) => Answer::Refused {
            number: refusal.number(),
            place: refusal.place(),
        },
    }
}

/// What a C function answers, and leaves in the place that it is lent: done and the value, or why there is none and what stood there before.
fn stored(value: Option<u32>, none: u32) -> (u32, u32) {
    value.map_or((none, BEFORE), |value| (0, value))
}

/// The operations of both; neither answers an element where the number names no field. What the C functions answer and store is then what the elements say.
fn elements(fences: &mut Fences, [number, a, b]: [u32; 3]) {
    let archive = Field::new(number);
    let elements = archive.map_or([None; 4], |field| {
        let (sum, difference) = (field.sum(a, b), field.difference(a, b));
        [sum, difference, field.product(a, b), field.power(a, b)].map(Some)
    });
    let model = [
        field::sum(number, a, b),
        field::difference(number, a, b),
        field::product(number, a, b),
        field::power(number, a, b),
    ];
    assert_eq!(elements, model);
    let inverse = archive.map(|field| field.inverse(a));
    assert_eq!(inverse, field::inverse(number, a));
    let turns = archive.map(|field| field.power_turns(a, b));
    let turns = turns.map(|power| (power.element, power.turns));
    assert_eq!(turns, field::power_turns(number, a, b));

    let operations = [
        tevrolig_sum,
        tevrolig_difference,
        tevrolig_product,
        tevrolig_power,
    ];
    for (operation, element) in operations.into_iter().zip(elements) {
        let place = fences.table.lend(&[BEFORE]);
        // SAFETY: a place for one word is lent.
        let answer = unsafe { operation(number, a, b, place.as_mut_ptr()) };
        assert_eq!((answer, place[0]), stored(element, NO_FIELD));
    }
    let place = fences.table.lend(&[BEFORE]);
    // SAFETY: a place for one word is lent.
    let answer = unsafe { tevrolig_inverse(number, a, place.as_mut_ptr()) };
    let reason = inverse.map_or(NO_FIELD, |_| NO_INVERSE);
    assert_eq!((answer, place[0]), stored(inverse.flatten(), reason));
    let [element, made, ..] = &mut fences.lists;
    let (element, made) = (element.lend(&[BEFORE]), made.lend(&[BEFORE]));
    let (at, to) = (element.as_mut_ptr(), made.as_mut_ptr());
    // SAFETY: two places for one word each are lent.
    let answer = unsafe { tevrolig_power_turns(number, a, b, at, to) };
    let due = |part: fn((u32, u32)) -> u32| stored(turns.map(part), NO_FIELD);
    assert_eq!((answer, element[0]), due(|power| power.0));
    assert_eq!((answer, made[0]), due(|power| power.1));
}

/// The operations of field 3, in the crate and as C functions, against the model's.
fn elements_of_four(fences: &mut Fences, words: [u32; 9]) {
    let (a, b, exponent) = (first_four(&words), first_four(&words[4..]), words[8]);
    let binary = [
        field::sum_3(a, b),
        field::difference_3(a, b),
        field::product_3(a, b),
    ];
    let (sum, difference) = (quartic::sum(a, b), quartic::difference(a, b));
    assert_eq!([sum, difference, quartic::product(a, b)], binary);
    let (power, turns) = field::power_turns_3(a, exponent);
    let raised = quartic::power_turns(a, exponent);
    assert_eq!((raised.element, raised.turns), (power, turns));
    assert_eq!(quartic::power(a, exponent), power);
    let inverse = field::inverse_3(a);
    assert_eq!(quartic::inverse(a), inverse);

    let [first, second, ..] = &mut fences.lists;
    let (first, second) = (&*first.lend(&a), &*second.lend(&b));
    let (x, y) = (first.as_ptr(), second.as_ptr());
    let operations = [tevrolig_sum_3, tevrolig_difference_3, tevrolig_product_3];
    for (operation, element) in operations.into_iter().zip(binary) {
        let out = fences.table.lend(&[BEFORE; 4]);
        // SAFETY: four words of each, and places for four, are lent.
        let answer = unsafe { operation(x, y, out.as_mut_ptr()) };
        assert_eq!((answer, &*out), (0, &element[..]));
    }
    let out = fences.table.lend(&[BEFORE; 4]);
    // SAFETY: four words and places for four are lent.
    let answer = unsafe { tevrolig_power_3(x, exponent, out.as_mut_ptr()) };
    assert_eq!((answer, &*out), (0, &power[..]));
    let out = fences.table.lend(&[BEFORE; 4]);
    let mut made = BEFORE;
    // SAFETY: four words, places for four and one for the turns are lent.
    let answer = unsafe { tevrolig_power_turns_3(x, exponent, out.as_mut_ptr(), &mut made) };
    assert_eq!((answer, &*out, made), (0, &power[..], turns));
    let out = fences.table.lend(&[BEFORE; 4]);
    // SAFETY: four words and places for four are lent.
    let answer = unsafe { tevrolig_inverse_3(x, out.as_mut_ptr()) };
    let due = inverse.map_or((NO_INVERSE, [BEFORE; 4]), |element| (0, element));
    assert_eq!((answer, &*out), (due.0, &due.1[..]));
    assert!(first == a && second == b, "the words are only read");
}

fn first_four(words: &[u32]) -> [u32; 4] {
    std::array::from_fn(|i| words[i])
}
