//! Whatever an archive answers, it becomes a value that keeps its number and place and has words: in the place of the archive's functions stand some that answer
//! what it is proved not to.

use crate::batch::prove_batch_with;
use crate::convert::{converted, ConvertRefusal};
use crate::nearest::find_with;
use crate::prove::{answered, prove_with, Operation};
use crate::steps::read_with;
use crate::verdict::verify_with;
use crate::{InputRefusal, Outcome, Refusal};

/// The numbers of the documents and of the C functions, those between them, and the largest.
fn numbers() -> impl Iterator<Item = u32> {
    (1..300).chain([u32::MAX - 1, u32::MAX])
}

/// Places of sheet words, those past them, and the largest.
const PLACES: [u64; 8] = [0, 1, 2, 3, 17, 18, u64::MAX - 1, u64::MAX];

const UNKNOWN: &str = "which has no name here";

#[test]
fn of_a_file() {
    let named: Vec<u32> = (1..=9).chain([14, 15]).collect();
    for number in numbers() {
        for place in PLACES {
            let refusal = Refusal::from_answer(number, place);
            assert_eq!((refusal.number(), refusal.place()), (number, place));
            let known = named.contains(&number) && (number, place.min(1)) != (1, 1);
            assert_eq!(!refusal.to_string().ends_with(UNKNOWN), known);
            assert_eq!(refusal == Refusal::Unknown { number, place }, !known);
            assert_eq!(
                Outcome::from_answer(number, place),
                Outcome::Refused(refusal)
            );
        }
    }
}

#[test]
fn of_an_input() {
    for number in numbers() {
        for place in PLACES {
            for operation in [
                Operation::PROVE,
                Operation::PROVE_2,
                Operation::PROVE_BATCH,
                Operation::ENCODE,
                Operation::NEAREST,
            ] {
                let refusal = answered(number, place, operation).unwrap_err();
                assert_eq!((refusal.number(), refusal.place()), (number, place));
                let known = [3, 5, 7, 11, 14, 15].contains(&number)
                    || number == 10 && place < 3
                    || (number, place) == (19, 0);
                assert_eq!(!refusal.to_string().ends_with(UNKNOWN), known);
                assert_eq!(refusal == InputRefusal::Unknown { number, place }, !known);
            }
        }
    }
}

#[test]
fn of_a_conversion() {
    for number in numbers() {
        for place in PLACES {
            let refusal = ConvertRefusal::from_answer(number, place);
            assert_eq!((refusal.number(), refusal.place()), (number, place));
            let known = [2, 3, 4, 5, 6, 11, 13].contains(&number) || (number, place) == (1, 0);
            assert_eq!(!refusal.to_string().ends_with(UNKNOWN), known);
        }
    }
}

extern "C" fn verify(_: *const u8, _: usize, place: &mut u64, reads: &mut u64) -> u32 {
    (*place, *reads) = (5, 3);
    77
}

extern "C" fn read(_: *const u8, _: usize, place: &mut u64) -> u32 {
    *place = 5;
    77
}

extern "C" fn prove(
    _: *const u32,
    _: usize,
    _: *const u32,
    _: usize,
    _: *const u32,
    _: usize,
    _: *mut u8,
    _: usize,
    value: &mut u64,
) -> u32 {
    *value = 5;
    77
}

extern "C" fn prove_batch(
    _: *const u32,
    _: usize,
    _: *const u32,
    _: usize,
    _: *const u32,
    _: usize,
    _: *const u32,
    _: usize,
    _: *mut u8,
    _: usize,
    value: &mut u64,
) -> u32 {
    *value = 5;
    77
}

extern "C" fn nearest(
    _: *const u32,
    _: usize,
    _: *const u32,
    _: usize,
    _: *mut u32,
    _: usize,
    value: &mut u64,
) -> u32 {
    *value = 5;
    77
}

/// Done, with more words than there is room for.
extern "C" fn nearest_beyond(
    _: *const u32,
    _: usize,
    _: *const u32,
    _: usize,
    _: *mut u32,
    _: usize,
    value: &mut u64,
) -> u32 {
    *value = 5;
    0
}

extern "C" fn convert(_: *const u8, _: usize, _: *mut u8, _: usize, value: &mut u64) -> u32 {
    *value = 5;
    77
}

#[test]
fn of_other_functions() {
    let (number, place) = (77, 5);
    let refusal = Refusal::Unknown { number, place };
    let verdict = verify_with(verify, &[]);
    assert_eq!(verdict.outcome.result(), Err(refusal));
    assert_eq!(verdict.line(), "refused 77 5 3");
    assert_eq!(
        verdict.to_string(),
        "refused after 3 reads: refusal 77 at 5, which has no name here"
    );
    assert_eq!(read_with(read, &[]).result(), Err(refusal));
    let proved = prove_with(prove, Operation::PROVE, &[], &[], &[], &mut []);
    assert_eq!(proved, Err(InputRefusal::Unknown { number, place }));
    let proved = prove_batch_with(prove_batch, &[], &[], &[], &[], &mut []);
    assert_eq!(proved, Err(InputRefusal::Unknown { number, place }));
    let found = find_with(nearest, &[], &[], &mut []);
    assert_eq!(found, Err(InputRefusal::Unknown { number, place }));
    for sheet in [&[][..], &[0, 4, 2], &[3, 4, 512]] {
        for length in [0, 5] {
            let mut output = vec![0; length];
            let found = find_with(nearest_beyond, sheet, &[], &mut output);
            let within = length == 5 && sheet == [0, 4, 2];
            assert_eq!(found.is_ok(), within);
            assert!(within || found == Err(InputRefusal::Unknown { number: 0, place }));
        }
    }
    let conversion = converted(convert, &[], &mut []);
    assert_eq!(conversion, Err(ConvertRefusal::Unknown { number, place }));
}
