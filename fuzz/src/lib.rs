//! The archive against the model on every input that libFuzzer tries: a difference panics, which aborts.
//!
//! The archive is not instrumented, so coverage is the model's: this crate and the model are compiled with sanitizer coverage, and `tools/fuzz`
//! links them with libFuzzer. What the archive is lent stands between pages that nobody may touch, so that a read or write too far aborts too.

mod compare;
mod fence;
mod input;
mod mutate;

use std::slice;

extern "C" {
    /// libFuzzer's own changes to some bytes.
    fn LLVMFuzzerMutate(data: *mut u8, size: usize, most: usize) -> usize;
}

/// One input.
///
/// # Safety
///
/// libFuzzer lends `size` bytes.
#[no_mangle]
pub unsafe extern "C" fn LLVMFuzzerTestOneInput(data: *const u8, size: usize) -> i32 {
    // libFuzzer's first input is empty, and its pointer may then be null.
    let bytes = if size == 0 {
        &[]
    } else {
        slice::from_raw_parts(data, size)
    };
    compare::agree(&input::Input::read(bytes));
    0
}

/// The next input, made from one that was tried.
///
/// # Safety
///
/// libFuzzer lends `most` bytes, of which `size` are the input.
#[no_mangle]
pub unsafe extern "C" fn LLVMFuzzerCustomMutator(
    data: *mut u8,
    size: usize,
    most: usize,
    seed: u32,
) -> usize {
    let room = slice::from_raw_parts_mut(data, most);
    let bytes_changed = |bytes: &mut [u8]| {
        LLVMFuzzerMutate(bytes.as_mut_ptr(), bytes.len(), bytes.len());
    };
    let made = mutate::mutate(&room[..size], seed, bytes_changed);
    if made.len() > most {
        return size;
    }
    room[..made.len()].copy_from_slice(&made);
    made.len()
}
