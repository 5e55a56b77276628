//! The archive's functions as `include/tevrolig.h` declares them.
//!
//! Every pointer that the crate hands over comes from a slice or a reference, so it is aligned, not null and lent for the call, and what
//! is written overlaps nothing else; a slice without elements has such a pointer too.

/// Verifies or decides a file in one of the editions, or verifies a batch: number, place and reads.
pub type Verify = unsafe extern "C" fn(*const u8, usize, &mut u64, &mut u64) -> u32;

/// Reads a file in one of the editions: number and place.
pub type Read = unsafe extern "C" fn(*const u8, usize, &mut u64) -> u32;

/// Proves in one of the editions: sheet, coefficients, coins and output, each with its length, and the value.
pub type Prove = unsafe extern "C" fn(
    *const u32,
    usize,
    *const u32,
    usize,
    *const u32,
    usize,
    *mut u8,
    usize,
    &mut u64,
) -> u32;

/// Proves a batch: as the type before, with the bounds after the sheet.
pub type ProveBatch = unsafe extern "C" fn(
    *const u32,
    usize,
    *const u32,
    usize,
    *const u32,
    usize,
    *const u32,
    usize,
    *mut u8,
    usize,
    &mut u64,
) -> u32;

/// Converts a file: file and output, each with its length, and the value.
pub type Convert = unsafe extern "C" fn(*const u8, usize, *mut u8, usize, &mut u64) -> u32;

/// Finds the nearest polynomial: sheet, table and output, each with its length, and the value.
pub type Nearest =
    unsafe extern "C" fn(*const u32, usize, *const u32, usize, *mut u32, usize, &mut u64) -> u32;

/// Refers to the function that has the interface's number in its name, whatever else is called: so that this crate does not link with an archive of another
/// interface.
#[used]
static INTERFACE: unsafe extern "C" fn() -> u32 = tevrolig_interface_10;

extern "C" {
    pub fn tevrolig_interface_10() -> u32;

    pub fn tevrolig_verify(file: *const u8, length: usize, place: &mut u64, reads: &mut u64)
        -> u32;
    pub fn tevrolig_verify_2(
        file: *const u8,
        length: usize,
        place: &mut u64,
        reads: &mut u64,
    ) -> u32;

    pub fn tevrolig_read(file: *const u8, length: usize, place: &mut u64) -> u32;
    pub fn tevrolig_read_2(file: *const u8, length: usize, place: &mut u64) -> u32;

    pub fn tevrolig_decide(file: *const u8, length: usize, place: &mut u64, reads: &mut u64)
        -> u32;
    pub fn tevrolig_decide_2(
        file: *const u8,
        length: usize,
        place: &mut u64,
        reads: &mut u64,
    ) -> u32;

    pub fn tevrolig_word(file: *const u8, length: usize, number: u64, word: &mut u32) -> u32;

    pub fn tevrolig_sheet_of(
        file: *const u8,
        length: usize,
        output: *mut u32,
        output_length: usize,
    ) -> u32;

    pub fn tevrolig_sum(field: u32, a: u32, b: u32, element: &mut u32) -> u32;
    pub fn tevrolig_difference(field: u32, a: u32, b: u32, element: &mut u32) -> u32;
    pub fn tevrolig_product(field: u32, a: u32, b: u32, element: &mut u32) -> u32;
    pub fn tevrolig_power(field: u32, a: u32, exponent: u32, element: &mut u32) -> u32;
    pub fn tevrolig_power_turns(
        field: u32,
        a: u32,
        exponent: u32,
        element: &mut u32,
        turns: &mut u32,
    ) -> u32;
    pub fn tevrolig_inverse(field: u32, a: u32, element: &mut u32) -> u32;

    pub fn tevrolig_sum_3(a: &[u32; 4], b: &[u32; 4], out: &mut [u32; 4]) -> u32;
    pub fn tevrolig_difference_3(a: &[u32; 4], b: &[u32; 4], out: &mut [u32; 4]) -> u32;
    pub fn tevrolig_product_3(a: &[u32; 4], b: &[u32; 4], out: &mut [u32; 4]) -> u32;
    pub fn tevrolig_power_3(a: &[u32; 4], exponent: u32, out: &mut [u32; 4]) -> u32;
    pub fn tevrolig_power_turns_3(
        a: &[u32; 4],
        exponent: u32,
        out: &mut [u32; 4],
        turns: &mut u32,
    ) -> u32;
    pub fn tevrolig_inverse_3(a: &[u32; 4], out: &mut [u32; 4]) -> u32;

    pub fn tevrolig_prove(
        sheet: *const u32,
        sheet_length: usize,
        coefficients: *const u32,
        coefficients_length: usize,
        coins: *const u32,
        coins_length: usize,
        output: *mut u8,
        output_length: usize,
        value: &mut u64,
    ) -> u32;

    pub fn tevrolig_prove_2(
        sheet: *const u32,
        sheet_length: usize,
        coefficients: *const u32,
        coefficients_length: usize,
        coins: *const u32,
        coins_length: usize,
        output: *mut u8,
        output_length: usize,
        value: &mut u64,
    ) -> u32;

    pub fn tevrolig_verify_batch(
        file: *const u8,
        length: usize,
        place: &mut u64,
        reads: &mut u64,
    ) -> u32;

    pub fn tevrolig_prove_batch(
        sheet: *const u32,
        sheet_length: usize,
        bounds: *const u32,
        bounds_length: usize,
        coefficients: *const u32,
        coefficients_length: usize,
        coins: *const u32,
        coins_length: usize,
        output: *mut u8,
        output_length: usize,
        value: &mut u64,
    ) -> u32;

    pub fn tevrolig_to_edition_2(
        file: *const u8,
        length: usize,
        output: *mut u8,
        output_length: usize,
        value: &mut u64,
    ) -> u32;
    pub fn tevrolig_to_edition_1(
        file: *const u8,
        length: usize,
        output: *mut u8,
        output_length: usize,
        value: &mut u64,
    ) -> u32;

    pub fn tevrolig_encode(
        sheet: *const u32,
        sheet_length: usize,
        coefficients: *const u32,
        coefficients_length: usize,
        output: *mut u32,
        output_length: usize,
        value: &mut u64,
    ) -> u32;

    pub fn tevrolig_nearest(
        sheet: *const u32,
        sheet_length: usize,
        table: *const u32,
        table_length: usize,
        output: *mut u32,
        output_length: usize,
        value: &mut u64,
    ) -> u32;
}
