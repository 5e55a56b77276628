//! The three prime fields and field 3 over the largest (document 01, "Fields and the
//! sheet"; document 02, CR 11), with the public operations of both kinds.

use crate::elements::{Elements, Four, Quartic};

/// A prime field: the prime p and the element g that generates the domains.
#[derive(Debug, Clone, Copy, PartialEq, Eq)]
pub struct Field {
    pub p: u64,
    pub g: u64,
}

/// The prime fields by their number in sheet word 0.
const FIELDS: [Field; 3] = [
    Field { p: 17, g: 3 },
    Field { p: 65537, g: 3 },
    Field {
        p: 2013265921,
        g: 31,
    },
];

/// Field 3.
pub const QUARTIC: Quartic = Quartic { base: FIELDS[2] };

impl Field {
    /// The prime field of this number, if it is that of one.
    pub fn numbered(number: u32) -> Option<Field> {
        FIELDS.get(number as usize).copied()
    }

    /// Any word, taken modulo p.
    pub fn element(self, word: u32) -> u64 {
        u64::from(word) % self.p
    }
}

/// The public operations on one word take a field number and any words; they answer
/// nothing exactly when no prime field has that number.
pub fn sum(field: u32, a: u32, b: u32) -> Option<u32> {
    let f = Field::numbered(field)?;
    Some(f.add(f.element(a), f.element(b)) as u32)
}

/// a - b.
pub fn difference(field: u32, a: u32, b: u32) -> Option<u32> {
    let f = Field::numbered(field)?;
    Some(f.sub(f.element(a), f.element(b)) as u32)
}

/// a * b.
pub fn product(field: u32, a: u32, b: u32) -> Option<u32> {
    let f = Field::numbered(field)?;
    Some(f.mul(f.element(a), f.element(b)) as u32)
}

/// a to the exponent, which is not reduced.
pub fn power(field: u32, a: u32, exponent: u32) -> Option<u32> {
    let f = Field::numbered(field)?;
    Some(f.pow(f.element(a), u64::from(exponent)) as u32)
}

/// The same power, and how many turns of squaring it takes: as many as the
/// exponent has binary digits, none for 0.
pub fn power_turns(field: u32, a: u32, exponent: u32) -> Option<(u32, u32)> {
    Some((power(field, a, exponent)?, turns(exponent)))
}

/// The inverse of a, where there is one; for every multiple of p there is none.
pub fn inverse(field: u32, a: u32) -> Option<Option<u32>> {
    let f = Field::numbered(field)?;
    Some(f.inv(f.element(a)).map(|found| found as u32))
}

fn turns(exponent: u32) -> u32 {
    u32::BITS - exponent.leading_zeros()
}

/// The public operations of field 3 take any four words, each of which is first taken
/// modulo p; an exponent is one word as it is.
pub fn sum_3(a: [u32; 4], b: [u32; 4]) -> [u32; 4] {
    written(QUARTIC.add(reduced(a), reduced(b)))
}

/// a - b.
pub fn difference_3(a: [u32; 4], b: [u32; 4]) -> [u32; 4] {
    written(QUARTIC.sub(reduced(a), reduced(b)))
}

/// a * b.
pub fn product_3(a: [u32; 4], b: [u32; 4]) -> [u32; 4] {
    written(QUARTIC.mul(reduced(a), reduced(b)))
}

/// a to the exponent.
pub fn power_3(a: [u32; 4], exponent: u32) -> [u32; 4] {
    written(QUARTIC.pow(reduced(a), u64::from(exponent)))
}

/// The same power with its turns.
pub fn power_turns_3(a: [u32; 4], exponent: u32) -> ([u32; 4], u32) {
    (power_3(a, exponent), turns(exponent))
}

/// The inverse of a, where there is one; where all four words are multiples of p there
/// is none.
pub fn inverse_3(a: [u32; 4]) -> Option<[u32; 4]> {
    QUARTIC.inv(reduced(a)).map(written)
}

fn reduced(words: [u32; 4]) -> Four {
    words.map(|word| QUARTIC.base.element(word))
}

fn written(x: Four) -> [u32; 4] {
    x.map(|word| word as u32)
}
