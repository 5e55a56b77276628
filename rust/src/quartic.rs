//! The operations of field 3, whose elements are four words each.
//!
//! The words a, b, c, d stand for a + bX + cX² + dX³ over p = 2013265921, where X⁴ = 11. The operations take any words, each modulo p, and answer elements, whose
//! words are below p. [`Field`](crate::Field) is for the fields whose elements are one word.
//!
//! ```
//! use tevrolig::quartic::{difference, inverse, power, power_turns, product, sum};
//!
//! let p = 2013265921;
//! let x = [0, 1, 0, 0];
//! assert_eq!(sum([p - 1, 0, 2, 3], [1, 5, p, 4]), [0, 5, 2, 7]);
//! assert_eq!(difference([0; 4], x), [0, p - 1, 0, 0]);
//! assert_eq!(product(x, [0, 0, 0, 1]), [11, 0, 0, 0]);
//! assert_eq!(power(x, 6), [0, 0, 11, 0]);
//! assert_eq!(power_turns(x, 6).turns, 3);
//! assert_eq!(inverse([1, 2, 3, 4]).map(|u| product([1, 2, 3, 4], u)), Some([1, 0, 0, 0]));
//! assert_eq!(inverse([0, p, 0, 0]), None);
//! ```

use crate::archive;

/// What stands where the archive writes no element: no element. It is proved to write one always, but for the inverse of 0.
const NO_ELEMENT: [u32; 4] = [u32::MAX; 4];

/// A power, and the turns of the loop that gave it.
#[derive(Debug, Clone, Copy, PartialEq, Eq, Hash)]
pub struct Powered {
    pub element: [u32; 4],
    pub turns: u32,
}

/// a + b.
#[must_use]
pub fn sum(a: [u32; 4], b: [u32; 4]) -> [u32; 4] {
    apply(archive::tevrolig_sum_3, a, b)
}

/// a - b.
#[must_use]
pub fn difference(a: [u32; 4], b: [u32; 4]) -> [u32; 4] {
    apply(archive::tevrolig_difference_3, a, b)
}

/// a times b.
#[must_use]
pub fn product(a: [u32; 4], b: [u32; 4]) -> [u32; 4] {
    apply(archive::tevrolig_product_3, a, b)
}

/// a to the exponent, which is one word and taken as it is; 0 to the power 0 is 1.
#[must_use]
pub fn power(a: [u32; 4], exponent: u32) -> [u32; 4] {
    let mut out = NO_ELEMENT;
    // SAFETY: as the archive's module says.
    unsafe { archive::tevrolig_power_3(&a, exponent, &mut out) };
    out
}

/// The same power, with the turns that it took: as many as the exponent has binary digits, none for 0.
#[must_use]
pub fn power_turns(a: [u32; 4], exponent: u32) -> Powered {
    let (mut element, mut turns) = (NO_ELEMENT, 0);
    // SAFETY: as the archive's module says.
    unsafe { archive::tevrolig_power_turns_3(&a, exponent, &mut element, &mut turns) };
    Powered { element, turns }
}

/// The inverse of a; there is none exactly for 0, that is, where all four words are multiples of p.
#[must_use]
pub fn inverse(a: [u32; 4]) -> Option<[u32; 4]> {
    let mut out = NO_ELEMENT;
    // SAFETY: as the archive's module says.
    let answer = unsafe { archive::tevrolig_inverse_3(&a, &mut out) };
    (answer == 0).then_some(out)
}

/// The element of an operation on two.
fn apply(
    operation: unsafe extern "C" fn(&[u32; 4], &[u32; 4], &mut [u32; 4]) -> u32,
    a: [u32; 4],
    b: [u32; 4],
) -> [u32; 4] {
    let mut out = NO_ELEMENT;
    // SAFETY: as the archive's module says.
    unsafe { operation(&a, &b, &mut out) };
    out
}

#[cfg(test)]
mod tests {
    use super::*;

    extern "C" fn refused(_: &[u32; 4], _: &[u32; 4], _: &mut [u32; 4]) -> u32 {
        77
    }

    /// An operation of which no element comes is taken for no element, whatever number it answers.
    #[test]
    fn what_is_not_written_is_no_element() {
        assert_eq!(apply(refused, [1; 4], [1; 4]), NO_ELEMENT);
    }
}
