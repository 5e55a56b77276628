//! The operations of the three fields whose elements are one word.

use crate::archive;
use std::fmt::{self, Display, Formatter};

/// One of the fields whose elements are one word, by its number as in word 0 of the sheet: 0 has p = 17, 1 has p = 65537, 2 has p = 2013265921. Field 3 has
/// [functions of its own](crate::quartic).
///
/// Its operations take any words, modulo p, and answer elements, which are words below p.
///
/// ```
/// use tevrolig::Field;
///
/// let field = Field::new(0).unwrap();
/// assert_eq!(field.sum(9, 9), 1);
/// assert_eq!(field.difference(0, 1), 16);
/// assert_eq!(field.product(100, 2), 200 % 17);
/// assert_eq!(field.power(3, 16), 1);
/// assert_eq!(field.power_turns(3, 16).turns, 5);
/// assert_eq!(field.inverse(5).map(|u| field.product(5, u)), Some(1));
/// assert_eq!(field.inverse(0), None);
/// assert_eq!(field.to_string(), "field 0 (p = 17)");
/// ```
#[derive(Debug, Clone, Copy, PartialEq, Eq, Hash)]
pub struct Field(u32);

/// What stands where the archive writes no element: no element of any field. It is proved to write one for each `Field`, and the inverse of all but 0.
const NO_ELEMENT: u32 = u32::MAX;

/// A power, and the turns of the loop that gave it.
#[derive(Debug, Clone, Copy, PartialEq, Eq, Hash)]
pub struct Powered {
    pub element: u32,
    pub turns: u32,
}

impl Field {
    /// The field of this number; nothing where the number names none of one word.
    ///
    /// ```
    /// assert!(tevrolig::Field::new(2).is_some());
    /// assert!(tevrolig::Field::new(3).is_none());
    /// ```
    #[must_use]
    pub fn new(number: u32) -> Option<Field> {
        let mut element = NO_ELEMENT;
        // SAFETY: as the archive's module says.
        let answer = unsafe { archive::tevrolig_sum(number, 0, 0, &mut element) };
        (answer == 0).then_some(Field(number))
    }

    /// Its number.
    #[must_use]
    pub fn number(self) -> u32 {
        self.0
    }

    /// p: the largest element, which is -1, and one more.
    #[must_use]
    pub fn prime(self) -> u32 {
        self.difference(0, 1).wrapping_add(1)
    }

    /// a + b.
    #[must_use]
    pub fn sum(self, a: u32, b: u32) -> u32 {
        self.apply(archive::tevrolig_sum, a, b)
    }

    /// a - b.
    #[must_use]
    pub fn difference(self, a: u32, b: u32) -> u32 {
        self.apply(archive::tevrolig_difference, a, b)
    }

    /// a times b.
    #[must_use]
    pub fn product(self, a: u32, b: u32) -> u32 {
        self.apply(archive::tevrolig_product, a, b)
    }

    /// a to the exponent, which is taken as it is; 0 to the power 0 is 1.
    #[must_use]
    pub fn power(self, a: u32, exponent: u32) -> u32 {
        self.apply(archive::tevrolig_power, a, exponent)
    }

    /// The same power, with the turns that it took: as many as the exponent has binary digits, none for 0.
    #[must_use]
    pub fn power_turns(self, a: u32, exponent: u32) -> Powered {
        let (mut element, mut turns) = (NO_ELEMENT, 0);
        // SAFETY: as the archive's module says.
        unsafe { archive::tevrolig_power_turns(self.0, a, exponent, &mut element, &mut turns) };
        Powered { element, turns }
    }

    /// The inverse of a; there is none exactly for 0.
    #[must_use]
    pub fn inverse(self, a: u32) -> Option<u32> {
        let mut element = NO_ELEMENT;
        // SAFETY: as the archive's module says.
        let answer = unsafe { archive::tevrolig_inverse(self.0, a, &mut element) };
        (answer == 0).then_some(element)
    }

    /// The element of an operation on two words. It finds its field, since a number that names none makes no `Field`.
    fn apply(
        self,
        operation: unsafe extern "C" fn(u32, u32, u32, &mut u32) -> u32,
        a: u32,
        b: u32,
    ) -> u32 {
        let mut element = NO_ELEMENT;
        // SAFETY: as the archive's module says.
        unsafe { operation(self.0, a, b, &mut element) };
        element
    }
}

impl Display for Field {
    fn fmt(&self, f: &mut Formatter) -> fmt::Result {
        write!(f, "field {} (p = {})", self.0, self.prime())
    }
}

#[cfg(test)]
mod tests {
    use super::*;

    extern "C" fn refused(_: u32, _: u32, _: u32, _: &mut u32) -> u32 {
        77
    }

    /// An operation of which no element comes is taken for no element, whatever number it answers.
    #[test]
    fn what_is_not_written_is_no_element() {
        for number in 0..3 {
            assert_eq!(Field(number).apply(refused, 1, 1), NO_ELEMENT);
        }
        // No `Field` has this number; in all that is asked of it the archive refuses.
        let none = Field(3);
        let (sum, difference) = (none.sum(1, 1), none.difference(1, 1));
        let elements = [sum, difference, none.product(1, 1), none.power(1, 1)];
        assert_eq!(elements, [NO_ELEMENT; 4]);
        let powered = none.power_turns(1, 1);
        assert_eq!((powered.element, powered.turns), (NO_ELEMENT, 0));
        assert_eq!(none.inverse(1), None);
        assert_eq!(none.to_string(), "field 3 (p = 0)");
    }
}
