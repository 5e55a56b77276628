//! The nearest polynomial to a table with spoiled entries.
//!
//! Of all polynomials of degree below d0 at most one differs from a table over domain 0 in at most (n0 - d0)/2 points. [`find`] finds it, with the points where it
//! differs, or says that there is none: that is proved of all polynomials below d0.
//!
//! ```
//! use tevrolig::{nearest, InputRefusal};
//!
//! let sheet = [0, 16, 8, 2, 1, 1, 1, 1, 0, 0, 0, 0];
//! // The table of 1 + 2X + 3X² + 4X³ + 5X⁴, with the entries 2, 3 and 11 spoiled.
//! let mut table = [3, 11, 0, 0, 5, 6, 1, 3, 13, 8, 7, 0, 5, 10, 2, 15];
//! let mut output = [0; nearest::MAX_WORDS];
//! let found = nearest::find(&sheet, &table, &mut output)?;
//! assert_eq!(found.coefficients, [1, 2, 3, 4, 5, 0, 0, 0]);
//! assert_eq!(found.wrong, [2, 3, 11]);
//!
//! // Five are one too many.
//! table[14] = 0;
//! table[15] = 0;
//! assert_eq!(nearest::find(&sheet, &table, &mut output), Err(InputRefusal::NothingNear));
//! # Ok::<(), InputRefusal>(())
//! ```

use crate::prove::{answered, Operation};
use crate::{archive, InputRefusal};

/// No polynomial that is found, with the points where it differs, takes more words.
pub const MAX_WORDS: usize = 3073;

/// The polynomial that is nearest to a table, in the words of the output.
#[derive(Debug, Clone, Copy, PartialEq, Eq, Hash)]
pub struct Found<'a> {
    /// Its d0 coefficients, lowest first; in field 3 four words each.
    pub coefficients: &'a [u32],
    /// The numbers of the points where it differs from the table, in rising order; each is one word.
    pub wrong: &'a [u32],
}

/// Finds the polynomial of degree below d0 that differs from table 0 in at most (n0 - d0)/2 points. Its coefficients, the number of these points and their numbers
/// stand at the front of the output then, and the words after them are as before.
///
/// The table has n0 entries, one for each point of domain 0, which in field 3 are four words each; an entry is wrong if any of them is. An output must have room for
/// the most that may be written: the coefficients and 1 + (n0 - d0)/2 words, for which [`MAX_WORDS`] words are always enough. An empty one asks for the size.
///
/// ```
/// use tevrolig::{nearest, InputRefusal};
///
/// let sheet = [0, 4, 2, 2, 0, 1, 1, 0, 0, 0, 0, 0];
/// let refused = |table: &[u32], output: &mut [u32]| nearest::find(&sheet, table, output).unwrap_err();
/// assert_eq!(refused(&[12, 16, 0], &mut []), InputRefusal::EntryCount);
/// assert_eq!(refused(&[12, 16, 0, 17], &mut []), InputRefusal::EntryRange { position: 3 });
/// assert_eq!(refused(&[12, 16, 0, 13], &mut []), InputRefusal::OutputWords { needed: 4 });
/// let mut output = [9; 4];
/// assert_eq!(refused(&[12, 12, 16, 16], &mut output), InputRefusal::NothingNear);
/// assert_eq!(output, [9; 4]);
/// ```
pub fn find<'a>(
    sheet: &[u32],
    table: &[u32],
    output: &'a mut [u32],
) -> Result<Found<'a>, InputRefusal> {
    find_with(archive::tevrolig_nearest, sheet, table, output)
}

/// Finds it by this function.
pub(crate) fn find_with<'a>(
    nearest: archive::Nearest,
    sheet: &[u32],
    table: &[u32],
    output: &'a mut [u32],
) -> Result<Found<'a>, InputRefusal> {
    let mut value = 0;
    // SAFETY: as the archive's module says.
    let number = unsafe {
        nearest(
            sheet.as_ptr(),
            sheet.len(),
            table.as_ptr(),
            table.len(),
            output.as_mut_ptr(),
            output.len(),
            &mut value,
        )
    };
    let words = answered(number, value, Operation::NEAREST)?;
    let found = output
        .get(..words)
        .and_then(|written| parted(sheet, written));
    found.ok_or(InputRefusal::Unknown {
        number,
        place: value,
    })
}

/// The coefficients and the numbers in what was written. The archive is proved to write so many words.
fn parted<'a>(sheet: &[u32], written: &'a [u32]) -> Option<Found<'a>> {
    let (&field, &d0) = (sheet.first()?, sheet.get(2)?);
    let width = if field == 3 { 4 } else { 1 };
    let (coefficients, rest) = written.split_at_checked(width * d0 as usize)?;
    let (_, wrong) = rest.split_first()?;
    Some(Found {
        coefficients,
        wrong,
    })
}
