//! From one edition of the transcript to the other.
//!
//! A file need only pass refusals 1 to 6 of its own edition: it is converted whatever verify says of it from 7 on. Its words after the
//! sheet stay, so that a word's number is 6 higher in edition 2; the block checks are new.
//!
//! ```
//! use tevrolig::convert::{to_edition_1, to_edition_2, ConvertRefusal};
//!
//! let file = include_bytes!("../../examples/worked-transcript");
//! let mut second = [0; 512];
//! assert_eq!(to_edition_2(file, &mut second), Ok(1));
//! assert_eq!(tevrolig::edition2::verify(&second).line(), "accepted 0 0 4");
//! let mut first = [0; 512];
//! assert_eq!(to_edition_1(&second, &mut first), Ok(1));
//! assert_eq!(&first, file);
//!
//! let short = to_edition_2(file, &mut second[..511]);
//! assert_eq!(short, Err(ConvertRefusal::OutputBlocks { needed: 1 }));
//! ```

use crate::{archive, unknown, Refusal};
use std::fmt::{self, Display, Formatter};

/// Why a file is not converted: the first test that fails, and the first place where it does. Nothing is written then.
///
/// ```
/// use tevrolig::convert::ConvertRefusal;
///
/// let refusal = ConvertRefusal::Folds { round: 2 };
/// assert_eq!(refusal.to_string(), "k_2 is not k_0, so the file has no edition 1");
/// assert_eq!((refusal.number(), refusal.place()), (13, 2));
/// ```
#[derive(Debug, Clone, Copy, PartialEq, Eq, Hash)]
#[non_exhaustive]
pub enum ConvertRefusal {
    /// 1 to 6: verify of the file's own edition refuses it so too.
    File(Refusal),
    /// 13 on the way to edition 1: the folding number of this round is not that of round 0.
    Folds { round: u64 },
    /// 11: the output has not room for these blocks.
    OutputBlocks { needed: u64 },
    /// Another number, with its place: a test that this crate has no name for.
    Unknown { number: u32, place: u64 },
}

impl ConvertRefusal {
    /// The number of the test that failed.
    pub fn number(self) -> u32 {
        match self {
            ConvertRefusal::File(refusal) => refusal.number(),
            ConvertRefusal::Folds { .. } => 13,
            ConvertRefusal::OutputBlocks { .. } => 11,
            ConvertRefusal::Unknown { number, .. } => number,
        }
    }

    /// The place that goes with the number.
    pub fn place(self) -> u64 {
        match self {
            ConvertRefusal::File(refusal) => refusal.place(),
            ConvertRefusal::Folds { round } => round,
            ConvertRefusal::OutputBlocks { needed } => needed,
            ConvertRefusal::Unknown { place, .. } => place,
        }
    }

    /// The answer of the archive, which is proved to be one of the numbers named here.
    pub(crate) fn from_answer(number: u32, place: u64) -> ConvertRefusal {
        match number {
            1..=6 => ConvertRefusal::File(Refusal::from_answer(number, place)),
            11 => ConvertRefusal::OutputBlocks { needed: place },
            13 => ConvertRefusal::Folds { round: place },
            _ => ConvertRefusal::Unknown { number, place },
        }
    }
}

impl Display for ConvertRefusal {
    fn fmt(&self, f: &mut Formatter) -> fmt::Result {
        match *self {
            ConvertRefusal::File(refusal) => write!(f, "{refusal}"),
            ConvertRefusal::Folds { round } => {
                write!(f, "k_{round} is not k_0, so the file has no edition 1")
            }
            ConvertRefusal::OutputBlocks { needed } => {
                write!(f, "the output is too short for the blocks needed: {needed}")
            }
            ConvertRefusal::Unknown { number, place } => unknown(f, number, place),
        }
    }
}

impl std::error::Error for ConvertRefusal {}

/// Writes a file of edition 1 as one of edition 2 to the front of the output and answers its number of blocks; the bytes after them are
/// as before. All its folding numbers are k. [`MAX_BLOCKS`](crate::MAX_BLOCKS) blocks are enough for every file.
pub fn to_edition_2(file: &[u8], output: &mut [u8]) -> Result<usize, ConvertRefusal> {
    converted(archive::tevrolig_to_edition_2, file, output)
}

/// Writes a file of edition 2 whose folding numbers are all equal as one of edition 1, in the same way.
pub fn to_edition_1(file: &[u8], output: &mut [u8]) -> Result<usize, ConvertRefusal> {
    converted(archive::tevrolig_to_edition_1, file, output)
}

/// Converts a file in the way whose function this is.
pub(crate) fn converted(
    convert: archive::Convert,
    file: &[u8],
    output: &mut [u8],
) -> Result<usize, ConvertRefusal> {
    let mut value = 0;
    // SAFETY: as the archive's module says.
    let number = unsafe {
        convert(
            file.as_ptr(),
            file.len(),
            output.as_mut_ptr(),
            output.len(),
            &mut value,
        )
    };
    match number {
        0 => Ok(value as usize),
        _ => Err(ConvertRefusal::from_answer(number, value)),
    }
}
