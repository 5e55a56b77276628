//! The verifier: verdicts, and the words that they are about.

use crate::{archive, bound, broken_sheet, table_count, unknown, SHEET_WORDS};
use std::fmt::{self, Display, Formatter};

/// Why a file is refused: the first test that fails, and the first place where it does.
///
/// It says itself in words:
///
/// ```
/// use tevrolig::Refusal;
///
/// assert_eq!(Refusal::Sheet { word: 3 }.to_string(), "word 3 of the sheet (k) breaks its rule");
/// assert_eq!(Refusal::Check { block: 2 }.to_string(), "block 2 has a wrong check");
/// assert_eq!((Refusal::Check { block: 2 }.number(), Refusal::Check { block: 2 }.place()), (2, 2));
/// ```
#[derive(Debug, Clone, Copy, PartialEq, Eq, Hash)]
#[non_exhaustive]
pub enum Refusal {
    /// 1: the file is empty, or its length is no multiple of 512 bytes.
    Length,
    /// 2: this block's check word is wrong.
    Check { block: u64 },
    /// 3: this word of the sheet breaks its rule, given those before.
    Sheet { word: u64 },
    /// 15 at 0 of a batch: its number of tables is not from 1 to 8, or too large for n0.
    TableCount,
    /// 15 of a batch: the bound of this table, counted from 1, is not from 1 to d0.
    Bound { table: u64 },
    /// 4: the file has another number of blocks than the sheet needs.
    Blocks { needed: u64 },
    /// 5: this word of the stream is not below p, or no index that is due.
    Range { word: u64 },
    /// 6: this word comes after the stream's end and is not zero.
    Fill { word: u64 },
    /// 7: this word of the stream is an out coin of a round i, or in field 3 its first word, and the coin lies in domain i.
    OutCoin { word: u64 },
    /// 14: this word of the stream is, likewise, the second out coin of a round, which equals the first.
    EqualOut { word: u64 },
    /// 8: two equal points of this round have different values.
    Clash { round: u64 },
    /// 9: the final polynomial differs from the fold at the point of the final index at this position.
    Final { position: u64 },
    /// Another number, with its place: a test that this crate has no name for.
    Unknown { number: u32, place: u64 },
}

impl Refusal {
    /// The number of the test that failed.
    pub fn number(self) -> u32 {
        match self {
            Refusal::Length => 1,
            Refusal::Check { .. } => 2,
            Refusal::Sheet { .. } => 3,
            Refusal::TableCount | Refusal::Bound { .. } => 15,
            Refusal::Blocks { .. } => 4,
            Refusal::Range { .. } => 5,
            Refusal::Fill { .. } => 6,
            Refusal::OutCoin { .. } => 7,
            Refusal::EqualOut { .. } => 14,
            Refusal::Clash { .. } => 8,
            Refusal::Final { .. } => 9,
            Refusal::Unknown { number, .. } => number,
        }
    }

    /// The place that goes with the number.
    pub fn place(self) -> u64 {
        match self {
            Refusal::Length | Refusal::TableCount => 0,
            Refusal::Check { block } => block,
            Refusal::Bound { table } => table,
            Refusal::Blocks { needed } => needed,
            Refusal::Sheet { word }
            | Refusal::Range { word }
            | Refusal::Fill { word }
            | Refusal::OutCoin { word }
            | Refusal::EqualOut { word } => word,
            Refusal::Clash { round } => round,
            Refusal::Final { position } => position,
            Refusal::Unknown { place, .. } => place,
        }
    }

    /// The answer of the archive, which is proved to be one of the numbers named here.
    pub(crate) fn from_answer(number: u32, place: u64) -> Refusal {
        match (number, place) {
            (1, 0) => Refusal::Length,
            (2, block) => Refusal::Check { block },
            (3, word) => Refusal::Sheet { word },
            (4, needed) => Refusal::Blocks { needed },
            (5, word) => Refusal::Range { word },
            (6, word) => Refusal::Fill { word },
            (7, word) => Refusal::OutCoin { word },
            (8, round) => Refusal::Clash { round },
            (9, position) => Refusal::Final { position },
            (14, word) => Refusal::EqualOut { word },
            (15, 0) => Refusal::TableCount,
            (15, table) => Refusal::Bound { table },
            _ => Refusal::Unknown { number, place },
        }
    }
}

impl Display for Refusal {
    fn fmt(&self, f: &mut Formatter) -> fmt::Result {
        match *self {
            Refusal::Length => {
                write!(
                    f,
                    "the file is empty, or its length is no multiple of 512 bytes"
                )
            }
            Refusal::Check { block } => write!(f, "block {block} has a wrong check"),
            Refusal::Sheet { word } => broken_sheet(f, word),
            Refusal::TableCount => table_count(f),
            Refusal::Bound { table } => bound(f, table),
            Refusal::Blocks { needed } => {
                write!(
                    f,
                    "the number of blocks is not {needed}, which the sheet needs"
                )
            }
            Refusal::Range { word } => write!(f, "word {word} of the stream is out of range"),
            Refusal::Fill { word } => {
                write!(f, "word {word} comes after the stream's end and is not zero")
            }
            Refusal::OutCoin { word } => write!(
                f,
                "word {word} of the stream is an out coin inside its round's domain"
            ),
            Refusal::EqualOut { word } => write!(
                f,
                "word {word} of the stream is an out coin and equals the one before it in its round"
            ),
            Refusal::Clash { round } => {
                write!(f, "in round {round} two equal points have different values")
            }
            Refusal::Final { position } => write!(
                f,
                "the final polynomial differs from the fold at position {position} of the final indices"
            ),
            Refusal::Unknown { number, place } => unknown(f, number, place),
        }
    }
}

impl std::error::Error for Refusal {}

/// Accepted, or refused; [`Outcome::result`] takes it apart.
#[derive(Debug, Clone, Copy, PartialEq, Eq, Hash)]
#[non_exhaustive]
pub enum Outcome {
    Accepted,
    Refused(Refusal),
}

impl Outcome {
    pub(crate) fn from_answer(number: u32, place: u64) -> Outcome {
        match number {
            0 => Outcome::Accepted,
            _ => Outcome::Refused(Refusal::from_answer(number, place)),
        }
    }

    /// The refusal as an error, for `?`.
    ///
    /// ```
    /// fn settle(file: &[u8]) -> Result<(), Box<dyn std::error::Error>> {
    ///     tevrolig::verify(file).outcome.result()?;
    ///     Ok(())
    /// }
    ///
    /// assert!(settle(include_bytes!("../../examples/worked-transcript")).is_ok());
    /// let refusal = settle(&[]).unwrap_err();
    /// assert_eq!(refusal.to_string(), "the file is empty, or its length is no multiple of 512 bytes");
    /// ```
    pub fn result(self) -> Result<(), Refusal> {
        match self {
            Outcome::Accepted => Ok(()),
            Outcome::Refused(refusal) => Err(refusal),
        }
    }
}

impl Display for Outcome {
    fn fmt(&self, f: &mut Formatter) -> fmt::Result {
        match self {
            Outcome::Accepted => write!(f, "accepted"),
            Outcome::Refused(refusal) => write!(f, "refused: {refusal}"),
        }
    }
}

/// An outcome and a count of reads.
#[derive(Debug, Clone, Copy, PartialEq, Eq, Hash)]
pub struct Verdict {
    pub outcome: Outcome,
    /// The different table places opened by the coins treated, a place being table number and point number: one place is opened once,
    /// however many coins lead to it.
    pub reads: u64,
}

impl Verdict {
    /// The line that the program `check` prints: outcome, number, place, reads.
    ///
    /// ```
    /// assert_eq!(tevrolig::verify(b"no transcript").line(), "refused 1 0 0");
    /// ```
    pub fn line(self) -> String {
        match self.outcome {
            Outcome::Accepted => format!("accepted 0 0 {}", self.reads),
            Outcome::Refused(refusal) => {
                let (number, place) = (refusal.number(), refusal.place());
                format!("refused {number} {place} {}", self.reads)
            }
        }
    }
}

/// In words; the line of `check` is [`Verdict::line`].
impl Display for Verdict {
    fn fmt(&self, f: &mut Formatter) -> fmt::Result {
        match self.outcome {
            Outcome::Accepted => write!(f, "accepted after {} reads", self.reads),
            Outcome::Refused(refusal) => {
                write!(f, "refused after {} reads: {refusal}", self.reads)
            }
        }
    }
}

/// Verifies a transcript file of any length and content.
///
/// ```
/// let file = include_bytes!("../../examples/worked-transcript");
/// assert_eq!(tevrolig::verify(file).to_string(), "accepted after 4 reads");
/// assert_eq!(tevrolig::verify(&file[..511]).outcome, tevrolig::Outcome::Refused(tevrolig::Refusal::Length));
/// ```
#[must_use]
pub fn verify(file: &[u8]) -> Verdict {
    verify_with(archive::tevrolig_verify, file)
}

/// Verifies a file in the edition, or as a batch, whose function this is.
pub(crate) fn verify_with(verify: archive::Verify, file: &[u8]) -> Verdict {
    let (mut place, mut reads) = (0, 0);
    // SAFETY: as the archive's module says.
    let number = unsafe { verify(file.as_ptr(), file.len(), &mut place, &mut reads) };
    Verdict {
        outcome: Outcome::from_answer(number, place),
        reads,
    }
}

/// The word of this number in a file's stream, as refusals 5, 6, 7 and 14 of verify count; nothing where the file's whole blocks hold no such word.
/// The sheet has the words 0 to 11, or 0 to 17 in edition 2, and block checks are not counted.
///
/// ```
/// let file = include_bytes!("../../examples/worked-transcript");
/// let coefficients: Vec<_> = (42..44).map(|number| tevrolig::word(file, number)).collect();
/// assert_eq!(coefficients, [Some(14), Some(11)]);
/// assert_eq!(tevrolig::word(file, 126), Some(0));
/// assert_eq!(tevrolig::word(file, 127), None);
/// ```
#[must_use]
pub fn word(file: &[u8], number: u64) -> Option<u32> {
    let mut word = 0;
    // SAFETY: as the archive's module says.
    let answer = unsafe { archive::tevrolig_word(file.as_ptr(), file.len(), number, &mut word) };
    (answer == 0).then_some(word)
}

/// The sheet that a file holds, verified or not: the words 0 to 11 of its stream. Nothing where the file has less than one block.
///
/// ```
/// let file = include_bytes!("../../examples/worked-transcript");
/// assert_eq!(tevrolig::sheet_of(file), Some([0, 16, 8, 2, 1, 1, 1, 1, 0, 0, 0, 0]));
/// assert_eq!(tevrolig::sheet_of(&file[..511]), None);
/// ```
#[must_use]
pub fn sheet_of(file: &[u8]) -> Option<[u32; SHEET_WORDS]> {
    let mut sheet = [0; SHEET_WORDS];
    place_sheet(file, &mut sheet).then_some(sheet)
}

/// Places the same words at the front of an output, and answers whether they were placed: not where the file has less than one block or the
/// output less than [`SHEET_WORDS`] words. Nothing else is written.
pub fn place_sheet(file: &[u8], output: &mut [u32]) -> bool {
    // SAFETY: as the archive's module says.
    let number = unsafe {
        archive::tevrolig_sheet_of(file.as_ptr(), file.len(), output.as_mut_ptr(), output.len())
    };
    number == 0
}
