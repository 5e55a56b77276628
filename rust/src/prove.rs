//! The prover: what it writes, and why an input is refused.

use crate::{archive, bound, broken_sheet, table_count, unknown};
use std::fmt::{self, Display, Formatter};

/// Why prove, encode or the search for the nearest polynomial refuses an input: the first test that fails, and the first place where it does. Nothing is written then.
///
/// ```
/// use tevrolig::InputRefusal;
///
/// let refusal = InputRefusal::OutCoin { position: 1 };
/// assert_eq!(refusal.to_string(), "coin 1 is an out coin inside its round's domain");
/// assert_eq!((refusal.number(), refusal.place()), (7, 1));
/// ```
#[derive(Debug, Clone, Copy, PartialEq, Eq, Hash)]
#[non_exhaustive]
pub enum InputRefusal {
    /// 10 at 0: the sheet has not 12 words.
    SheetLength,
    /// 10 at 0 of edition 2: the sheet has not 18 words.
    SheetLength2,
    /// 3: this word of the sheet breaks its rule, given those before.
    Sheet { word: u64 },
    /// 15 at 0 of a batch: the number of bounds, which is that of the tables, is not from 1 to 8, or too large for n0.
    TableCount,
    /// 15 of a batch: the bound of this table, counted from 1, is not from 1 to d0.
    Bound { table: u64 },
    /// 10 at 1: there are not d0 coefficients, which in field 3 are four words each.
    CoefficientCount,
    /// 10 at 1 of a batch: there are not as many coefficients as the bounds together say.
    BatchCoefficientCount,
    /// 10 at 1 of the nearest polynomial: the table has not n0 entries, which in field 3 are four words each.
    EntryCount,
    /// 10 at 2: the coins have not as many words as the sheet makes due, of a batch with those of r.
    CoinCount,
    /// 5: the word at this position of the coefficients followed by the coins is not below p, or no index that is due.
    Range { position: u64 },
    /// 5 of the nearest polynomial: the word at this position of the table is not below p.
    EntryRange { position: u64 },
    /// 7: the coin at this position is an out coin of a round i and lies in domain i. In field 3 the position is that of its first word.
    OutCoin { position: u64 },
    /// 14: the coin at this position, likewise, is the second out coin of a round and equals the first.
    EqualOut { position: u64 },
    /// 11 of prove: the output has not room for these blocks.
    OutputBlocks { needed: u64 },
    /// 11 of encode and of the nearest polynomial: the output has not room for these words.
    OutputWords { needed: u64 },
    /// 19 of the nearest polynomial: no polynomial of degree below d0 differs from the table in at most (n0 - d0)/2 points.
    NothingNear,
    /// Another number, with its place: a test that this crate has no name for.
    Unknown { number: u32, place: u64 },
}

/// What the operations call differently: how long a sheet is, how many coefficients or entries are due, what a 5 is about, and what an 11 counts.
#[derive(Debug, Clone, Copy)]
pub(crate) struct Operation {
    pub sheet_length: InputRefusal,
    pub element_count: InputRefusal,
    pub range: fn(u64) -> InputRefusal,
    pub output: fn(u64) -> InputRefusal,
}

impl Operation {
    pub const PROVE: Operation = Operation {
        sheet_length: InputRefusal::SheetLength,
        element_count: InputRefusal::CoefficientCount,
        range: |position| InputRefusal::Range { position },
        output: |needed| InputRefusal::OutputBlocks { needed },
    };
    pub const PROVE_2: Operation = Operation {
        sheet_length: InputRefusal::SheetLength2,
        ..Operation::PROVE
    };
    pub const PROVE_BATCH: Operation = Operation {
        element_count: InputRefusal::BatchCoefficientCount,
        ..Operation::PROVE
    };
    pub const ENCODE: Operation = Operation {
        output: |needed| InputRefusal::OutputWords { needed },
        ..Operation::PROVE
    };
    pub const NEAREST: Operation = Operation {
        element_count: InputRefusal::EntryCount,
        range: |position| InputRefusal::EntryRange { position },
        ..Operation::ENCODE
    };
}

impl InputRefusal {
    /// The number of the test that failed.
    pub fn number(self) -> u32 {
        match self {
            InputRefusal::SheetLength
            | InputRefusal::SheetLength2
            | InputRefusal::CoefficientCount
            | InputRefusal::BatchCoefficientCount
            | InputRefusal::EntryCount
            | InputRefusal::CoinCount => 10,
            InputRefusal::Sheet { .. } => 3,
            InputRefusal::TableCount | InputRefusal::Bound { .. } => 15,
            InputRefusal::Range { .. } | InputRefusal::EntryRange { .. } => 5,
            InputRefusal::OutCoin { .. } => 7,
            InputRefusal::EqualOut { .. } => 14,
            InputRefusal::OutputBlocks { .. } | InputRefusal::OutputWords { .. } => 11,
            InputRefusal::NothingNear => 19,
            InputRefusal::Unknown { number, .. } => number,
        }
    }

    /// The place that goes with the number.
    pub fn place(self) -> u64 {
        match self {
            InputRefusal::SheetLength
            | InputRefusal::SheetLength2
            | InputRefusal::TableCount
            | InputRefusal::NothingNear => 0,
            InputRefusal::CoefficientCount
            | InputRefusal::BatchCoefficientCount
            | InputRefusal::EntryCount => 1,
            InputRefusal::CoinCount => 2,
            InputRefusal::Sheet { word } => word,
            InputRefusal::Bound { table } => table,
            InputRefusal::Range { position }
            | InputRefusal::EntryRange { position }
            | InputRefusal::OutCoin { position }
            | InputRefusal::EqualOut { position } => position,
            InputRefusal::OutputBlocks { needed } | InputRefusal::OutputWords { needed } => needed,
            InputRefusal::Unknown { place, .. } => place,
        }
    }

    /// The answer of the archive, which is proved to be one of the numbers named here. What some mean is for the operation to say.
    fn from_answer(number: u32, place: u64, operation: Operation) -> InputRefusal {
        match (number, place) {
            (10, 0) => operation.sheet_length,
            (10, 1) => operation.element_count,
            (10, 2) => InputRefusal::CoinCount,
            (3, word) => InputRefusal::Sheet { word },
            (15, 0) => InputRefusal::TableCount,
            (15, table) => InputRefusal::Bound { table },
            (5, position) => (operation.range)(position),
            (7, position) => InputRefusal::OutCoin { position },
            (14, position) => InputRefusal::EqualOut { position },
            (11, needed) => (operation.output)(needed),
            (19, 0) => InputRefusal::NothingNear,
            _ => InputRefusal::Unknown { number, place },
        }
    }
}

impl Display for InputRefusal {
    fn fmt(&self, f: &mut Formatter) -> fmt::Result {
        match *self {
            InputRefusal::SheetLength => write!(f, "the sheet has not 12 words"),
            InputRefusal::SheetLength2 => write!(f, "the sheet has not 18 words"),
            InputRefusal::Sheet { word } => broken_sheet(f, word),
            InputRefusal::TableCount => table_count(f),
            InputRefusal::Bound { table } => bound(f, table),
            InputRefusal::CoefficientCount => {
                write!(f, "the coefficients are not as many as the sheet's d0")
            }
            InputRefusal::BatchCoefficientCount => {
                write!(f, "the coefficients are not as many as the bounds say")
            }
            InputRefusal::EntryCount => {
                write!(f, "the table's entries are not as many as the sheet's n0")
            }
            InputRefusal::CoinCount => {
                write!(f, "the coins are not as many as the sheet makes due")
            }
            InputRefusal::Range { position } => write!(
                f,
                "word {position} of the coefficients followed by the coins is out of range"
            ),
            InputRefusal::EntryRange { position } => {
                write!(f, "word {position} of the table is out of range")
            }
            InputRefusal::OutCoin { position } => {
                write!(
                    f,
                    "coin {position} is an out coin inside its round's domain"
                )
            }
            InputRefusal::EqualOut { position } => {
                write!(
                    f,
                    "coin {position} is an out coin and equals the one before it in its round"
                )
            }
            InputRefusal::OutputBlocks { needed } => {
                write!(f, "the output is too short for the blocks needed: {needed}")
            }
            InputRefusal::OutputWords { needed } => {
                write!(f, "the output is too short for the words needed: {needed}")
            }
            InputRefusal::NothingNear => write!(
                f,
                "no polynomial of degree below d0 differs from the table in at most (n0 - d0)/2 points"
            ),
            InputRefusal::Unknown { number, place } => unknown(f, number, place),
        }
    }
}

impl std::error::Error for InputRefusal {}

/// Writes the honest prover's file to the front of the output and answers its number of blocks; the bytes after them are as before.
///
/// There are d0 coefficients, lowest first. The coins are in the order in which the stream has them: fold coin 0; for each round i from 1 to
/// M its out coins, combination coin, fold coin i and shift indices; at last the final indices. In field 3 a coefficient has four words, and so has
/// a coin that is no index. [`MAX_BLOCKS`](crate::MAX_BLOCKS) blocks
/// are enough for every input, and an empty output asks for the size.
///
/// ```
/// use tevrolig::{prove, InputRefusal};
///
/// let sheet = [0, 16, 8, 2, 1, 1, 1, 1, 0, 0, 0, 0];
/// let coefficients = [1, 2, 3, 4, 5, 0, 0, 0];
/// // Fold 2, out 0, combination 3, fold 4, shift 0, final 1.
/// let coins = [2, 0, 3, 4, 0, 1];
/// let needed = prove(&sheet, &coefficients, &coins, &mut []);
/// assert_eq!(needed, Err(InputRefusal::OutputBlocks { needed: 1 }));
///
/// let mut output = [7; 1000];
/// let blocks = prove(&sheet, &coefficients, &coins, &mut output)?;
/// assert_eq!(blocks, 1);
/// assert_eq!(&output[..512], include_bytes!("../../examples/worked-transcript"));
/// assert_eq!(output[512..], [7; 488]);
///
/// // 3 is a point of domain 1.
/// let refused = prove(&sheet, &coefficients, &[2, 3, 3, 4, 0, 1], &mut output);
/// assert_eq!(refused, Err(InputRefusal::OutCoin { position: 1 }));
///
/// // With two out coins in each round, which may not be equal.
/// let sheet = [0, 16, 8, 2, 1, 2, 1, 1, 0, 0, 0, 0];
/// assert_eq!(prove(&sheet, &coefficients, &[2, 0, 4, 3, 4, 0, 1], &mut output), Ok(1));
/// let refused = prove(&sheet, &coefficients, &[2, 0, 0, 3, 4, 0, 1], &mut output);
/// assert_eq!(refused, Err(InputRefusal::EqualOut { position: 2 }));
/// # Ok::<(), InputRefusal>(())
/// ```
pub fn prove(
    sheet: &[u32],
    coefficients: &[u32],
    coins: &[u32],
    output: &mut [u8],
) -> Result<usize, InputRefusal> {
    let (prove, operation) = (archive::tevrolig_prove, Operation::PROVE);
    prove_with(prove, operation, sheet, coefficients, coins, output)
}

/// Proves in the edition whose function this is, with what it calls its refusals.
pub(crate) fn prove_with(
    prove: archive::Prove,
    operation: Operation,
    sheet: &[u32],
    coefficients: &[u32],
    coins: &[u32],
    output: &mut [u8],
) -> Result<usize, InputRefusal> {
    let mut value = 0;
    // SAFETY: as the archive's module says.
    let number = unsafe {
        prove(
            sheet.as_ptr(),
            sheet.len(),
            coefficients.as_ptr(),
            coefficients.len(),
            coins.as_ptr(),
            coins.len(),
            output.as_mut_ptr(),
            output.len(),
            &mut value,
        )
    };
    answered(number, value, operation)
}

/// Writes table 0 to the front of the output, the polynomial's values at the points of domain 0, and answers the number of its words, n0 or in field 3
/// four times n0; the words after them are as before.
///
/// ```
/// let sheet = [0, 16, 8, 2, 1, 1, 1, 1, 0, 0, 0, 0];
/// let mut table = [0; 16];
/// assert_eq!(tevrolig::encode(&sheet, &[1, 2, 3, 4, 5, 0, 0, 0], &mut table), Ok(16));
/// assert_eq!(table, [3, 11, 6, 11, 5, 6, 1, 3, 13, 8, 7, 12, 5, 10, 2, 15]);
/// ```
pub fn encode(
    sheet: &[u32],
    coefficients: &[u32],
    output: &mut [u32],
) -> Result<usize, InputRefusal> {
    let mut value = 0;
    // SAFETY: as the archive's module says.
    let number = unsafe {
        archive::tevrolig_encode(
            sheet.as_ptr(),
            sheet.len(),
            coefficients.as_ptr(),
            coefficients.len(),
            output.as_mut_ptr(),
            output.len(),
            &mut value,
        )
    };
    answered(number, value, Operation::ENCODE)
}

/// Done with a number of blocks or words, or refused.
pub(crate) fn answered(
    number: u32,
    value: u64,
    operation: Operation,
) -> Result<usize, InputRefusal> {
    match number {
        0 => Ok(value as usize),
        _ => Err(InputRefusal::from_answer(number, value, operation)),
    }
}
