//! Batches: several polynomials in one run, each with a bound of its own.
//!
//! A batch has a sheet of edition 1. After it come the number of its tables, from 1 to [`MAX_TABLES`], their bounds, from 1 to d0 each, the tables, each over domain
//! 0, and one coin r; then all from fold coin 0 on as in a plain file. The number times n0 is at most 8192, or 2048 in field 3. A table that a polynomial below its
//! bound has passes for one below d0, multiplied by powers of r: their sum takes the place of table 0.
//!
//! It is a kind of file of its own, fixed outside the file: never try one and then the other, since one file may be accepted as both with two meanings.
//!
//! ```
//! use tevrolig::batch::{prove, verify};
//!
//! let sheet = [0, 16, 8, 2, 1, 1, 1, 1, 0, 0, 0, 0];
//! // One polynomial of degree below 3, and one of degree below 8.
//! let (bounds, coefficients) = ([3, 8], [1, 2, 3, 1, 2, 3, 4, 5, 6, 7, 8]);
//! // r = 5, then as for a plain file: fold 2, out 0, combination 3, fold 4, shift 0, final 1.
//! let coins = [5, 2, 0, 3, 4, 0, 1];
//! let mut file = [0; 512];
//! assert_eq!(prove(&sheet, &bounds, &coefficients, &coins, &mut file), Ok(1));
//! // Two places in each of the two tables, and two in table 1.
//! assert_eq!(verify(&file).line(), "accepted 0 0 6");
//! ```

use crate::prove::{answered, Operation};
use crate::verdict::verify_with;
use crate::{archive, InputRefusal, Verdict};

/// No batch has more tables.
pub const MAX_TABLES: usize = 8;

/// No batch with more blocks is accepted, and none that is proved needs more.
pub const MAX_BLOCKS: usize = 99;

/// Verifies a batch of any length and content. A coin over domain 0 leads to k places in each table.
///
/// ```
/// use tevrolig::{batch, Outcome, Refusal};
///
/// let plain = include_bytes!("../../examples/worked-transcript");
/// // Words 12 and 13, the first of table 0 in a plain file, are 3 and 11: three tables, and a bound above d0.
/// let verdict = batch::verify(plain);
/// assert_eq!(verdict.outcome, Outcome::Refused(Refusal::Bound { table: 1 }));
/// assert_eq!(verdict.line(), "refused 15 1 0");
///
/// // Accepted as a plain file with one table 0, and as a batch of one table with another.
/// let both = include_bytes!("../../examples/both-kinds");
/// assert_eq!((tevrolig::verify(both).line(), batch::verify(both).line()), ("accepted 0 0 2".into(), "accepted 0 0 2".into()));
/// ```
#[must_use]
pub fn verify(file: &[u8]) -> Verdict {
    verify_with(archive::tevrolig_verify_batch, file)
}

/// Writes the honest prover's batch to the front of the output and answers its number of blocks; the bytes after them are as before.
///
/// There are as many tables as bounds. The coefficients come table by table, each lowest first: as many as its bound, which in field 3 are four words each. The coins
/// are r, and then as [`prove`](crate::prove()) takes them; positions of refusals count r too. [`MAX_BLOCKS`] blocks are enough for every input, and an empty output
/// asks for the size.
///
/// ```
/// use tevrolig::{batch, InputRefusal};
///
/// let sheet = [0, 16, 8, 2, 1, 1, 1, 1, 0, 0, 0, 0];
/// let coins = [5, 2, 0, 3, 4, 0, 1];
/// let needed = batch::prove(&sheet, &[1, 2], &[7, 8, 9], &coins, &mut []);
/// assert_eq!(needed, Err(InputRefusal::OutputBlocks { needed: 1 }));
/// let refused = batch::prove(&sheet, &[1, 9], &[7, 8, 9], &coins, &mut []);
/// assert_eq!(refused, Err(InputRefusal::Bound { table: 2 }));
/// let refused = batch::prove(&sheet, &[1, 2], &[7, 8], &coins, &mut []);
/// assert_eq!(refused, Err(InputRefusal::BatchCoefficientCount));
/// ```
pub fn prove(
    sheet: &[u32],
    bounds: &[u32],
    coefficients: &[u32],
    coins: &[u32],
    output: &mut [u8],
) -> Result<usize, InputRefusal> {
    let prove = archive::tevrolig_prove_batch;
    prove_batch_with(prove, sheet, bounds, coefficients, coins, output)
}

/// Proves a batch by this function.
pub(crate) fn prove_batch_with(
    prove: archive::ProveBatch,
    sheet: &[u32],
    bounds: &[u32],
    coefficients: &[u32],
    coins: &[u32],
    output: &mut [u8],
) -> Result<usize, InputRefusal> {
    let mut value = 0;
    // SAFETY: as the archive's module says.
    let number = unsafe {
        prove(
            sheet.as_ptr(),
            sheet.len(),
            bounds.as_ptr(),
            bounds.len(),
            coefficients.as_ptr(),
            coefficients.len(),
            coins.as_ptr(),
            coins.len(),
            output.as_mut_ptr(),
            output.len(),
            &mut value,
        )
    };
    answered(number, value, Operation::PROVE_BATCH)
}
