//! Edition 2 of the transcript: a folding number for each round.
//!
//! Its sheet has 18 words: word 3 is k_0, words 12 to 16 are k_1 to k_5, zero past k_M, and word 17 is 2. Everything else is as in
//! edition 1, with the crate's own types; a file does not say of which edition it is.
//!
//! ```
//! use tevrolig::edition2::{prove, verify};
//!
//! // k_0 = 2 and k_1 = 4.
//! let sheet = [0, 16, 8, 2, 1, 1, 2, 2, 0, 0, 0, 0, 4, 0, 0, 0, 0, 2];
//! // Fold 2, out 0, combination 3, fold 4, shifts 0 and 5, finals 1 and 0.
//! let coins = [2, 0, 3, 4, 0, 5, 1, 0];
//! let mut file = [0; 512];
//! assert_eq!(prove(&sheet, &[1, 2, 3, 4, 5, 6, 7, 8], &coins, &mut file), Ok(1));
//! // Two different shifts of 2 places each, and two different finals of 4.
//! assert_eq!(verify(&file).line(), "accepted 0 0 12");
//! ```

use crate::prove::{prove_with, Operation};
use crate::steps::read_with;
use crate::verdict::verify_with;
use crate::{archive, InputRefusal, Outcome, Verdict};

/// Words of the sheet.
pub const SHEET_WORDS: usize = 18;

/// Verifies a file of edition 2, of any length and content. A shift or final coin over domain i leads to k_i places of table i.
///
/// ```
/// let file = include_bytes!("../../examples/worked-transcript");
/// // Word 12, the first of table 0 in edition 1, is 3: no k_1.
/// assert_eq!(tevrolig::edition2::verify(file).line(), "refused 3 12 0");
/// ```
#[must_use]
pub fn verify(file: &[u8]) -> Verdict {
    verify_with(archive::tevrolig_verify_2, file)
}

/// The first of verify's two steps, as [`read`](crate::read) is for edition 1.
///
/// ```
/// use tevrolig::{edition2, Outcome, Refusal};
///
/// let file = include_bytes!("../../examples/transcript-2");
/// assert_eq!(edition2::read(file), Outcome::Accepted);
/// let first = include_bytes!("../../examples/worked-transcript");
/// assert_eq!(edition2::read(first), Outcome::Refused(Refusal::Sheet { word: 12 }));
/// ```
#[must_use]
pub fn read(file: &[u8]) -> Outcome {
    read_with(archive::tevrolig_read_2, file)
}

/// The second, as [`decide`](crate::decide) is for edition 1.
///
/// ```
/// let file = include_bytes!("../../examples/transcript-2");
/// assert_eq!(tevrolig::edition2::decide(file).line(), "accepted 0 0 12");
/// ```
#[must_use]
pub fn decide(file: &[u8]) -> Verdict {
    verify_with(archive::tevrolig_decide_2, file)
}

/// Writes the honest prover's file of edition 2 as [`prove`](crate::prove()) writes one of edition 1; the sheet has 18 words.
///
/// ```
/// use tevrolig::{edition2, InputRefusal};
///
/// let sheet = [0, 16, 8, 2, 1, 1, 1, 1, 0, 0, 0, 0, 2, 0, 0, 0, 0, 2];
/// let (coefficients, coins) = ([1, 2, 3, 4, 5, 0, 0, 0], [2, 0, 3, 4, 0, 1]);
/// let mut file = [0; 512];
/// assert_eq!(edition2::prove(&sheet, &coefficients, &coins, &mut file), Ok(1));
/// assert_eq!(edition2::verify(&file).line(), "accepted 0 0 4");
///
/// let refused = edition2::prove(&sheet[..12], &coefficients, &coins, &mut file);
/// assert_eq!(refused, Err(InputRefusal::SheetLength2));
/// ```
pub fn prove(
    sheet: &[u32],
    coefficients: &[u32],
    coins: &[u32],
    output: &mut [u8],
) -> Result<usize, InputRefusal> {
    let (prove, operation) = (archive::tevrolig_prove_2, Operation::PROVE_2);
    prove_with(prove, operation, sheet, coefficients, coins, output)
}
