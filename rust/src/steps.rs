//! Verify in two steps, for whoever receives a file long before he may decide.

use crate::verdict::verify_with;
use crate::{archive, Outcome, Verdict};

/// The first step, reading: accepted, or one of the refusals 1 to 6, as [`verify`](crate::verify) gives them. No table word is used, so there are no reads.
///
/// ```
/// use tevrolig::{read, Outcome, Refusal};
///
/// let mut file = include_bytes!("../../examples/worked-transcript").to_vec();
/// assert_eq!(read(&file), Outcome::Accepted);
/// file[0] = 2;
/// assert_eq!(read(&file), Outcome::Refused(Refusal::Check { block: 0 }));
/// ```
#[must_use]
pub fn read(file: &[u8]) -> Outcome {
    read_with(archive::tevrolig_read, file)
}

/// The second step, deciding. Nothing is handed over from the first: the file is read again, so that this may be asked of any file, and answers on each what
/// [`verify`](crate::verify) does. After an accepted reading of the same bytes it accepts, or refuses with 7, 14, 8 or 9; a file that fails reading gets that refusal
/// again, with 0 reads.
///
/// ```
/// use tevrolig::{decide, read, Outcome};
///
/// let file = include_bytes!("../../examples/worked-transcript");
/// assert_eq!(read(file), Outcome::Accepted);
/// assert_eq!(decide(file).line(), "accepted 0 0 4");
/// assert_eq!(decide(&file[..511]).line(), "refused 1 0 0");
/// ```
#[must_use]
pub fn decide(file: &[u8]) -> Verdict {
    verify_with(archive::tevrolig_decide, file)
}

/// Reads a file in the edition whose function this is.
pub(crate) fn read_with(read: archive::Read, file: &[u8]) -> Outcome {
    let mut place = 0;
    // SAFETY: as the archive's module says.
    let number = unsafe { read(file.as_ptr(), file.len(), &mut place) };
    Outcome::from_answer(number, place)
}
