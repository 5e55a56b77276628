//! The proved verifier for STIR transcripts, the prover that it answers, and the four fields below them, called from Rust.
//!
//! The archive's functions are proved against the written definition for every input; they allocate nothing and keep no state. What
//! stands here only hands slices over and names the answers: it has no rule of its own.
//!
//! To depend on it, write the archive with `tools/archive` at the top of the repository, and name this folder in `Cargo.toml`:
//! `tevrolig = { path = "../tevrolig/rust" }`. Where the archive stands elsewhere, as after `tools/install`, the environment variable
//! `TEVROLIG_LIB_DIR` names its folder (`TEVROLIG_LIB_DIR=/usr/local/lib cargo build`).
//!
//! ```
//! use tevrolig::{verify, word, Outcome, Refusal};
//!
//! let mut file = include_bytes!("../../examples/worked-transcript").to_vec();
//! let verdict = verify(&file);
//! assert_eq!(verdict.outcome, Outcome::Accepted);
//! assert_eq!(verdict.reads, 4);
//! assert_eq!(verdict.line(), "accepted 0 0 4");
//!
//! // Another final coefficient, and the check of the block made right: word 42 has a factor of 43 in it.
//! file[4 * 42] += 1;
//! assert_eq!(verify(&file).to_string(), "refused after 0 reads: block 0 has a wrong check");
//! file[508..].copy_from_slice(&(6143_u32 + 43).to_le_bytes());
//! assert_eq!(verify(&file).outcome.result(), Err(Refusal::Final { position: 0 }));
//! assert_eq!(word(&file, 42), Some(15));
//! ```
//!
//! [`verify`] may be asked in two steps: [`read`] where a file comes in, and [`decide`] where it counts.
//!
//! An answer of the archive that has no name here is a value too (`Unknown`, with its number and place), and no panic. With an archive of another interface than
//! this crate's, `rustc` does not link: it misses `tevrolig_interface_10`. `CHANGELOG.md` says what to change from one version to the next.
//!
//! An element of field 0, 1 or 2 is one word, one of field 3 is four: lengths and positions count words everywhere, and reads count table entries. [`Field`] has the
//! operations of the fields of one word, [`quartic`] those of field 3.
//!
//! What stands here is for files of edition 1. [`edition2`] has verify, its two steps and prove for edition 2, with a folding number for each round,
//! and [`convert`] the way from one to the other. [`batch`] has verify and prove for several polynomials in one run, and [`nearest`] finds the polynomial of a table with spoiled entries. **The edition, and each kind of file that a request adds, is fixed outside the file:** never try one
//! and then the other, since one file may be accepted as both with two meanings.

#[cfg(test)]
mod any_answer;
mod archive;
pub mod batch;
pub mod convert;
pub mod edition2;
mod field;
pub mod nearest;
mod prove;
pub mod quartic;
mod steps;
mod verdict;

pub use field::{Field, Powered};
pub use prove::{encode, prove, InputRefusal};
pub use steps::{decide, read};
pub use verdict::{place_sheet, sheet_of, verify, word, Outcome, Refusal, Verdict};

/// The version, which is the header's `TEVROLIG_VERSION`. Its second number is the interface's.
pub const VERSION: &str = env!("CARGO_PKG_VERSION");

/// Bytes of a block: its words and a check word.
pub const BLOCK_BYTES: usize = 512;

/// Words of the stream in a block.
pub const BLOCK_WORDS: usize = 127;

/// Words of the sheet.
pub const SHEET_WORDS: usize = 12;

/// No file with more blocks is accepted, and no file that is proved or converted needs more.
pub const MAX_BLOCKS: usize = 67;

/// What the documents call the words of the sheet; the last six are of edition 2 alone.
const SHEET_NAMES: [&str; edition2::SHEET_WORDS] = [
    "the field",
    "n0",
    "d0",
    "k",
    "M",
    "s",
    "t_0",
    "t_1",
    "t_2",
    "t_3",
    "t_4",
    "t_5",
    "k_1",
    "k_2",
    "k_3",
    "k_4",
    "k_5",
    "the edition",
];

/// A sheet word's refusal in words, which verify, prove and encode have in common.
fn broken_sheet(f: &mut std::fmt::Formatter, word: u64) -> std::fmt::Result {
    write!(f, "word {word} of the sheet ")?;
    let place = usize::try_from(word).ok();
    if let Some(name) = place.and_then(|place| SHEET_NAMES.get(place)) {
        write!(f, "({name}) ")?;
    }
    write!(f, "breaks its rule")
}

/// The refusals of a batch in words, which its verify and prove have in common.
fn table_count(f: &mut std::fmt::Formatter) -> std::fmt::Result {
    write!(
        f,
        "the number of tables is not from 1 to {}, or too large for the sheet's n0",
        batch::MAX_TABLES
    )
}

fn bound(f: &mut std::fmt::Formatter, table: u64) -> std::fmt::Result {
    write!(f, "the bound of table {table} is not from 1 to d0")
}

/// A refusal in words that has no name here.
fn unknown(f: &mut std::fmt::Formatter, number: u32, place: u64) -> std::fmt::Result {
    write!(f, "refusal {number} at {place}, which has no name here")
}
