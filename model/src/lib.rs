//! An independent model of the STIR transcript verifier and prover.
//!
//! Everything here is written straight from document 01, the load, the counts, the
//! second edition, the converter, the refusal of equal out coins, the verifier's two
//! steps, the count of reads, elements of four words, batches, the nearest polynomial,
//! opening files and the device from the requests of document 02, and by plain means: whole
//! tables instead of single points, sets of places, whole trees, Lagrange sums, long
//! division, extended Euclid, Gauss's elimination. It is the thing other code is compared
//! with, so it prefers being obvious to being fast.

pub mod baseline;
pub mod batch;
pub mod convert;
pub mod device;
pub mod domain;
pub mod elements;
pub mod field;
pub mod generate;
pub mod layout;
pub mod load;
pub mod nearest;
pub mod openings;
pub mod polynomial;
pub mod prove;
pub mod sha256;
pub mod sheet;
pub mod stream;
pub mod tree;
pub mod verify;

pub use batch::{prove_batch, verify_batch};
pub use convert::{to_edition_1, to_edition_2};
pub use nearest::nearest;
pub use openings::{build_openings, verify_openings};
pub use prove::{encode, prove, prove_2, Answer};
pub use verify::{line, verify, verify_2, Outcome, Verdict};

/// A refusal as document 01 gives it: the number of the test that failed and
/// the first faulty place.
#[derive(Debug, Clone, Copy, PartialEq, Eq)]
pub struct Fault {
    pub number: u32,
    pub place: u64,
}

impl Fault {
    pub fn new(number: u32, place: usize) -> Self {
        Fault {
            number,
            place: place as u64,
        }
    }
}
