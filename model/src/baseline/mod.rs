//! Verify, prove and encode in idiomatic Rust, of both editions, of batches and of opening files, and the nearest polynomial, for the benchmark alone.
//!
//! Where elements have one word, each stands here twice, by the constant TUNED. Plain Rust writes a step of Horner's rule as a product and a sum, each with its
//! remainder, and a walk for each point. The tuned one does by hand what the proved code does: one remainder for both, two points
//! in one walk of verify, four in one pass of the prover's quotient. All else is the same: the points of domain 0 as one table, Newton's
//! form of the samples, an inversion for two values, folds by halving, tables by halves, the correction by its recurrence.
//! Verify stands here once more, by the coefficient lists of the proved code ([`Lists`]).
//!
//! Where elements have four words, each stands here once, in plain Rust, verify by coefficient lists; what is asked for by the constant or the way is of no account.

mod batch;
mod four_words;
mod lists;
mod nearest;
mod newton;
mod openings;
mod prove;
mod reading;
mod sha256;
mod verify;

pub use batch::{prove_batch, verify_batch};
pub use lists::Lists;
pub use nearest::nearest;
pub use newton::Newton;
pub use openings::{build_openings, root, verify_openings};
pub use prove::{encode, prove};
pub use sha256::sha256;
pub use verify::verify;

const CHECK_MODULUS: u64 = 4294967291;

/// A field by its prime, a constant, so that the compiler sees every remainder's divisor.
#[derive(Clone, Copy)]
pub struct Prime<const P: u64, const TUNED: bool>;

impl<const P: u64, const TUNED: bool> Prime<P, TUNED> {
    /// The inverse of two.
    const HALF: u32 = (P as u32).div_ceil(2);

    fn add(self, a: u32, b: u32) -> u32 {
        ((u64::from(a) + u64::from(b)) % P) as u32
    }

    fn sub(self, a: u32, b: u32) -> u32 {
        ((u64::from(a) + P - u64::from(b)) % P) as u32
    }

    fn mul(self, a: u32, b: u32) -> u32 {
        (u64::from(a) * u64::from(b) % P) as u32
    }

    /// a + b·c.
    fn add_product(self, a: u32, b: u32, c: u32) -> u32 {
        if TUNED {
            ((u64::from(a) + u64::from(b) * u64::from(c)) % P) as u32
        } else {
            self.add(a, self.mul(b, c))
        }
    }

    fn pow(self, mut base: u32, mut exponent: u64) -> u32 {
        let mut result = 1;
        while exponent > 0 {
            if exponent & 1 == 1 {
                result = self.mul(result, base);
            }
            base = self.mul(base, base);
            exponent >>= 1;
        }
        result
    }

    /// The inverse of an element other than 0.
    fn inv(self, a: u32) -> u32 {
        self.pow(a, P - 2)
    }

    /// The inverses of two such elements by one inversion.
    fn inverse_pair(self, a: u32, b: u32) -> (u32, u32) {
        let inverse = self.inv(self.mul(a, b));
        (self.mul(inverse, b), self.mul(inverse, a))
    }

    /// The value at x of a polynomial, by Horner's rule.
    fn evaluate(self, coefficients: &[u32], x: u32) -> u32 {
        coefficients
            .iter()
            .rev()
            .fold(0, |sum, &c| self.add_product(c, x, sum))
    }
}

/// The powers of the root of unity of order 4,096 in the largest field, from the 0th on.
static POWERS: [u32; 4096] = {
    let mut table = [1; 4096];
    let mut e = 1;
    while e < 4096 {
        table[e] = (table[e - 1] as u64 * 1282623253 % 2013265921) as u32;
        e += 1;
    }
    table
};

/// The points of domain 0: from the stored table in the largest field, else by products.
fn points<const P: u64, const TUNED: bool>(
    prime: Prime<P, TUNED>,
    generator: u32,
    size: usize,
) -> Vec<u32> {
    if P == 2013265921 {
        let step = 4096 / size;
        return (1..=size).map(|e| POWERS[step * e % 4096]).collect();
    }
    let root = prime.pow(generator, (P - 1) / size as u64);
    std::iter::successors(Some(root), |&x| Some(prime.mul(x, root)))
        .take(size)
        .collect()
}
