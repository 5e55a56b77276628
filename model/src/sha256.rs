//! SHA-256 by the text of FIPS 180-4 (document 02, CR 13): the padded message and the
//! whole schedule in lists, the constants worked out from the primes, and not copied.

use std::sync::LazyLock;

/// The bytes of a hash.
pub type Hash = [u8; 32];

/// The first `count` primes.
fn primes(count: usize) -> Vec<u64> {
    let mut found: Vec<u64> = Vec::new();
    let mut n = 2;
    while found.len() < count {
        if found.iter().all(|p| n % p != 0) {
            found.push(n);
        }
        n += 1;
    }
    found
}

/// The first 32 bits of the fraction of n's root of that degree, 2 or 3: the low word of
/// the largest r with r^degree at most n·2^(32·degree).
fn fraction_of_root(n: u64, degree: u32) -> u32 {
    // r is below 2^37, and so its third power below 2^111.
    let (mut low, mut high) = (0_u128, 1_u128 << 37);
    while low + 1 < high {
        let middle = (low + high) / 2;
        if middle.pow(degree) <= u128::from(n) << (32 * degree) {
            low = middle;
        } else {
            high = middle;
        }
    }
    low as u32
}

fn fractions(count: usize, degree: u32) -> Vec<u32> {
    let primes = primes(count).into_iter();
    primes.map(|p| fraction_of_root(p, degree)).collect()
}

/// The constants of the rounds (4.2.2), and the first hash value (5.3.3).
static CONSTANTS: LazyLock<Vec<u32>> = LazyLock::new(|| fractions(64, 3));
static FIRST: LazyLock<Vec<u32>> = LazyLock::new(|| fractions(8, 2));

fn rotations(x: u32, by: [u32; 3]) -> u32 {
    by.into_iter().fold(0, |sum, n| sum ^ x.rotate_right(n))
}

fn sum(words: &[u32]) -> u32 {
    words.iter().fold(0, |sum, &word| sum.wrapping_add(word))
}

/// The message with a one bit, zeros and its length in bits behind it (5.1.1).
fn padded(message: &[u8]) -> Vec<u8> {
    let mut padded = message.to_vec();
    padded.push(0x80);
    while padded.len() % 64 != 56 {
        padded.push(0);
    }
    padded.extend((8 * message.len() as u64).to_be_bytes());
    padded
}

/// The 64 words of a block's schedule (6.2.2, step 1).
fn schedule(block: &[u8]) -> Vec<u32> {
    let word = |bytes: &[u8]| bytes.iter().fold(0, |word, &b| word << 8 | u32::from(b));
    let mut w: Vec<u32> = block.chunks(4).map(word).collect();
    for t in 16..64 {
        let (x, y) = (w[t - 15], w[t - 2]);
        let early = x.rotate_right(7) ^ x.rotate_right(18) ^ x >> 3;
        let late = y.rotate_right(17) ^ y.rotate_right(19) ^ y >> 10;
        w.push(sum(&[w[t - 16], early, w[t - 7], late]));
    }
    w
}

/// The hash of a message.
pub fn sha256(message: &[u8]) -> Hash {
    let mut hash = FIRST.clone();
    for block in padded(message).chunks(64) {
        let mut v = hash.clone();
        for (&k, w) in CONSTANTS.iter().zip(schedule(block)) {
            // Where e has a one bit f is chosen, else g; the majority of a, b and c has
            // a one bit where two of them have.
            let choice = v[6] ^ (v[4] & (v[5] ^ v[6]));
            let majority = v[0] & v[1] | v[2] & (v[0] | v[1]);
            let first = sum(&[v[7], rotations(v[4], [6, 11, 25]), choice, k, w]);
            let second = sum(&[rotations(v[0], [2, 13, 22]), majority]);
            v.rotate_right(1);
            v[0] = sum(&[first, second]);
            v[4] = sum(&[v[4], first]);
        }
        for (h, x) in hash.iter_mut().zip(v) {
            *h = sum(&[*h, x]);
        }
    }
    let bytes: Vec<u8> = hash.iter().flat_map(|word| word.to_be_bytes()).collect();
    bytes.try_into().expect("eight words")
}
