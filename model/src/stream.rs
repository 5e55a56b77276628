//! Words, blocks and check words (document 01, "The word stream and its blocks").

/// Bytes of a block.
pub const BLOCK_BYTES: usize = 512;
/// Stream words of a block; the check word follows them.
pub const BLOCK_WORDS: usize = 127;

const CHECK_MODULUS: u64 = 4294967291;

/// The word at a byte offset that has 4 bytes behind it, least significant first.
fn word_at(bytes: &[u8], offset: usize) -> u32 {
    (0..4)
        .rev()
        .fold(0, |word, i| word << 8 | u32::from(bytes[offset + i]))
}

/// The check that belongs to the words of block b.
fn check(block: &[u8], b: usize) -> u64 {
    let sum: u64 = (0..BLOCK_WORDS)
        .map(|w| (w as u64 + 1) * u64::from(word_at(block, 4 * w)))
        .sum();
    (sum + b as u64 + 1) % CHECK_MODULUS
}

/// The first whole block whose check word is wrong.
pub fn first_wrong_check(file: &[u8]) -> Option<usize> {
    file.chunks_exact(BLOCK_BYTES)
        .enumerate()
        .position(|(b, block)| u64::from(word_at(block, 4 * BLOCK_WORDS)) != check(block, b))
}

/// Makes the check words of all whole blocks right.
pub fn write_checks(file: &mut [u8]) {
    for (b, block) in file.chunks_exact_mut(BLOCK_BYTES).enumerate() {
        let right = check(block, b) as u32;
        block[4 * BLOCK_WORDS..].copy_from_slice(&right.to_le_bytes());
    }
}

/// The byte offset of a stream word: each block before it adds its check word.
pub fn byte_offset(word: usize) -> usize {
    4 * (word + word / BLOCK_WORDS)
}

/// Stream word number `word` of a file that reaches so far.
pub fn read_word(file: &[u8], word: usize) -> u32 {
    word_at(file, byte_offset(word))
}

/// Puts a stream word into a file that reaches so far; checks stay as they are.
pub fn write_word(file: &mut [u8], word: usize, value: u32) {
    let offset = byte_offset(word);
    file[offset..offset + 4].copy_from_slice(&value.to_le_bytes());
}

/// Cuts a stream into blocks, the last one filled with zeros.
pub fn to_blocks(stream: &[u32]) -> Vec<u8> {
    let mut file = vec![0; stream.len().div_ceil(BLOCK_WORDS) * BLOCK_BYTES];
    for (word, &value) in stream.iter().enumerate() {
        write_word(&mut file, word, value);
    }
    write_checks(&mut file);
    file
}
