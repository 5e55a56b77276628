//! Opening files: verify reads the openings where they stand and goes on as with a plain file that has zeros where nothing is opened; the builder keeps the nodes over
//! subtrees of 16 leaves, and works out those within one for each opening, as the proved code has it.

use super::prove::write_blocks;
use super::reading::{blocks_due, equal_out, load_sheet, out_in_domain, read, refused};
use super::sha256::{sha256, Hash};
use super::verify::{decide_in, Correction};
use super::{points, Prime};
use crate::sheet::{Edition, Sheet, SHEET_WORDS};
use crate::stream::BLOCK_WORDS;
use crate::{Outcome, Verdict};

/// Words of a hash.
const HASH_WORDS: usize = 8;
/// Log2 of the leaves of a subtree.
const SUBTREE: usize = 4;

/// The leaf of an entry.
fn leaf(entry: &[u32]) -> Hash {
    let mut message = [0; 17];
    for (bytes, word) in message[1..].chunks_exact_mut(4).zip(entry) {
        bytes.copy_from_slice(&word.to_le_bytes());
    }
    sha256(&message[..1 + 4 * entry.len()])
}

/// The node over two children.
fn node(left: &Hash, right: &Hash) -> Hash {
    let mut message = [1; 65];
    message[1..33].copy_from_slice(left);
    message[33..].copy_from_slice(right);
    sha256(&message)
}

/// The root over a table, by halves.
pub fn root(table: &[u32], width: usize) -> Hash {
    if table.len() == width {
        return leaf(table);
    }
    let (left, right) = table.split_at(table.len() / 2);
    node(&root(left, width), &root(right, width))
}

fn hash_at(words: &[u32]) -> Hash {
    let mut hash = [0; 32];
    for (bytes, word) in hash.chunks_exact_mut(4).zip(words) {
        bytes.copy_from_slice(&word.to_le_bytes());
    }
    hash
}

fn words_of(hash: Hash) -> impl Iterator<Item = u32> {
    let word = move |i: usize| u32::from_le_bytes(std::array::from_fn(|b| hash[4 * i + b]));
    (0..HASH_WORDS).map(word)
}

/// Whether the path of an opening ends at another hash than the root.
fn misses(opening: &[u32], width: usize, nodes: usize, root: &[u32]) -> bool {
    let mut hash = leaf(&opening[2..2 + width]);
    let mut number = opening[1];
    for sibling in opening[2 + width..].chunks_exact(HASH_WORDS).take(nodes) {
        let sibling = hash_at(sibling);
        hash = if number % 2 == 0 {
            node(&hash, &sibling)
        } else {
            node(&sibling, &hash)
        };
        number /= 2;
    }
    hash != hash_at(root)
}

fn height(sheet: &Sheet) -> usize {
    sheet.n0.trailing_zeros() as usize
}

fn opening_words(sheet: &Sheet) -> usize {
    2 + sheet.width + HASH_WORDS * height(sheet)
}

/// Where the table of a level stands in a plain file; in an opening file its root and the indices that lead to it, and how many they are.
struct LevelWords {
    plain: usize,
    root: usize,
    indices: usize,
    count: usize,
}

/// All levels, and where the number of openings stands.
fn levels(sheet: &Sheet) -> (Vec<LevelWords>, usize) {
    let width = sheet.width;
    let (mut plain, mut root) = (SHEET_WORDS, SHEET_WORDS);
    let mut levels = Vec::with_capacity(sheet.rounds + 1);
    for i in 0..=sheet.rounds {
        // After table i come what belongs to its round, and, up to its indices, the next table or the final coefficients.
        let own = match i {
            0 => width,
            _ => width * (2 * sheet.outs + 2) + sheet.t[i - 1],
        };
        let next = root + HASH_WORDS + own;
        let indices = if i < sheet.rounds {
            next + HASH_WORDS + width * (2 * sheet.outs + 2)
        } else {
            next + width * sheet.d[i + 1]
        };
        let count = sheet.t[i];
        levels.push(LevelWords {
            plain,
            root,
            indices,
            count,
        });
        plain += width * sheet.n(i) + own;
        root = next;
    }
    let last = &levels[sheet.rounds];
    let number = last.indices + last.count;
    (levels, number)
}

fn is_index(level: &LevelWords, word: usize) -> bool {
    (level.indices..level.indices + level.count).contains(&word)
}

/// Refusal 5: a word before the number that is out of range, then one of an entry.
fn out_of_range(
    sheet: &Sheet,
    words: &[u32],
    levels: &[LevelWords],
    number: usize,
) -> Option<usize> {
    let p = sheet.field.p;
    for (i, level) in levels.iter().enumerate() {
        let from = level.root + HASH_WORDS;
        let end = levels.get(i + 1).map_or(level.indices, |next| next.root);
        // After round i's coins come the indices that lead to the table before.
        let limit = |word: usize| match i.checked_sub(1) {
            Some(before) if is_index(&levels[before], word) => sheet.indices(before) as u64,
            _ => p,
        };
        if let Some(word) = (from..end).find(|&word| u64::from(words[word]) >= limit(word)) {
            return Some(word);
        }
    }
    let last = levels.last()?;
    let limit = sheet.indices(sheet.rounds) as u32;
    if let Some(word) = (last.indices..number).find(|&word| words[word] >= limit) {
        return Some(word);
    }
    let count = words[number] as usize;
    let entries = (0..count).map(|q| number + 1 + q * opening_words(sheet) + 2);
    let large = |&word: &usize| u64::from(words[word]) >= p;
    entries
        .flat_map(|entry| entry..entry + sheet.width)
        .find(large)
}

/// Refusal 6: a word of an unused node, then one of the fill.
fn not_zero(sheet: &Sheet, words: &[u32], number: usize) -> Option<usize> {
    let each = opening_words(sheet);
    let from = number + 1;
    let end = from + words[number] as usize * each;
    for start in (from..end).step_by(each) {
        let table = words[start] as usize;
        let unused = if table <= sheet.rounds { table } else { 0 };
        let after = start + each;
        let mut unused = after - HASH_WORDS * unused..after;
        if let Some(word) = unused.find(|&word| words[word] != 0) {
            return Some(word);
        }
    }
    (end..words.len()).find(|&word| words[word] != 0)
}

/// The numbers of the points that the indices of a level lead to, as marks.
fn marks(sheet: &Sheet, i: usize, indices: &[u32]) -> Vec<bool> {
    let mut marks = vec![false; sheet.n(i)];
    for &j in indices {
        for m in 0..sheet.k[i] {
            marks[j as usize + m * sheet.indices(i)] = true;
        }
    }
    marks
}

/// The plain words as far as they are known, with zeros in the tables.
fn plain_words(sheet: &Sheet, words: &[u32], levels: &[LevelWords], number: usize) -> Vec<u32> {
    let mut plain = words[..SHEET_WORDS].to_vec();
    for (i, level) in levels.iter().enumerate() {
        plain.resize(plain.len() + sheet.width * sheet.n(i), 0);
        let end = levels.get(i + 1).map_or(number, |next| next.root);
        plain.extend_from_slice(&words[level.root + HASH_WORDS..end]);
    }
    plain
}

/// Refusals 7 and 14, of the plain words.
fn out_tests(sheet: &Sheet, plain: &[u32]) -> Option<(u32, usize)> {
    let g = sheet.field.g as u32;
    let powers = match sheet.field.p {
        17 => points(Prime::<17, true>, g, sheet.n0),
        65537 => points(Prime::<65537, true>, g, sheet.n0),
        _ => points(Prime::<2013265921, true>, g, sheet.n0),
    };
    let inside = out_in_domain(&powers, sheet, plain).map(|place| (7, place));
    inside.or_else(|| equal_out(sheet, plain).map(|place| (14, place)))
}

/// Verifies an opening file.
pub fn verify_openings<C, const TUNED: bool>(file: &[u8]) -> Verdict
where
    C: Correction<17, TUNED> + Correction<65537, TUNED> + Correction<2013265921, TUNED>,
{
    match opened(file) {
        Ok((sheet, plain)) => decide_in::<C, TUNED>(&sheet, &plain),
        Err(verdict) => verdict,
    }
}

/// The refusals up to 17: the words of the plain file, as far as they are known.
fn opened(file: &[u8]) -> Result<(Sheet, Vec<u32>), Verdict> {
    let (sheet, words) = load_sheet(Edition::One, file)?;
    let (levels, number) = levels(&sheet);
    if words.len() <= number {
        return Err(refused(4, (number + 1).div_ceil(BLOCK_WORDS), 0));
    }
    let (count, each) = (words[number] as usize, opening_words(&sheet));
    blocks_due(file, number + 1 + count * each)?;
    if let Some(word) = out_of_range(&sheet, &words, &levels, number) {
        return Err(refused(5, word, 0));
    }
    if let Some(word) = not_zero(&sheet, &words, number) {
        return Err(refused(6, word, 0));
    }

    let mut plain = plain_words(&sheet, &words, &levels, number);
    if let Some((refusal, place)) = out_tests(&sheet, &plain) {
        let mut back = levels.iter().enumerate().rev();
        let level = back.find(|(_, level)| level.plain <= place);
        let (i, level) = level.expect("a coin after a table");
        // The coin comes as far after its round's root as after the table.
        let place = place - level.plain - sheet.width * sheet.n(i) + level.root + HASH_WORDS;
        return Err(refused(refusal, place, 0));
    }

    let openings = &words[number + 1..number + 1 + count * each];
    let mut given = openings.chunks_exact(each);
    let mut q = 0;
    for (i, level) in levels.iter().enumerate() {
        let indices = &words[level.indices..level.indices + level.count];
        let marks = marks(&sheet, i, indices);
        for (point, _) in marks.iter().enumerate().filter(|(_, &marked)| marked) {
            let opening = given.next();
            let here = |o: &&[u32]| o[0] as usize == i && o[1] as usize == point;
            let Some(opening) = opening.filter(here) else {
                return Err(refused(18, q, 0));
            };
            let entry = level.plain + sheet.width * point;
            plain[entry..entry + sheet.width].copy_from_slice(&opening[2..2 + sheet.width]);
            q += 1;
        }
    }
    if given.next().is_some() {
        return Err(refused(18, q, 0));
    }

    for (q, opening) in openings.chunks_exact(each).enumerate() {
        let table = opening[0] as usize;
        let root = levels[table].root;
        let root = &words[root..root + HASH_WORDS];
        if misses(opening, sheet.width, height(&sheet) - table, root) {
            return Err(refused(17, q, 0));
        }
    }
    Ok((sheet, plain))
}

/// The nodes over subtrees: those at the lowest height first, the root last.
fn upper_nodes(table: &[u32], width: usize, below: usize) -> Vec<Vec<Hash>> {
    let subtrees = table.chunks_exact(width << below);
    let mut heights = vec![subtrees.map(|part| root(part, width)).collect::<Vec<_>>()];
    while let Some(nodes) = heights.last().filter(|nodes| nodes.len() > 1) {
        let pairs = nodes.chunks_exact(2);
        let over = pairs.map(|pair| node(&pair[0], &pair[1])).collect();
        heights.push(over);
    }
    heights
}

/// Writes the opening file of an accepted file and answers its number of blocks; of others, and of an output that is too short, it only says so.
pub fn build_openings<C, const TUNED: bool>(file: &[u8], out: &mut [u8]) -> Option<usize>
where
    C: Correction<17, TUNED> + Correction<65537, TUNED> + Correction<2013265921, TUNED>,
{
    let (sheet, full) = read(Edition::One, file).ok()?;
    let verdict = decide_in::<C, TUNED>(&sheet, &full);
    if verdict.outcome != Outcome::Accepted {
        return None;
    }
    let (levels, number) = levels(&sheet);
    let width = sheet.width;
    let due = number + 1 + verdict.reads as usize * opening_words(&sheet);

    let mut words = Vec::with_capacity(due);
    let mut trees = Vec::with_capacity(levels.len());
    words.extend_from_slice(&full[..SHEET_WORDS]);
    for (i, level) in levels.iter().enumerate() {
        let after = level.plain + width * sheet.n(i);
        let table = &full[level.plain..after];
        let below = SUBTREE.min(height(&sheet) - i);
        let nodes = upper_nodes(table, width, below);
        words.extend(words_of(nodes[nodes.len() - 1][0]));
        let end = levels.get(i + 1).map_or(number, |next| next.root);
        let length = end - level.root - HASH_WORDS;
        words.extend_from_slice(&full[after..after + length]);
        trees.push((table, below, nodes));
    }

    words.push(verdict.reads as u32);
    for (i, level) in levels.iter().enumerate() {
        let marks = marks(
            &sheet,
            i,
            &words[level.indices..level.indices + level.count],
        );
        let (table, below, nodes) = &trees[i];
        for (point, _) in marks.iter().enumerate().filter(|(_, &marked)| marked) {
            words.extend([i as u32, point as u32]);
            words.extend_from_slice(&table[width * point..width * (point + 1)]);
            for h in 0..*below {
                let leaves = width << h;
                let sibling = (point >> h ^ 1) * leaves;
                words.extend(words_of(root(&table[sibling..sibling + leaves], width)));
            }
            for (h, nodes) in nodes[..nodes.len() - 1].iter().enumerate() {
                words.extend(words_of(nodes[point >> (below + h) ^ 1]));
            }
            words.resize(words.len() + HASH_WORDS * i, 0);
        }
    }
    write_blocks(&words, out)
}
