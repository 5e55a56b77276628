//! Opening files (document 02, CR 13): from full files through the model's own builder,
//! and damage aimed at one refusal each.

use super::damage::Target;
use super::{aim, coefficients, coins, honest_file, known, Rng};
use crate::layout::{opening_words, Layout, Part};
use crate::openings::shut;
use crate::sheet::{Edition, Sheet};
use crate::stream::{read_word, to_blocks, BLOCK_BYTES, BLOCK_WORDS};
use crate::tree::HASH_WORDS;

/// The opening file of an honest full file for a sheet of edition 1.
pub fn honest_openings(rng: &mut Rng, sheet: &[u32], hostile: bool) -> Vec<u8> {
    shut(&honest_full(rng, sheet, hostile)).unwrap_or_default()
}

/// An honest full file for a sheet.
pub fn honest_full(rng: &mut Rng, sheet: &[u32], hostile: bool) -> Vec<u8> {
    let polynomial = coefficients(rng, sheet);
    let coins = coins(rng, sheet, hostile);
    honest_file(sheet, &polynomial, &coins)
}

/// The opening file of a full file that deciding refuses with this number, which is 7, 14,
/// 8 or 9, its roots and paths right; nothing if the full file has no place for that.
/// Damage of 8 and 9 may miss.
pub fn refused_openings(rng: &mut Rng, full: &[u8], number: u32) -> Option<Vec<u8>> {
    let mut damaged = full.to_vec();
    aim(Edition::One, rng, &mut damaged, number).then_some(())?;
    shut(&damaged).ok()
}

/// The sheet with another number of final coins, so that the number of openings is word
/// `place` of a block, if there is such a number of coins.
pub fn number_at(sheet: &[u32], place: usize) -> Option<Vec<u32>> {
    let mut words = sheet.to_vec();
    (1..=48).find_map(|coins| {
        words[6 + sheet[4] as usize] = coins;
        let front = Layout::of_openings(&known(&words)?, 0);
        let number = front.range(Part::OpeningCount).start;
        (number % BLOCK_WORDS == place).then(|| words.clone())
    })
}

/// The refusals of an opening file that damage aims at, in the order of their tests.
pub const OPENING_REFUSALS: [u32; 10] = [3, 4, 5, 6, 7, 14, 18, 17, 8, 9];

/// Damages an opening file so that it is refused with this number, its checks right.
/// False, with the file as before, if the file has no place for that; damage of 8 and 9
/// may miss.
pub fn aim_openings(rng: &mut Rng, file: &mut Vec<u8>, number: u32) -> bool {
    let own = match number {
        4 | 6 => rng.one_in(2),
        17 | 18 => true,
        _ => false,
    };
    if own {
        return aim_own(rng, file, number);
    }
    match Target::laid_out(Edition::One, rng, file, layout_of) {
        Some(mut target) => target.aim(number),
        None => false,
    }
}

/// The layout, by the number of openings given, unless the file does not hold as many.
fn layout_of(sheet: &Sheet, file: &[u8]) -> Option<Layout> {
    let front = Layout::of_openings(sheet, 0);
    let words = file.len() / BLOCK_BYTES * BLOCK_WORDS;
    let room = words.checked_sub(front.words())? / opening_words(sheet);
    let count = read_word(file, front.range(Part::OpeningCount).start) as usize;
    (count <= room).then(|| Layout::of_openings(sheet, count))
}

/// Damage of the openings alone.
fn aim_own(rng: &mut Rng, file: &mut Vec<u8>, number: u32) -> bool {
    let Some(mut parts) = Parts::of(file) else {
        return false;
    };
    let hit = match number {
        4 => parts.break_number(rng),
        6 => parts.break_unused(rng),
        17 => parts.break_path(rng),
        _ => parts.break_places(rng),
    };
    if hit {
        *file = parts.file();
    }
    hit
}

/// An opening file taken apart.
pub struct Parts {
    pub sheet: Sheet,
    /// The words before the number of openings.
    pub front: Vec<u32>,
    /// The number that stands there, if it is another than that of the openings.
    pub number: Option<u32>,
    pub openings: Vec<Vec<u32>>,
    /// The words behind the openings.
    pub fill: Vec<u32>,
}

impl Parts {
    /// Of a file whose sheet and number of blocks are right.
    pub fn of(file: &[u8]) -> Option<Parts> {
        if file.len() < BLOCK_BYTES {
            return None;
        }
        let sheet: Vec<u32> = (0..12).map(|word| read_word(file, word)).collect();
        let sheet = known(&sheet)?;
        let layout = layout_of(&sheet, file)?;
        if file.len() != layout.blocks() * BLOCK_BYTES {
            return None;
        }
        let words = 0..layout.blocks() * BLOCK_WORDS;
        let words: Vec<u32> = words.map(|word| read_word(file, word)).collect();
        let number = layout.range(Part::OpeningCount).start;
        let openings = words[number + 1..layout.words()].chunks(opening_words(&sheet));
        Some(Parts {
            front: words[..number].to_vec(),
            number: None,
            openings: openings.map(<[u32]>::to_vec).collect(),
            fill: words[layout.words()..].to_vec(),
            sheet,
        })
    }

    /// The blocks of the parts. Words of the fill stay where there is room for them.
    pub fn file(&self) -> Vec<u8> {
        let number = self.number.unwrap_or(self.openings.len() as u32);
        let mut words = [&self.front[..], &[number], &self.openings.concat()].concat();
        let due = words.len().next_multiple_of(BLOCK_WORDS);
        words.extend(&self.fill);
        words.resize(due, 0);
        to_blocks(&words)
    }

    /// Makes the nodes zero that an opening has no use for.
    pub fn clear_unused(&mut self, q: usize) {
        let unused = self.unused_words(q);
        let from = self.openings[q].len() - unused;
        self.openings[q][from..].fill(0);
    }

    fn unused_words(&self, q: usize) -> usize {
        match self.openings[q][0] as usize {
            table if table <= self.sheet.rounds => HASH_WORDS * table,
            _ => 0,
        }
    }

    /// 4: a number that needs other blocks, now and then the largest.
    fn break_number(&mut self, rng: &mut Rng) -> bool {
        let blocks = self.file().len() / BLOCK_BYTES;
        let count = self.openings.len() as u32;
        let more = (BLOCK_WORDS / opening_words(&self.sheet)) as u32;
        let any = rng.word();
        let numbers = [0, count / 2, count + more, count + 2 * more, any, u32::MAX];
        self.number = Some(rng.pick(&numbers));
        let words = self.number.map_or(0, |number| number as usize) * opening_words(&self.sheet);
        (self.front.len() + 1 + words).div_ceil(BLOCK_WORDS) != blocks
    }

    /// 6: a word of an unused node that is not zero.
    fn break_unused(&mut self, rng: &mut Rng) -> bool {
        let places = 0..self.openings.len();
        let some: Vec<usize> = places.filter(|&q| self.unused_words(q) > 0).collect();
        if some.is_empty() {
            return false;
        }
        let q = rng.pick(&some);
        let (unused, length) = (self.unused_words(q), self.openings[q].len());
        let any = rng.place(unused);
        let word = length - unused + rng.pick(&[0, unused - 1, any, any]);
        self.openings[q][word] = rng.pick(&[1, 1 << 31, u32::MAX]);
        true
    }

    /// 17: one bit of a root or of a node in use is another, or an entry is.
    fn break_path(&mut self, rng: &mut Rng) -> bool {
        if self.openings.is_empty() {
            return false;
        }
        let q = rng.place(self.openings.len());
        let width = self.sheet.width;
        let bit = 1 << rng.below(32);
        let opening = &self.openings[q];
        let (table, used) = (opening[0] as usize, opening.len() - self.unused_words(q));
        if table > self.sheet.rounds {
            return false;
        }
        match rng.below(4) {
            0 => {
                let root = Layout::of_openings(&self.sheet, 0).range(Part::Root(table));
                self.front[root.start + rng.place(HASH_WORDS)] ^= bit;
            }
            1 => {
                let p = self.sheet.field.p;
                let word = 2 + rng.place(width);
                let old = u64::from(self.openings[q][word]);
                self.openings[q][word] = ((old + 1 + rng.below(p - 1)) % p) as u32;
            }
            _ => {
                let first = 2 + width;
                let any = first + rng.place(used - first);
                let word = rng.pick(&[first, used - 1, any, any]);
                self.openings[q][word] ^= bit;
            }
        }
        true
    }

    /// 18: openings missing, doubled, exchanged, one too many, or of another place, such
    /// as in a table above M.
    fn break_places(&mut self, rng: &mut Rng) -> bool {
        let count = self.openings.len();
        if count == 0 {
            return false;
        }
        let any = rng.place(count);
        let q = rng.pick(&[0, count - 1, any, any]);
        let copy = self.openings[q].clone();
        match rng.below(8) {
            0 => {
                self.openings.remove(q);
            }
            1 => self.openings.truncate(q),
            2 => self.openings.insert(q, copy),
            3 => self.openings.push(copy),
            4 => {
                let other = (q + 1 + rng.place(count - 1)) % count;
                // A single one has no other to be exchanged with.
                if other == q {
                    return false;
                }
                self.openings.swap(q, other);
            }
            5 => {
                let above = self.sheet.rounds as u32 + 1;
                self.openings[q][0] = rng.pick(&[above, above + 1, 5 + above, u32::MAX]);
            }
            6 => {
                let table = rng.place(self.sheet.rounds + 1) as u32;
                if self.openings[q][0] == table {
                    return false;
                }
                self.openings[q][0] = table;
                self.clear_unused(q);
            }
            _ => {
                let (point, n0) = (self.openings[q][1], self.sheet.n0 as u32);
                let numbers = [point ^ 1, point.wrapping_add(n0), n0, u32::MAX, !point];
                let other = rng.pick(&numbers);
                self.openings[q][1] = other;
                return other != point;
            }
        }
        true
    }
}

/// Any opening file over up to so many points: a third honest, the rest damaged once or
/// twice, now and then in the full file that it is made of.
pub fn any_openings(rng: &mut Rng, most_n0: u32) -> Vec<u8> {
    let mut sheet = super::sheet_up_to(Edition::One, rng, most_n0);
    if rng.one_in(8) {
        let place = rng.pick(&[0, BLOCK_WORDS - 1]);
        sheet = number_at(&sheet, place).unwrap_or(sheet);
    }
    let hostile = rng.one_in(2);
    let full = honest_full(rng, &sheet, hostile);
    let mut file = shut(&full).unwrap_or_default();
    if rng.one_in(3) {
        return file;
    }
    if rng.one_in(3) {
        let number = rng.pick(&[7, 14, 8, 9]);
        file = refused_openings(rng, &full, number).unwrap_or(file);
    }
    let [one, other] = [(); 2].map(|()| rng.place(OPENING_REFUSALS.len()));
    // The later test is made to fail first, so that what the earlier one needs stands.
    aim_openings(rng, &mut file, OPENING_REFUSALS[one.max(other)]);
    if rng.one_in(2) {
        aim_openings(rng, &mut file, OPENING_REFUSALS[one.min(other)]);
    }
    file
}
