//! Damage done to a file on purpose, each kind aimed at one refusal.

use super::sheets::any_fault;
use super::{rewrite_checks, word_of_element, Rng};
use crate::domain::Subgroup;
use crate::layout::{Layout, Part, Section};
use crate::sheet::{Edition, Sheet};
use crate::stream::{read_word, write_word, BLOCK_BYTES, BLOCK_WORDS};

/// The refusals of verify, in the order in which their tests are made.
pub const REFUSALS: [u32; 10] = [1, 2, 3, 4, 5, 6, 7, 14, 8, 9];

/// Damages a file of an edition; answers the refusal it aimed at, or nothing if it
/// did not aim (the file may then even be as good as before). Damage of all kinds but
/// 8 and 9 always hits an honest file; a small field may let these two miss.
pub fn damage(edition: Edition, rng: &mut Rng, file: &mut Vec<u8>) -> Option<u32> {
    let number = REFUSALS.get(rng.place(REFUSALS.len() + 1)).copied();
    let aimed = number.filter(|&number| aim(edition, rng, file, number));
    if aimed.is_none() {
        noise(rng, file);
    }
    aimed
}

/// Damages a file so that it is refused with this number. False, with the file
/// as before, if the file has no place for that.
pub fn aim(edition: Edition, rng: &mut Rng, file: &mut Vec<u8>, number: u32) -> bool {
    match number {
        1 => return break_length(rng, file),
        2 => return break_check(rng, file),
        _ => {}
    }
    let Some(mut target) = Target::new(edition, rng, file) else {
        return false;
    };
    target.aim(number)
}

/// 1: a length that is no multiple of 512; now and then an empty file.
fn break_length(rng: &mut Rng, file: &mut Vec<u8>) -> bool {
    let odd = 1 + rng.place(BLOCK_BYTES - 1);
    let odd = rng.pick(&[1, 4, 508, BLOCK_BYTES - 1, odd]);
    let blocks = file.len() / BLOCK_BYTES;
    match rng.below(8) {
        0 => file.clear(),
        1..=3 if blocks > 0 => file.truncate(blocks * BLOCK_BYTES - odd),
        _ => file.resize(blocks * BLOCK_BYTES + odd, 0),
    }
    true
}

/// 2: one wrong word in some block, or a block too many with a wrong check.
fn break_check(rng: &mut Rng, file: &mut Vec<u8>) -> bool {
    if file.is_empty() || !file.len().is_multiple_of(BLOCK_BYTES) {
        return false;
    }
    if rng.one_in(8) {
        // An all-zero block b has the check b + 1, not 0.
        file.resize(file.len() + BLOCK_BYTES, 0);
        return true;
    }
    // Any word of the file, or the check word at the end of that word's block.
    let word = rng.place(file.len() / 4);
    let word = rng.pick(&[word, word / 128 * 128 + BLOCK_WORDS]);
    // A difference below 2^24 cannot be a multiple of the check's modulus.
    let byte = 4 * word + rng.place(3);
    file[byte] ^= 1 + rng.below(255) as u8;
    true
}

/// Changes that aim at nothing.
fn noise(rng: &mut Rng, file: &mut Vec<u8>) {
    if file.len() < BLOCK_BYTES || rng.one_in(16) {
        let blocks = 1 + rng.place(2);
        *file = (0..blocks * BLOCK_BYTES)
            .map(|_| rng.bits() as u8)
            .collect();
    }
    let words = file.len() / BLOCK_BYTES * BLOCK_WORDS;
    let (here, there) = (rng.place(words), rng.place(words));
    match rng.below(5) {
        // Words that differ by the modulus have the same check.
        0 => {
            let shifted = read_word(file, here).wrapping_add(4294967291);
            write_word(file, here, shifted);
            return;
        }
        1 => {
            let (a, b) = (read_word(file, here), read_word(file, there));
            write_word(file, here, b);
            write_word(file, there, a);
        }
        2 => {
            let word = rng.word();
            write_word(file, here, word);
        }
        _ => {
            let near = read_word(file, here).wrapping_add(rng.below(5) as u32);
            write_word(file, here, near.wrapping_sub(2));
        }
    }
    rewrite_checks(file);
}

/// A file whose sheet and length are right, and in a batch its number of tables, in an
/// opening file that of its openings.
pub(super) struct Target<'a> {
    pub(super) rng: &'a mut Rng,
    file: &'a mut Vec<u8>,
    words: Vec<u32>,
    pub(super) sheet: Sheet,
    layout: Layout,
}

impl<'a> Target<'a> {
    fn new(edition: Edition, rng: &'a mut Rng, file: &'a mut Vec<u8>) -> Option<Self> {
        Target::laid_out(edition, rng, file, |sheet, _| Some(Layout::new(sheet)))
    }

    /// A file whose layout follows from its sheet, and in a batch or an opening file from
    /// the file too.
    pub(super) fn laid_out(
        edition: Edition,
        rng: &'a mut Rng,
        file: &'a mut Vec<u8>,
        layout: impl FnOnce(&Sheet, &[u8]) -> Option<Layout>,
    ) -> Option<Self> {
        if file.len() < BLOCK_BYTES {
            return None;
        }
        let words = 0..edition.sheet_words();
        let words: Vec<u32> = words.map(|word| read_word(file, word)).collect();
        let sheet = Sheet::read_in(edition, &words)?.ok()?;
        let layout = layout(&sheet, file)?;
        (file.len() == layout.blocks() * BLOCK_BYTES).then_some(Target {
            rng,
            file,
            words,
            sheet,
            layout,
        })
    }

    /// Damages the file so that it is refused with this number from 3 on, its checks right.
    pub(super) fn aim(&mut self, number: u32) -> bool {
        let hit = match number {
            3 => self.break_sheet(),
            4 => self.break_block_count(),
            5 => self.break_range(),
            6 => self.break_fill(),
            7 => self.move_out_coin_into_domain(),
            8 => self.make_clash(),
            9 => self.break_comparison(),
            14 => self.make_out_coins_equal(),
            _ => false,
        };
        if hit {
            rewrite_checks(self.file);
        }
        hit
    }

    /// The number of tables that a batch has in the place of table 0.
    pub(super) fn tables(&self) -> usize {
        let tables = self.layout.sections.iter();
        let of_batch = |section: &&Section| matches!(section.part, Part::BatchTable(_));
        tables.filter(of_batch).count()
    }

    /// Another word in the place of one, with the checks made right.
    pub(super) fn replace(&mut self, word: usize, value: u32) {
        self.write(word, u64::from(value));
        rewrite_checks(self.file);
    }

    fn write(&mut self, word: usize, value: u64) {
        write_word(self.file, word, value as u32);
    }

    /// A word of an element other than the one at this place.
    fn other_element(&mut self, word: usize) -> u64 {
        let p = self.sheet.field.p;
        let old = u64::from(read_word(self.file, word));
        (old + 1 + self.rng.below(p - 1)) % p
    }

    /// Writes a number as an element.
    fn write_number(&mut self, word: usize, value: u64) {
        self.write(word, value);
        for later in 1..self.sheet.width {
            self.write(word + later, 0);
        }
    }

    /// The words of the element that begins at this one.
    fn element(&self, word: usize) -> Vec<u32> {
        let words = word..word + self.sheet.width;
        words.map(|word| read_word(self.file, word)).collect()
    }

    /// Copies an element.
    fn copy(&mut self, from: usize, to: usize) {
        for (at, value) in self.element(from).into_iter().enumerate() {
            self.write(to + at, u64::from(value));
        }
    }

    /// Makes another element of one, in a single word of it.
    fn change(&mut self, word: usize) {
        let word = word + word_of_element(self.rng, self.sheet.width);
        let value = self.other_element(word);
        self.write(word, value);
    }

    /// The number of the first word of an element of a part.
    fn some_element(&mut self, part: Part) -> usize {
        let words = self.layout.range(part);
        let width = self.sheet.width;
        words.start + width * self.rng.place(words.len() / width)
    }

    /// The word number of one word of a part.
    fn some_word(&mut self, part: Part) -> usize {
        let words = self.layout.range(part);
        words.start + self.rng.place(words.len())
    }

    /// One index of a part over domain i, brought into range if damaged before.
    fn some_index(&mut self, part: Part, i: usize) -> usize {
        let word = self.some_word(part);
        read_word(self.file, word) as usize % self.sheet.indices(i)
    }

    /// The table of level i, or one of those that a batch has in its place; of a single
    /// one there is nothing to draw.
    fn some_table(&mut self, i: usize) -> Part {
        let parts = self.layout.sections.iter().map(|section| section.part);
        let of_level = |part: &Part| match *part {
            Part::Table(j) => j == i,
            Part::BatchTable(_) => i == 0,
            _ => false,
        };
        let tables: Vec<Part> = parts.filter(of_level).collect();
        match tables[..] {
            [table] => table,
            _ => self.rng.pick(&tables),
        }
    }

    /// One of the rounds 1 to M, if there is one.
    fn some_round(&mut self) -> Option<usize> {
        let rounds = self.sheet.rounds;
        (rounds > 0).then(|| 1 + self.rng.place(rounds))
    }

    fn break_sheet(&mut self) -> bool {
        let (place, word) = any_fault(self.rng, &self.words);
        self.write(place, u64::from(word));
        true
    }

    fn break_block_count(&mut self) -> bool {
        let blocks = self.layout.blocks();
        let fewer = blocks > 1 && self.rng.one_in(2);
        let changed = if fewer {
            1 + self.rng.place(blocks - 1)
        } else {
            blocks + 1 + self.rng.place(8) / 7
        };
        self.file.resize(changed * BLOCK_BYTES, 0);
        true
    }

    fn break_range(&mut self) -> bool {
        // Of some sections no word is out of range.
        let sections = self.layout.sections.iter();
        let tested: Vec<&Section> = sections.filter(|s| s.limit < 1 << 32).collect();
        let section = tested[self.rng.place(tested.len())].clone();
        let word = self.some_word(section.part);
        let above = section.limit + self.rng.below((1 << 32) - section.limit);
        let p = self.sheet.field.p;
        let values = [section.limit, section.limit, p, above, u64::from(u32::MAX)];
        let value = self.rng.pick(&values);
        self.write(word, value);
        true
    }

    fn break_fill(&mut self) -> bool {
        let fill = self.layout.words()..self.layout.blocks() * BLOCK_WORDS;
        if fill.is_empty() {
            return false;
        }
        let any = fill.start + self.rng.place(fill.len());
        let word = self.rng.pick(&[fill.start, fill.end - 1, any, any]);
        let value = self.rng.pick(&[1, 16, u64::from(u32::MAX)]);
        self.write(word, value);
        true
    }

    fn move_out_coin_into_domain(&mut self) -> bool {
        let Some(i) = self.some_round() else {
            return false;
        };
        let point = Subgroup::of(&self.sheet).point(i, self.rng.place(self.sheet.n(i)));
        let word = self.some_element(Part::OutCoins(i));
        self.write_number(word, point);
        true
    }

    /// One of two out coins of a round becomes the other, half of the time with its
    /// reply, else with another.
    fn make_out_coins_equal(&mut self) -> bool {
        let Some(i) = self.some_round() else {
            return false;
        };
        if self.sheet.outs < 2 {
            return false;
        }
        let [outs, replies] =
            [Part::OutCoins(i), Part::Replies(i)].map(|part| self.layout.range(part).start);
        let kept = self.sheet.width * self.rng.place(2);
        let other = self.sheet.width - kept;
        self.copy(outs + kept, outs + other);
        self.copy(replies + kept, replies + other);
        if !self.rng.one_in(2) {
            self.change(replies + other);
        }
        true
    }

    /// Two equal points, an out coin and a shift point. The reply is changed to another
    /// element, which rarely is the right one. Where an out coin is at the shift point
    /// already, it is taken, as two equal out coins would be another fault.
    fn make_clash(&mut self) -> bool {
        let Some(i) = self.some_round() else {
            return false;
        };
        let outs = self.layout.range(Part::OutCoins(i));
        let index = self.some_index(Part::ShiftIndices(i), i - 1);
        let k = self.sheet.k[i - 1];
        let point = Subgroup::of(&self.sheet).shift_point(i - 1, k, index);
        let mut number = vec![0; self.sheet.width];
        number[0] = point as u32;
        let mut places = outs.clone().step_by(self.sheet.width);
        let word = match places.find(|&word| self.element(word) == number) {
            Some(word) => word,
            None => self.some_element(Part::OutCoins(i)),
        };
        self.write_number(word, point);
        // The replies follow the out coins.
        self.change(word + outs.len());
        true
    }

    /// Half of the time a table word under a final index, so that the comparison
    /// fails late; otherwise a word that most comparisons hang on, which is the only way
    /// in an opening file.
    fn break_comparison(&mut self) -> bool {
        let last = self.sheet.rounds;
        let shut = self.layout.sections[0].part == Part::Root(0);
        let word = if !shut && self.rng.one_in(2) {
            let index = self.some_index(Part::FinalIndices, last);
            let m = self.rng.place(self.sheet.k[last]);
            let stride = self.sheet.indices(last);
            let entry = index + m * stride;
            let word = word_of_element(self.rng, self.sheet.width);
            let table = self.some_table(last);
            self.layout.range(table).start + self.sheet.width * entry + word
        } else {
            let mut parts = vec![Part::FinalCoefficients, Part::FoldCoin(last)];
            if let Some(i) = self.some_round() {
                parts.extend([Part::Combination(i), Part::Replies(i)]);
                if !shut {
                    parts.push(Part::Table(i));
                }
            }
            let part = self.rng.pick(&parts);
            self.some_word(part)
        };
        let value = self.other_element(word);
        self.write(word, value);
        true
    }
}
