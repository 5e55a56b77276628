//! Deterministic test data of both editions: sheets, coefficients, coins, honest and
//! damaged files. Where a sheet is given, its number of words tells the edition, and its
//! first word whether elements have one word or four.

pub mod batch;
pub mod convert;
mod damage;
pub mod device;
pub mod equal_outs;
pub mod nearest;
pub mod openings;
mod random;
pub mod repeats;
mod sheets;

pub use crate::stream::write_checks as rewrite_checks;
pub use damage::{aim, damage, REFUSALS};
pub use random::Rng;
pub use sheets::{
    differing_at, fault, sheet, sheet_of_one_word, sheet_over, sheet_up_to, test_order, two_faults,
};

use crate::domain::Subgroup;
use crate::elements::{Elements, Four};
use crate::layout::{Layout, Part, Section};
use crate::prove::{prove_in, Answer};
use crate::sheet::{Edition, Sheet};
use crate::stream::BLOCK_BYTES;

/// d0 coefficients in words: mostly random, sometimes sparse or all at an end of the
/// range; of four words, sometimes all with the same single one that is not 0.
pub fn coefficients(rng: &mut Rng, sheet: &[u32]) -> Vec<u32> {
    let Some(sheet) = known(sheet) else {
        return Vec::new();
    };
    let p = sheet.field.p;
    let kind = rng.below(16);
    let coefficient = |_| match kind {
        0 => 0,
        1 => p - 1,
        2 | 3 if !rng.one_in(8) => 0,
        _ => rng.below(p),
    };
    let mut words: Vec<u32> = (0..sheet.width * sheet.d0)
        .map(coefficient)
        .map(|c| c as u32)
        .collect();
    if sheet.width > 1 && rng.one_in(8) {
        let kept = rng.place(sheet.width);
        for element in words.chunks_exact_mut(sheet.width) {
            for (at, word) in element.iter_mut().enumerate() {
                *word *= u32::from(at == kept);
            }
        }
    }
    words
}

/// A full list of allowed coins. Hostile coins sit where slips happen: zeros,
/// fold coins at a root, out coins at a shift point or as in the round before,
/// repeated indices, combination coins that are 0 or inverse to a point; and of four
/// words out coins that are a point of the domain in the first word, or the coin before
/// in three.
pub fn coins(rng: &mut Rng, sheet: &[u32], hostile: bool) -> Vec<u32> {
    let Some(sheet) = known(sheet) else {
        return Vec::new();
    };
    let layout = Layout::new(&sheet);
    let mut draw = Draw {
        subgroup: Subgroup::of(&sheet),
        sheet,
        favourite: 0,
        earlier: Vec::new(),
        hostile,
    };
    let mut words = Vec::new();
    for section in layout.coin_sections() {
        let mut coins: Vec<Four> = Vec::new();
        draw.favour(rng, section.part);
        for _ in 0..section.count() {
            coins.push(draw.coin(rng, section, coins.last().copied()));
        }
        for coin in &coins {
            words.extend(coin[..section.width].iter().map(|&word| word as u32));
        }
        if matches!(section.part, Part::OutCoins(_)) {
            draw.earlier = coins;
        }
    }
    words
}

/// What drawing a coin needs to know. A coin has four words here, of which the first
/// ones count.
struct Draw {
    sheet: Sheet,
    subgroup: Subgroup,
    /// The index at whose shift point a round's coins like to meet.
    favourite: usize,
    /// The out coins of the round before. They lie outside its domain, and so outside
    /// the next, which is a part of it.
    earlier: Vec<Four>,
    hostile: bool,
}

impl Draw {
    /// The out coins open a round: its favourite index is drawn with them.
    fn favour(&mut self, rng: &mut Rng, part: Part) {
        if let Part::OutCoins(i) = part {
            self.favourite = rng.place(self.sheet.indices(i - 1));
        }
    }

    fn coin(&self, rng: &mut Rng, section: &Section, before: Option<Four>) -> Four {
        let (part, limit) = (section.part, section.limit);
        if !self.hostile || rng.one_in(4) {
            return self.plain(rng, section, before);
        }
        if section.width > 1 && rng.one_in(3) {
            return self.nearly(rng, section, before);
        }
        let before_number = before.map(|coin| coin[0]);
        let coin = match part {
            Part::FoldCoin(i) => {
                let root = self.some_point(rng, i);
                rng.pick(&[0, 1, limit - 1, root, root])
            }
            Part::OutCoins(i) => {
                let k = self.sheet.k[i - 1];
                let meeting = self.subgroup.shift_point(i - 1, k, self.favourite);
                let earlier = match self.earlier[..] {
                    [] => number(meeting),
                    ref coins => rng.pick(coins),
                };
                let met = [number(0), number(meeting), number(meeting), earlier];
                return match rng.pick(&met) {
                    coin if before == Some(coin) => self.plain(rng, section, before),
                    coin => coin,
                };
            }
            Part::Combination(i) => {
                let inverse = self.sheet.field.div(1, self.some_point(rng, i));
                rng.pick(&[0, inverse, inverse, limit - 1])
            }
            Part::ShiftIndices(_) => {
                let favourite = self.favourite as u64;
                rng.pick(&[0, limit - 1, favourite, before_number.unwrap_or(favourite)])
            }
            _ => rng.pick(&[0, limit - 1, before_number.unwrap_or(0)]),
        };
        number(coin)
    }

    /// Any value in range; an out coin of round i also keeps out of domain i, and is
    /// not the one before it.
    fn plain(&self, rng: &mut Rng, section: &Section, before: Option<Four>) -> Four {
        loop {
            let coin = any_words(rng, section);
            if self.allowed(section, coin, before) {
                return coin;
            }
        }
    }

    /// A coin of four words with a single word that is not 0; an out coin that is a point
    /// of its domain, or the coin before it, but for one word.
    fn nearly(&self, rng: &mut Rng, section: &Section, before: Option<Four>) -> Four {
        loop {
            let at = rng.place(section.width);
            let any = any_words(rng, section);
            let mut coin = match (section.part, before) {
                (Part::OutCoins(_), Some(coin)) if rng.one_in(2) => coin,
                (Part::OutCoins(i), _) => number(self.some_point(rng, i)),
                _ => number(0),
            };
            coin[at] = any[at];
            if self.allowed(section, coin, before) {
                return coin;
            }
        }
    }

    /// Whether a coin in range is allowed after the one before it.
    fn allowed(&self, section: &Section, coin: Four, before: Option<Four>) -> bool {
        let Part::OutCoins(i) = section.part else {
            return true;
        };
        let inside = coin[1..] == [0; 3] && self.subgroup.domain(i).contains(&coin[0]);
        !inside && before != Some(coin)
    }

    fn some_point(&self, rng: &mut Rng, i: usize) -> u64 {
        self.subgroup.point(i, rng.place(self.subgroup.size(i)))
    }
}

/// The coin that is a number, or an index.
fn number(x: u64) -> Four {
    [x, 0, 0, 0]
}

/// Any words in range, as many as a coin of the section has.
fn any_words(rng: &mut Rng, section: &Section) -> Four {
    let mut coin = number(0);
    coin[..section.width].fill_with(|| rng.below(section.limit));
    coin
}

/// The prover's file; empty if the prover refuses.
pub fn honest_file(sheet: &[u32], coefficients: &[u32], coins: &[u32]) -> Vec<u8> {
    let Some(known) = known(sheet) else {
        return Vec::new();
    };
    let mut file = vec![0; Layout::new(&known).blocks() * BLOCK_BYTES];
    match prove_in(known.edition, sheet, coefficients, coins, &mut file) {
        Answer::Done(_) => file,
        Answer::Refused { .. } => Vec::new(),
    }
}

/// One of the words of an element; of a single one there is nothing to draw.
fn word_of_element(rng: &mut Rng, width: usize) -> usize {
    if width == 1 {
        0
    } else {
        rng.place(width)
    }
}

/// Changes one list in three: another length, or another word.
pub fn disturb(rng: &mut Rng, list: &mut Vec<u32>) {
    let at = rng.place(list.len());
    match rng.below(12) {
        0 => list.truncate(at),
        1 => list.push(0),
        2 => list[at] = rng.word(),
        3 => list[at] = list[at].wrapping_add(1),
        _ => {}
    }
}

/// A list that is one too short, one too long, empty, or of any lesser length.
pub fn break_length(rng: &mut Rng, list: &mut Vec<u32>) {
    match rng.below(4) {
        0 => list.clear(),
        1 => list.push(0),
        2 => list.truncate(rng.place(list.len())),
        _ => {
            list.pop();
        }
    }
}

/// A word that is not below the limit.
pub fn too_large(rng: &mut Rng, limit: u64) -> u32 {
    let above = limit + rng.below((1 << 32) - limit);
    rng.pick(&[limit, limit, above, u64::from(u32::MAX)]) as u32
}

/// The sheet of these words, if they are as many as one of an edition and without
/// fault.
pub fn known(words: &[u32]) -> Option<Sheet> {
    Sheet::read_in(Edition::of(words)?, words)?.ok()
}
