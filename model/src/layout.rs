//! Where everything stands in the word stream (document 01, "The word stream
//! and its blocks"). It begins with a sheet of either edition. An element takes one
//! word or four, an index one (document 02, CR 11). In an opening file a root takes the
//! place of each table, and the openings come last (CR 13).

use crate::sheet::Sheet;
use crate::stream::BLOCK_WORDS;
use crate::tree::HASH_WORDS;
use std::ops::Range;

/// The parts of the stream after the sheet, with the round they belong to; those of a
/// batch that a plain file does not have, with the number of the table, from 1; those of
/// an opening with its number among the openings.
#[derive(Debug, Clone, Copy, PartialEq, Eq)]
pub enum Part {
    BatchTable(usize),
    BatchCoin,
    Table(usize),
    FoldCoin(usize),
    OutCoins(usize),
    Replies(usize),
    Combination(usize),
    ShiftIndices(usize),
    FinalCoefficients,
    FinalIndices,
    Root(usize),
    OpeningCount,
    OpeningNumbers(usize),
    OpeningEntry(usize),
    OpeningNodes(usize),
}

impl Part {
    /// Coins are drawn; all else is a message of the prover.
    pub fn is_coin(self) -> bool {
        matches!(
            self,
            Part::BatchCoin
                | Part::FoldCoin(_)
                | Part::OutCoins(_)
                | Part::Combination(_)
                | Part::ShiftIndices(_)
                | Part::FinalIndices
        )
    }
}

/// A part with the words it takes, how many of them each element or index has, and the
/// limit below which they lie.
#[derive(Debug, Clone)]
pub struct Section {
    pub part: Part,
    pub words: Range<usize>,
    pub width: usize,
    pub limit: u64,
}

impl Section {
    /// The number of its elements or indices.
    pub fn count(&self) -> usize {
        self.words.len() / self.width
    }

    /// The number of the first word of each.
    pub fn places(&self) -> impl Iterator<Item = usize> {
        self.words.clone().step_by(self.width)
    }
}

/// All sections in the stream's order, without gaps from the sheet on.
#[derive(Debug, Clone)]
pub struct Layout {
    pub sections: Vec<Section>,
}

/// A part before it has its place: how many elements or indices it has, the words of
/// each, and their limit.
type Planned = (Part, usize, usize, u64);

fn elements(sheet: &Sheet, part: Part, count: usize) -> Planned {
    (part, count, sheet.width, sheet.field.p)
}

/// Words of which none is out of range.
const ANY_WORD: u64 = 1 << 32;

fn any_words(part: Part, count: usize) -> Planned {
    (part, count, 1, ANY_WORD)
}

/// The words of one opening: table number, point number, entry, and log2 n0 nodes.
pub fn opening_words(sheet: &Sheet) -> usize {
    2 + sheet.width + node_words(sheet)
}

fn node_words(sheet: &Sheet) -> usize {
    HASH_WORDS * sheet.n0.ilog2() as usize
}

/// What plain files and batches have in common: all from fold coin 0 on.
fn from_fold_coin(sheet: &Sheet) -> Vec<Planned> {
    let elements = |part: Part, count: usize| elements(sheet, part, count);
    let indices = |part: Part, i: usize| (part, sheet.t[i], 1, sheet.indices(i) as u64);

    let mut plan = vec![elements(Part::FoldCoin(0), 1)];
    for i in 1..=sheet.rounds {
        plan.extend([
            elements(Part::Table(i), sheet.n(i)),
            elements(Part::OutCoins(i), sheet.outs),
            elements(Part::Replies(i), sheet.outs),
            elements(Part::Combination(i), 1),
            elements(Part::FoldCoin(i), 1),
            indices(Part::ShiftIndices(i), i - 1),
        ]);
    }
    let last = sheet.rounds;
    plan.extend([
        elements(Part::FinalCoefficients, sheet.d[last + 1]),
        indices(Part::FinalIndices, last),
    ]);
    plan
}

impl Layout {
    /// That of a plain file: table 0 stands after the sheet.
    pub fn new(sheet: &Sheet) -> Self {
        let front = vec![elements(sheet, Part::Table(0), sheet.n0)];
        Layout::placed(sheet.edition.sheet_words(), front, sheet)
    }

    /// That of a batch: after the sheet stand the number of tables and their bounds,
    /// which are no section, then the tables and the coin r (document 02, CR 9).
    pub fn of_batch(sheet: &Sheet, count: usize) -> Self {
        let mut front: Vec<Planned> = (1..=count)
            .map(|m| elements(sheet, Part::BatchTable(m), sheet.n0))
            .collect();
        front.push(elements(sheet, Part::BatchCoin, 1));
        Layout::placed(sheet.edition.sheet_words() + 1 + count, front, sheet)
    }

    /// That of an opening file with so many openings: as a plain file's with eight words
    /// for each table, and the number of openings and the openings behind it.
    pub fn of_openings(sheet: &Sheet, count: usize) -> Self {
        let mut plan = vec![any_words(Part::Root(0), HASH_WORDS)];
        plan.extend(from_fold_coin(sheet).into_iter().map(|planned| {
            let Part::Table(i) = planned.0 else {
                return planned;
            };
            any_words(Part::Root(i), HASH_WORDS)
        }));
        plan.push(any_words(Part::OpeningCount, 1));
        for q in 0..count {
            plan.extend([
                any_words(Part::OpeningNumbers(q), 2),
                elements(sheet, Part::OpeningEntry(q), 1),
                any_words(Part::OpeningNodes(q), node_words(sheet)),
            ]);
        }
        Layout::in_order(sheet.edition.sheet_words(), plan)
    }

    fn placed(start: usize, front: Vec<Planned>, sheet: &Sheet) -> Self {
        let plan = front.into_iter().chain(from_fold_coin(sheet));
        Layout::in_order(start, plan)
    }

    fn in_order(mut start: usize, plan: impl IntoIterator<Item = Planned>) -> Self {
        let place = |(part, count, width, limit)| {
            let words = start..start + width * count;
            start = words.end;
            Section {
                part,
                words,
                width,
                limit,
            }
        };
        Layout {
            sections: plan.into_iter().map(place).collect(),
        }
    }

    /// Number of words in the stream, the sheet's included.
    pub fn words(&self) -> usize {
        self.sections.last().map_or(0, |s| s.words.end)
    }

    /// Number of blocks the stream needs.
    pub fn blocks(&self) -> usize {
        self.words().div_ceil(BLOCK_WORDS)
    }

    /// The words of a part; no words if the sheet has no such part.
    pub fn range(&self, part: Part) -> Range<usize> {
        let found = self.sections.iter().find(|s| s.part == part);
        found.map_or(0..0, |s| s.words.clone())
    }

    /// The sections that make up the coin list, in its order.
    pub fn coin_sections(&self) -> impl Iterator<Item = &Section> {
        self.sections.iter().filter(|s| s.part.is_coin())
    }

    /// Number of words of the coins that the sheet makes due.
    pub fn coins(&self) -> usize {
        self.coin_sections().map(|s| s.words.len()).sum()
    }

    /// The position in the coin list of a coin with this word number.
    pub fn coin_position(&self, word: usize) -> usize {
        self.coin_sections()
            .map(|s| word.min(s.words.end).saturating_sub(s.words.start))
            .sum()
    }
}
