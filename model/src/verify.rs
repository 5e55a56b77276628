//! The verifier (document 01, "Verify, prove, encode"), of both editions, with the test
//! for equal out coins, in two steps, with reads as openings, and for elements of one
//! word and of four (document 02, CR 5 to CR 8 and CR 11). What it decides of batches is
//! here too (CR 9); their reading is in `batch`.

use crate::batch;
use crate::domain::Subgroup;
use crate::elements::{Elements, Quartic};
use crate::field::QUARTIC;
use crate::layout::{Layout, Part};
use crate::polynomial::{correction_at, evaluate, interpolate, interpolate_at, Pairs};
use crate::sheet::{Edition, Sheet, SHEET_WORDS};
use crate::stream::{first_wrong_check, read_word, BLOCK_BYTES, BLOCK_WORDS};
use crate::Fault;
use std::collections::BTreeSet;

/// Accepted, or a fault with number and place.
#[derive(Debug, Clone, Copy, PartialEq, Eq)]
pub enum Outcome {
    Accepted,
    Refused { number: u32, place: u64 },
}

/// An outcome and the count of reads: the different table places opened.
#[derive(Debug, Clone, Copy, PartialEq, Eq)]
pub struct Verdict {
    pub outcome: Outcome,
    pub reads: u64,
}

/// Verifies a file of any bytes.
pub fn verify(file: &[u8]) -> Verdict {
    verify_in(Edition::One, file)
}

/// The same for edition 2.
pub fn verify_2(file: &[u8]) -> Verdict {
    verify_in(Edition::Two, file)
}

pub fn verify_in(edition: Edition, file: &[u8]) -> Verdict {
    opened_in(edition, file).0
}

/// The verdict, and the places that the count of reads is of.
pub fn opened_in(edition: Edition, file: &[u8]) -> (Verdict, Places) {
    decide_read(read(edition, file))
}

/// The verdict on a file that reading refused or passed, and its places.
pub(crate) fn decide_read(read: Result<Reading, Fault>) -> (Verdict, Places) {
    match read {
        Ok(reading) => decide(reading),
        Err(fault) => {
            let verdict = Verdict {
                outcome: outcome(Err(fault)),
                reads: 0,
            };
            (verdict, Places::new())
        }
    }
}

/// The tests from 7 on, over the elements that the sheet names.
fn decide(reading: Reading) -> (Verdict, Places) {
    let mut opened = Places::new();
    let decided = match reading.sheet.width {
        Quartic::WIDTH => {
            Transcript::new(QUARTIC, reading).and_then(|transcript| transcript.decide(&mut opened))
        }
        _ => Transcript::new(reading.sheet.field, reading)
            .and_then(|transcript| transcript.decide(&mut opened)),
    };
    let verdict = Verdict {
        outcome: outcome(decided),
        reads: opened.len() as u64,
    };
    (verdict, opened)
}

/// The first of two steps: the tests 1 to 6 alone.
pub fn read_in(edition: Edition, file: &[u8]) -> Outcome {
    outcome(read(edition, file).map(|_| ()))
}

/// The second step, which may be asked of any file: where the first refuses, its refusal
/// and no reads; else what the tests from 7 on say.
pub fn decide_in(edition: Edition, file: &[u8]) -> Verdict {
    if let refused @ Outcome::Refused { .. } = read_in(edition, file) {
        return Verdict {
            outcome: refused,
            reads: 0,
        };
    }
    decide(read(edition, file).expect("a file that was read")).0
}

fn outcome(tested: Result<(), Fault>) -> Outcome {
    match tested {
        Ok(()) => Outcome::Accepted,
        Err(Fault { number, place }) => Outcome::Refused { number, place },
    }
}

/// The line that the program prints for a verdict.
pub fn line(v: Verdict) -> String {
    match v.outcome {
        Outcome::Accepted => format!("accepted 0 0 {}", v.reads),
        Outcome::Refused { number, place } => format!("refused {number} {place} {}", v.reads),
    }
}

/// A file that passed the tests 1 to 6: its stream is without the fill.
pub(crate) struct Reading {
    pub sheet: Sheet,
    pub layout: Layout,
    pub stream: Vec<u32>,
}

/// Tests 1 to 6 in order.
pub(crate) fn read(edition: Edition, file: &[u8]) -> Result<Reading, Fault> {
    let sheet = read_sheet(edition, file)?;
    let layout = Layout::new(&sheet);
    read_body(sheet, layout, file)
}

/// Tests 1 to 3.
pub(crate) fn read_sheet(edition: Edition, file: &[u8]) -> Result<Sheet, Fault> {
    if file.is_empty() || !file.len().is_multiple_of(BLOCK_BYTES) {
        return Err(Fault::new(1, 0));
    }
    if let Some(block) = first_wrong_check(file) {
        return Err(Fault::new(2, block));
    }

    let words: Vec<u32> = (0..edition.sheet_words())
        .map(|word| read_word(file, word))
        .collect();
    let sheet = Sheet::read_in(edition, &words).expect("as many words as the edition has");
    sheet.map_err(|place| Fault::new(3, place))
}

/// Tests 4 to 6, by the layout of a plain file or of a batch.
pub(crate) fn read_body(sheet: Sheet, layout: Layout, file: &[u8]) -> Result<Reading, Fault> {
    if file.len() / BLOCK_BYTES != layout.blocks() {
        return Err(Fault::new(4, layout.blocks()));
    }

    let due = layout.words();
    let mut stream: Vec<u32> = (0..layout.blocks() * BLOCK_WORDS)
        .map(|word| read_word(file, word))
        .collect();
    if let Some(word) = first_out_of_range(&layout, &stream) {
        return Err(Fault::new(5, word));
    }
    if let Some(word) = (due..stream.len()).find(|&word| stream[word] != 0) {
        return Err(Fault::new(6, word));
    }
    stream.truncate(due);
    Ok(Reading {
        sheet,
        layout,
        stream,
    })
}

/// The first word after the sheet that is not below its section's limit.
pub(crate) fn first_out_of_range(layout: &Layout, stream: &[u32]) -> Option<usize> {
    let mut words = layout
        .sections
        .iter()
        .flat_map(|section| section.words.clone().map(|word| (word, section.limit)));
    words
        .find(|&(word, limit)| u64::from(stream[word]) >= limit)
        .map(|(word, _)| word)
}

/// Tests 7 and 14 of the out coins in a stream; the place is the number of a coin's
/// first word. The rounds are all tested for 7 before any is for 14. A coin lies in a
/// domain if it is one of its points, which are numbers.
pub(crate) fn test_out_coins<F: Elements>(
    field: F,
    subgroup: &Subgroup,
    layout: &Layout,
    stream: &[u32],
) -> Result<(), Fault> {
    let coin = |word: usize| field.spelt(&stream[word..word + F::WIDTH]);
    let coins_of_rounds: Vec<(usize, Vec<usize>)> = layout
        .sections
        .iter()
        .filter_map(|section| match section.part {
            Part::OutCoins(i) => Some((i, section.places().collect())),
            _ => None,
        })
        .collect();

    for (i, places) in &coins_of_rounds {
        let points = subgroup.domain(*i).into_iter();
        let domain: BTreeSet<F::Element> = points.map(|x| field.number(x)).collect();
        if let Some(&word) = places.iter().find(|&&word| domain.contains(&coin(word))) {
            return Err(Fault::new(7, word));
        }
    }
    for (_, places) in coins_of_rounds {
        let mut seen = BTreeSet::new();
        if let Some(word) = places.into_iter().find(|&word| !seen.insert(coin(word))) {
            return Err(Fault::new(14, word));
        }
    }
    Ok(())
}

/// Every fold of a table over domain i with coin r: entry j belongs to shift
/// point j, and is the polynomial through the k roots' values, taken at r.
pub fn fold_table<F: Elements>(
    field: F,
    subgroup: &Subgroup,
    i: usize,
    table: &[F::Element],
    k: usize,
    r: F::Element,
) -> Vec<F::Element> {
    let fold = |j: usize| {
        let places = subgroup.root_places(i, k, j);
        let (roots, values): (Vec<F::Element>, Vec<F::Element>) = places
            .map(|place| (field.number(subgroup.point(i, place)), table[place]))
            .unzip();
        interpolate_at(field, &roots, &values, r)
    };
    (0..table.len() / k).map(fold).collect()
}

/// The pairs as a set of points with one value each; none if two values clash.
fn join<E: Ord>(pairs: impl Iterator<Item = (E, E)>) -> Option<Pairs<E>> {
    let mut joined = Pairs::new();
    for (point, value) in pairs {
        match joined.get(&point) {
            Some(before) if *before != value => return None,
            _ => joined.insert(point, value),
        };
    }
    Some(joined)
}

/// Places of the tables, by table number and point number, each once however many
/// coins lead to it.
pub type Places = BTreeSet<(usize, usize)>;

/// The tables of a batch are numbered from here on, apart from those of the rounds.
const BATCH_TABLES: usize = 100;

/// A file that passed the tests 1 to 7 and 14, which use no table word.
struct Transcript<F> {
    field: F,
    sheet: Sheet,
    subgroup: Subgroup,
    layout: Layout,
    stream: Vec<u32>,
}

impl<F: Elements> Transcript<F> {
    /// Tests 7 and 14.
    fn new(field: F, reading: Reading) -> Result<Transcript<F>, Fault> {
        let Reading {
            sheet,
            layout,
            stream,
        } = reading;
        let subgroup = Subgroup::of(&sheet);
        test_out_coins(field, &subgroup, &layout, &stream)?;
        Ok(Transcript {
            field,
            sheet,
            subgroup,
            layout,
            stream,
        })
    }

    /// The elements of a part.
    fn elements(&self, part: Part) -> Vec<F::Element> {
        self.field.list(&self.stream[self.layout.range(part)])
    }

    /// The indices of a part.
    fn indices(&self, part: Part) -> Vec<usize> {
        let words = &self.stream[self.layout.range(part)];
        words.iter().map(|&word| word as usize).collect()
    }

    /// The only element of a part that has one.
    fn coin(&self, part: Part) -> F::Element {
        self.elements(part)[0]
    }

    /// The shift point of index j over domain i, which is a number.
    fn shift_point(&self, i: usize, j: usize) -> F::Element {
        let point = self.subgroup.shift_point(i, self.sheet.k[i], j);
        self.field.number(point)
    }

    /// Tests 8 and 9. The places that a coin leads to are opened when it is treated.
    fn decide(&self, opened: &mut Places) -> Result<(), Fault> {
        // f_i over the whole of domain i, beginning with table 0 or with what a batch
        // has for it.
        let mut f = match self.tables() {
            0 => self.elements(Part::Table(0)),
            count => self.combined(count),
        };
        for i in 1..=self.sheet.rounds {
            // The shift coins of round i fold f_(i-1), which has its own k.
            let folds = self.folds(i - 1, &f);
            let shifts = self.indices(Part::ShiftIndices(i));
            for &j in &shifts {
                opened.extend(self.places(i - 1, j));
            }

            let outs = self.elements(Part::OutCoins(i));
            let replies = self.elements(Part::Replies(i));
            let shift_pair = |&j: &usize| (self.shift_point(i - 1, j), folds[j]);
            let listed = outs.into_iter().zip(replies);
            let pairs = join(listed.chain(shifts.iter().map(shift_pair)));
            f = self.corrected(i, &pairs.ok_or(Fault::new(8, i))?);
        }

        let last = self.sheet.rounds;
        let folds = self.folds(last, &f);
        let polynomial = self.elements(Part::FinalCoefficients);
        for (position, j) in self.indices(Part::FinalIndices).into_iter().enumerate() {
            opened.extend(self.places(last, j));
            let point = self.shift_point(last, j);
            if evaluate(self.field, &polynomial, point) != folds[j] {
                return Err(Fault::new(9, position));
            }
        }
        Ok(())
    }

    /// The places that a coin with index j over domain i leads to: its roots, in table i;
    /// over domain 0 of a batch in each of its tables.
    fn places(&self, i: usize, j: usize) -> impl Iterator<Item = (usize, usize)> {
        let roots = self.subgroup.root_places(i, self.sheet.k[i], j);
        let tables = match (i, self.tables()) {
            (0, count) if count > 0 => (1..=count).map(|m| BATCH_TABLES + m).collect(),
            _ => vec![i],
        };
        roots.flat_map(move |point| tables.clone().into_iter().map(move |table| (table, point)))
    }

    /// The number of tables of a batch; none in a plain file.
    fn tables(&self) -> usize {
        let sections = self.layout.sections.iter();
        sections
            .filter(|section| matches!(section.part, Part::BatchTable(_)))
            .count()
    }

    /// The combination of a batch's tables over domain 0.
    fn combined(&self, count: usize) -> Vec<F::Element> {
        let bounds = &self.stream[SHEET_WORDS + 1..SHEET_WORDS + 1 + count];
        let terms = batch::terms(
            self.field,
            self.sheet.d0,
            bounds,
            self.coin(Part::BatchCoin),
        );
        let mut sums = vec![self.field.number(0); self.sheet.n0];
        for (m, term) in (1..).zip(terms) {
            let table = self.elements(Part::BatchTable(m));
            for ((sum, y), x) in sums.iter_mut().zip(table).zip(self.subgroup.domain(0)) {
                let times = evaluate(self.field, &term, self.field.number(x));
                *sum = self.field.add(*sum, self.field.mul(y, times));
            }
        }
        sums
    }

    /// The folds of f_i by fold coin i.
    fn folds(&self, i: usize, f: &[F::Element]) -> Vec<F::Element> {
        let coin = self.coin(Part::FoldCoin(i));
        fold_table(self.field, &self.subgroup, i, f, self.sheet.k[i], coin)
    }

    /// f_i over domain i: quotient of g_i, times the correction.
    fn corrected(&self, i: usize, pairs: &Pairs<F::Element>) -> Vec<F::Element> {
        let field = self.field;
        let c = self.coin(Part::Combination(i));
        let answer = interpolate(field, pairs);
        let value = |(x, g): (F::Element, F::Element)| {
            let above = field.sub(g, evaluate(field, &answer, x));
            let below = pairs.keys().fold(field.number(1), |product, &a| {
                field.mul(product, field.sub(x, a))
            });
            let quotient = field.div(above, below);
            field.mul(quotient, correction_at(field, c, x, pairs.len()))
        };
        let points = self.subgroup.domain(i).into_iter();
        points
            .map(|x| field.number(x))
            .zip(self.elements(Part::Table(i)))
            .map(value)
            .collect()
    }
}
