//! The honest prover and the encoder (document 01, "Fold, quotient, correction"
//! and "Verify, prove, encode"). The prover is of both editions, and refuses equal out
//! coins; elements have one word or four, and lengths and positions count words
//! (document 02, CR 5, CR 6 and CR 11).

use crate::domain::Subgroup;
use crate::elements::{Elements, Quartic};
use crate::field::{Field, QUARTIC};
use crate::layout::{Layout, Part};
use crate::polynomial::{
    correction, divide, evaluate, fold, interpolate, multiply, subtract, vanishing, Pairs,
};
use crate::sheet::{Edition, Sheet};
use crate::stream::{to_blocks, BLOCK_BYTES, BLOCK_WORDS};
use crate::verify::test_out_coins;
use crate::Fault;

/// Done with the number of blocks or words written, or refused.
#[derive(Debug, Clone, Copy, PartialEq, Eq)]
pub enum Answer {
    Done(u64),
    Refused { number: u32, place: u64 },
}

impl From<Result<usize, Fault>> for Answer {
    fn from(result: Result<usize, Fault>) -> Self {
        match result {
            Ok(size) => Answer::Done(size as u64),
            Err(Fault { number, place }) => Answer::Refused { number, place },
        }
    }
}

/// Writes the honest file for the coefficients and the coins.
pub fn prove(sheet: &[u32], coefficients: &[u32], coins: &[u32], output: &mut [u8]) -> Answer {
    prove_in(Edition::One, sheet, coefficients, coins, output)
}

/// The same for edition 2.
pub fn prove_2(sheet: &[u32], coefficients: &[u32], coins: &[u32], output: &mut [u8]) -> Answer {
    prove_in(Edition::Two, sheet, coefficients, coins, output)
}

pub fn prove_in(
    edition: Edition,
    sheet: &[u32],
    coefficients: &[u32],
    coins: &[u32],
    output: &mut [u8],
) -> Answer {
    let tested = sheet_and_polynomial(edition, sheet, coefficients);
    let written = tested.and_then(|known| {
        let order = Order {
            layout: Layout::new(&known),
            front: sheet,
            coefficients,
            coins,
            bytes: output.len(),
        };
        let stream = match known.width {
            Quartic::WIDTH => {
                let mut request = order.request(QUARTIC, known)?;
                request.run(coefficients);
                request.stream
            }
            _ => {
                let mut request = order.request(known.field, known)?;
                request.run(coefficients);
                request.stream
            }
        };
        Ok(write_blocks(&stream, output))
    });
    written.into()
}

/// Writes a stream's blocks to the front of an output with room for them, and
/// answers how many they are.
pub(crate) fn write_blocks(stream: &[u32], output: &mut [u8]) -> usize {
    let file = to_blocks(stream);
    output[..file.len()].copy_from_slice(&file);
    file.len() / BLOCK_BYTES
}

/// Test 11: room for the blocks of a stream of this many words.
pub(crate) fn test_room(words: usize, output_bytes: usize) -> Result<(), Fault> {
    let blocks = words.div_ceil(BLOCK_WORDS);
    if output_bytes < blocks * BLOCK_BYTES {
        return Err(Fault::new(11, blocks));
    }
    Ok(())
}

/// Writes table 0.
pub fn encode(sheet: &[u32], coefficients: &[u32], output: &mut [u32]) -> Answer {
    let tested = sheet_and_polynomial(Edition::One, sheet, coefficients).and_then(|sheet| {
        let due = sheet.width * sheet.n0;
        test_elements(coefficients, sheet.field.p, due, output.len())?;
        Ok(sheet)
    });
    let written = tested.map(|sheet| {
        let words = table_words(&sheet, coefficients);
        output[..words.len()].copy_from_slice(&words);
        words.len()
    });
    written.into()
}

/// Table 0 in words.
pub(crate) fn table_words(sheet: &Sheet, coefficients: &[u32]) -> Vec<u32> {
    match sheet.width {
        Quartic::WIDTH => table_words_in(QUARTIC, sheet, coefficients),
        _ => table_words_in(sheet.field, sheet, coefficients),
    }
}

fn table_words_in<F: Elements>(field: F, sheet: &Sheet, coefficients: &[u32]) -> Vec<u32> {
    let table = Subgroup::of(sheet).table(field, 0, &field.list(coefficients));
    table.into_iter().flat_map(|x| field.words(x)).collect()
}

/// What prove has when no test failed: the stream holds what stands before its sections,
/// and the coins; the messages are still to be filled in.
pub(crate) struct Request<F> {
    pub field: F,
    pub sheet: Sheet,
    pub subgroup: Subgroup,
    pub layout: Layout,
    pub stream: Vec<u32>,
}

/// The first tests of prove and encode: sheet, then number of coefficients.
fn sheet_and_polynomial(
    edition: Edition,
    sheet: &[u32],
    coefficients: &[u32],
) -> Result<Sheet, Fault> {
    let sheet = test_sheet(edition, sheet)?;
    if coefficients.len() != sheet.width * sheet.d0 {
        return Err(Fault::new(10, 1));
    }
    Ok(sheet)
}

/// The tests of the sheet in an input.
pub(crate) fn test_sheet(edition: Edition, words: &[u32]) -> Result<Sheet, Fault> {
    let sheet = Sheet::read_in(edition, words).ok_or(Fault::new(10, 0))?;
    sheet.map_err(|place| Fault::new(3, place))
}

/// Tests 5 and 11 of an operation that takes elements and writes words: each word below p, and
/// room for the words due.
pub(crate) fn test_elements(words: &[u32], p: u64, due: usize, room: usize) -> Result<(), Fault> {
    if let Some(at) = first_above(words, p) {
        return Err(Fault::new(5, at));
    }
    if room < due {
        return Err(Fault::new(11, due));
    }
    Ok(())
}

/// An order whose sheet and coefficients have passed their first tests: the layout, the
/// words that stand before its sections, and what is to be tested.
pub(crate) struct Order<'a> {
    pub layout: Layout,
    pub front: &'a [u32],
    pub coefficients: &'a [u32],
    pub coins: &'a [u32],
    pub bytes: usize,
}

impl Order<'_> {
    /// The other tests of prove in order.
    pub fn request<F: Elements>(self, field: F, sheet: Sheet) -> Result<Request<F>, Fault> {
        let Order {
            layout,
            front,
            coefficients,
            coins,
            bytes,
        } = self;
        if coins.len() != layout.coins() {
            return Err(Fault::new(10, 2));
        }

        // The coins at their places in the stream; `due` has their word numbers.
        let mut stream = front.to_vec();
        stream.resize(layout.words(), 0);
        let due: Vec<(usize, u64)> = layout
            .coin_sections()
            .flat_map(|section| section.words.clone().map(|word| (word, section.limit)))
            .collect();
        if let Some(at) = first_above(coefficients, sheet.field.p) {
            return Err(Fault::new(5, at));
        }
        for (at, (&coin, (word, limit))) in coins.iter().zip(due).enumerate() {
            if u64::from(coin) >= limit {
                return Err(Fault::new(5, coefficients.len() + at));
            }
            stream[word] = coin;
        }

        let subgroup = Subgroup::of(&sheet);
        test_out_coins(field, &subgroup, &layout, &stream).map_err(|fault| Fault {
            place: layout.coin_position(fault.place as usize) as u64,
            ..fault
        })?;
        test_room(stream.len(), bytes)?;
        Ok(Request {
            field,
            sheet,
            subgroup,
            layout,
            stream,
        })
    }
}

/// The position of the first word that is no element.
fn first_above(words: &[u32], p: u64) -> Option<usize> {
    words.iter().position(|&word| u64::from(word) >= p)
}

/// One round of the honest prover in polynomials.
#[derive(Debug, Clone, PartialEq, Eq)]
pub struct Round<E = u64> {
    /// g_i, of degree below d_i.
    pub polynomial: Vec<E>,
    /// A_i, of degree below |G_i|.
    pub answer: Vec<E>,
    /// (g_i - A_i) / V_i, of degree below d_i - |G_i|.
    pub quotient: Vec<E>,
    /// f_i, of degree below d_i.
    pub corrected: Vec<E>,
}

/// The rounds of the honest prover, for a request without fault whose elements are of
/// one word.
pub fn rounds(sheet: &[u32], coefficients: &[u32], coins: &[u32]) -> Result<Vec<Round>, Fault> {
    let known = sheet_and_polynomial(Edition::One, sheet, coefficients)?;
    assert_eq!(known.width, Field::WIDTH);
    let order = Order {
        layout: Layout::new(&known),
        front: sheet,
        coefficients,
        coins,
        bytes: usize::MAX,
    };
    let request = order.request(known.field, known);
    request.map(|mut request| request.run(coefficients))
}

impl<F: Elements> Request<F> {
    /// The elements of a part.
    pub fn read(&self, part: Part) -> Vec<F::Element> {
        self.field.list(&self.stream[self.layout.range(part)])
    }

    /// Fills a message into the stream.
    pub fn send(&mut self, part: Part, message: &[F::Element]) {
        let words = message.iter().flat_map(|&x| self.field.words(x));
        let words: Vec<u32> = words.collect();
        self.stream[self.layout.range(part)].copy_from_slice(&words);
    }

    /// Sends all messages of a plain run.
    fn run(&mut self, coefficients: &[u32]) -> Vec<Round<F::Element>> {
        let f = self.field.list(coefficients);
        self.send(Part::Table(0), &self.subgroup.table(self.field, 0, &f));
        self.run_from(f)
    }

    /// Sends all messages after fold coin 0, each worked out from the coins before it.
    pub fn run_from(&mut self, mut f: Vec<F::Element>) -> Vec<Round<F::Element>> {
        let field = self.field;
        let mut rounds = Vec::new();
        for i in 1..=self.sheet.rounds {
            let g = self.folded(i - 1, &f);
            self.send(Part::Table(i), &self.subgroup.table(field, i, &g));
            let outs = self.read(Part::OutCoins(i)).into_iter();
            let replies: Vec<F::Element> = outs.map(|a| evaluate(field, &g, a)).collect();
            self.send(Part::Replies(i), &replies);

            let round = self.correct(i, g);
            f.clone_from(&round.corrected);
            rounds.push(round);
        }

        let last = self.folded(self.sheet.rounds, &f);
        self.send(Part::FinalCoefficients, &last);
        rounds
    }

    /// The fold of f_i by k_i and fold coin i.
    fn folded(&self, i: usize, f: &[F::Element]) -> Vec<F::Element> {
        let coin = self.read(Part::FoldCoin(i))[0];
        fold(self.field, f, self.sheet.k[i], coin)
    }

    /// From g_i to f_i by long division; V_i leaves no remainder.
    fn correct(&self, i: usize, g: Vec<F::Element>) -> Round<F::Element> {
        let (field, k) = (self.field, self.sheet.k[i - 1]);
        let outs = self.read(Part::OutCoins(i)).into_iter();
        let shifts = self.stream[self.layout.range(Part::ShiftIndices(i))]
            .iter()
            .map(|&j| field.number(self.subgroup.shift_point(i - 1, k, j as usize)));
        let pairs: Pairs<F::Element> = outs
            .chain(shifts)
            .map(|a| (a, evaluate(field, &g, a)))
            .collect();

        let answer = interpolate(field, &pairs);
        let divisor = vanishing(field, pairs.keys().copied());
        let (quotient, remainder) = divide(field, &subtract(field, &g, &answer), &divisor);
        let zero = field.number(0);
        assert!(remainder.iter().all(|&c| c == zero), "V divides g - A");

        let c = self.read(Part::Combination(i))[0];
        let corrected = multiply(field, &quotient, &correction(field, c, pairs.len()));
        Round {
            polynomial: g,
            answer,
            quotient,
            corrected,
        }
    }
}
