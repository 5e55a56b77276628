//! Tables for the nearest polynomial (document 02, CR 14), with what is due of them where the
//! way they were made says it.

use super::{break_length, coefficients, known, too_large, two_faults, word_of_element, Rng};
use crate::domain::Subgroup;
use crate::elements::{Elements, Quartic};
use crate::field::QUARTIC;
use crate::nearest::{most_words, most_wrong};
use crate::polynomial::vanishing;
use crate::prove::table_words;
use crate::sheet::Sheet;
use crate::Fault;

/// What the search for the nearest polynomial is given.
#[derive(Debug, Clone)]
pub struct Case {
    pub sheet: Vec<u32>,
    pub table: Vec<u32>,
    /// Words of the output.
    pub length: usize,
    /// The words written, or the refusal; nothing where only a search says it.
    pub due: Option<Result<Vec<u32>, Fault>>,
}

/// The tests in their order.
#[derive(Debug, Clone, Copy, PartialEq, Eq, PartialOrd, Ord)]
pub enum Test {
    SheetLength,
    Sheet,
    TableLength,
    Entries,
    Output,
    Near,
}

pub const TESTS: [Test; 6] = [
    Test::SheetLength,
    Test::Sheet,
    Test::TableLength,
    Test::Entries,
    Test::Output,
    Test::Near,
];

/// A case of any kind for a sheet without fault, with room for all that may be written.
pub fn case(rng: &mut Rng, sheet: &[u32]) -> Case {
    let most = most_wrong(&known(sheet).expect("a sheet without fault"));
    let some = rng.place(most + 1);
    match rng.below(8) {
        0 => planted(rng, sheet, 0),
        1 | 2 => planted(rng, sheet, some),
        3 => planted(rng, sheet, most),
        4 => planted(rng, sheet, most + 1),
        5 => far(rng, sheet),
        6 => match rng.below(3) {
            0 => halfway(rng, sheet),
            _ => between(rng, sheet),
        },
        _ => noise(rng, sheet),
    }
}

/// A case that fails these tests, and the refusal that counts. Later tests are made to fail
/// first, so that what an earlier one needs stands.
pub fn faulty(rng: &mut Rng, sheet: &[u32], tests: impl Iterator<Item = Test>) -> Case {
    let mut tests: Vec<Test> = tests.collect();
    tests.sort();
    tests.dedup();
    let mut case = match tests.last() {
        Some(Test::Near) => far(rng, sheet),
        _ => case(rng, sheet),
    };
    for &test in tests.iter().rev() {
        case.fail(rng, test);
    }
    case
}

/// The table of a drawn polynomial with so many wrong entries. One too many is not always too
/// many: another polynomial may be near then.
pub fn planted(rng: &mut Rng, sheet: &[u32], wrong: usize) -> Case {
    let places = some_places(rng, sheet[1] as usize, wrong);
    planted_at(rng, sheet, &places)
}

/// The same with each word of a wrong entry wrong, for which a search by words takes longest.
pub fn planted_in_every_word(rng: &mut Rng, sheet: &[u32], wrong: usize) -> Case {
    let known = known(sheet).expect("a sheet without fault");
    let (p, width) = (known.field.p, known.width);
    let f = coefficients(rng, sheet);
    let mut table = table_words(&known, &f);
    let places = some_places(rng, known.n0, wrong);
    for &place in &places {
        for word in &mut table[width * place..width * (place + 1)] {
            *word = ((u64::from(*word) + 1) % p) as u32;
        }
    }
    let due = reported(f, &places);
    of_table(&known, sheet, table, Some(Ok(due)))
}

/// The same with these points wrong, in rising order.
pub fn planted_at(rng: &mut Rng, sheet: &[u32], places: &[usize]) -> Case {
    let f = coefficients(rng, sheet);
    spoiled_table(rng, sheet, f, places)
}

/// The table of this polynomial with these points wrong.
pub fn spoiled_table(rng: &mut Rng, sheet: &[u32], f: Vec<u32>, places: &[usize]) -> Case {
    let known = known(sheet).expect("a sheet without fault");
    let mut table = table_words(&known, &f);
    spoil(rng, &known, &mut table, places);
    let near = places.len() <= most_wrong(&known);
    let due = near.then(|| Ok(reported(f, places)));
    of_table(&known, sheet, table, due)
}

/// Other entries at these places; in field 3 all with the same word changed, or each with any.
fn spoil(rng: &mut Rng, sheet: &Sheet, table: &mut [u32], places: &[usize]) {
    let (p, width) = (sheet.field.p, sheet.width);
    let same = (width > 1 && rng.one_in(2)).then(|| rng.place(width));
    for &place in places {
        let entry = &mut table[width * place..width * (place + 1)];
        let sure = same.unwrap_or_else(|| word_of_element(rng, width));
        for (at, word) in entry.iter_mut().enumerate() {
            if at == sure || same.is_none() && rng.one_in(2) {
                let more = 1 + rng.below(p - 1);
                *word = ((u64::from(*word) + more) % p) as u32;
            }
        }
    }
}

/// What is written for a polynomial and the points where it differs.
fn reported(mut f: Vec<u32>, places: &[usize]) -> Vec<u32> {
    f.push(places.len() as u32);
    f.extend(places.iter().map(|&place| place as u32));
    f
}

/// A table that nothing is near to: that of a polynomial of degree d0 + j, with e wrong entries,
/// where j + e is below the bound. Before they are spoiled it agrees with a polynomial of degree
/// below d0 in at most d0 + j points.
pub fn far(rng: &mut Rng, sheet: &[u32]) -> Case {
    let known = known(sheet).expect("a sheet without fault");
    let (p, width, most) = (known.field.p, known.width, most_wrong(&known));
    let any = rng.place(most);
    let higher = rng.pick(&[0, any]);
    let wrong = rng.place(most - higher);
    let mut f = coefficients(rng, sheet);
    f.resize(width * (known.d0 + higher), 0);
    // The top coefficient is not 0; of four words one may be the only such.
    let sure = word_of_element(rng, width);
    let others = rng.pick(&[0, p - 1]);
    f.extend((0..width).map(|at| {
        let word = if at == sure { p - 1 } else { others };
        (rng.below(word) + u64::from(at == sure)) as u32
    }));
    let mut table = table_words(&known, &f);
    let places = some_places(rng, known.n0, wrong);
    spoil(rng, &known, &mut table, &places);
    of_table(&known, sheet, table, Some(Err(Fault::new(19, 0))))
}

/// Between two polynomials, which agree in d0 - 1 points: of the other points the table has one
/// less from the first, and so the second is near, with as many wrong points as there may be.
pub fn between(rng: &mut Rng, sheet: &[u32]) -> Case {
    between_sharing(rng, sheet, 1)
}

/// Halfway between two polynomials, which agree in d0 - 2 points: each has one wrong point more
/// than there may be.
pub fn halfway(rng: &mut Rng, sheet: &[u32]) -> Case {
    let case = between_sharing(rng, sheet, 2);
    Case { due: None, ..case }
}

/// Between two polynomials that agree in so many points fewer than d0.
fn between_sharing(rng: &mut Rng, sheet: &[u32], fewer: usize) -> Case {
    let known = known(sheet).expect("a sheet without fault");
    match known.width {
        Quartic::WIDTH => between_in(QUARTIC, rng, sheet, &known, fewer),
        _ => between_in(known.field, rng, sheet, &known, fewer),
    }
}

fn between_in<F: Elements>(
    field: F,
    rng: &mut Rng,
    words: &[u32],
    sheet: &Sheet,
    fewer: usize,
) -> Case {
    let subgroup = Subgroup::of(sheet);
    let mut shared = shuffled(rng, sheet.n0);
    let mut different = shared.split_off(sheet.d0 - fewer);
    let roots = shared.iter().map(|&j| field.number(subgroup.point(0, j)));
    let mut apart = vanishing(field, roots);
    apart.resize(sheet.d0, field.number(0));
    let factor = [(); 4].map(|()| 1 + rng.below(sheet.field.p - 1) as u32);
    let factor = field.spelt(&factor[..F::WIDTH]);
    let second = coefficients(rng, words);
    let coefficients = field.list(&second);
    let first: Vec<F::Element> = apart
        .into_iter()
        .zip(&coefficients)
        .map(|(v, &c)| field.add(c, field.mul(factor, v)))
        .collect();
    let first = subgroup.table(field, 0, &first);
    let mut table = subgroup.table(field, 0, &coefficients);
    different.truncate(different.len() / 2);
    different.sort_unstable();
    for &j in &different {
        table[j] = first[j];
    }
    let table = table.into_iter().flat_map(|x| field.words(x)).collect();
    let due = reported(second, &different);
    of_table(sheet, words, table, Some(Ok(due)))
}

/// Any elements.
pub fn noise(rng: &mut Rng, sheet: &[u32]) -> Case {
    let known = known(sheet).expect("a sheet without fault");
    let words = known.width * known.n0;
    let table = (0..words).map(|_| rng.below(known.field.p) as u32);
    of_table(&known, sheet, table.collect(), None)
}

fn of_table(
    known: &Sheet,
    sheet: &[u32],
    table: Vec<u32>,
    due: Option<Result<Vec<u32>, Fault>>,
) -> Case {
    Case {
        sheet: sheet.to_vec(),
        table,
        length: most_words(known),
        due,
    }
}

/// So many of n places, in rising order: any, or every so many-th from one on.
pub fn some_places(rng: &mut Rng, n: usize, count: usize) -> Vec<usize> {
    let mut places = if rng.one_in(3) {
        let (start, step) = (rng.place(n), rng.pick(&[1, 1, 2, 4]));
        let turns = (0..step).flat_map(|turn| (turn..n).step_by(step));
        turns.map(|place| (start + place) % n).collect()
    } else {
        shuffled(rng, n)
    };
    places.truncate(count);
    places.sort_unstable();
    places
}

/// The numbers below n in any order.
fn shuffled(rng: &mut Rng, n: usize) -> Vec<usize> {
    let mut order: Vec<usize> = (0..n).collect();
    for at in 0..n {
        order.swap(at, at + rng.place(n - at));
    }
    order
}

impl Case {
    /// Makes the case fail a test; what comes before it in the order was not made to fail yet.
    fn fail(&mut self, rng: &mut Rng, test: Test) {
        let fault = match test {
            Test::SheetLength => {
                break_length(rng, &mut self.sheet);
                (10, 0)
            }
            Test::Sheet => {
                let faults = two_faults(rng, &self.sheet);
                for (at, word) in faults.into_iter().rev() {
                    self.sheet[at] = word;
                }
                (3, faults[0].0)
            }
            Test::TableLength => {
                break_length(rng, &mut self.table);
                (10, 1)
            }
            Test::Entries => {
                let known = known(&self.sheet).expect("a sheet without fault");
                let words = self.table.len();
                let (at, later) = (rng.place(words), rng.place(words));
                for at in [at, at.max(later)] {
                    self.table[at] = too_large(rng, known.field.p);
                }
                (5, at)
            }
            Test::Output => {
                let due = most_words(&known(&self.sheet).expect("a sheet without fault"));
                self.length = rng.pick(&[0, due / 2, due - 1, due - 1]);
                (11, due)
            }
            Test::Near => (19, 0),
        };
        self.due = Some(Err(Fault::new(fault.0, fault.1)));
    }
}
