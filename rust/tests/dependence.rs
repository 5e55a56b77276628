//! What a verdict may depend on: of the tables on the places opened alone, and on the order of a round's shift coins or of the final coins in
//! nothing but where a 9 is found, with the reads up to there.

mod common;

use common::{changed, edition, honest, verify, Edition, LARGEST};
use std::collections::BTreeMap;
use std::ops::AddAssign;
use tevrolig::Verdict;
use tevrolig_model as model;
use tevrolig_model::generate::repeats::{self, case_of, fail_late, indices};
use tevrolig_model::generate::{self, Rng};
use tevrolig_model::layout::{Layout, Part, Section};
use tevrolig_model::sheet::Sheet;
use tevrolig_model::stream::read_word;
use tevrolig_model::verify::{opened_in, verify_in, Places};

/// Words of a stream by number, with what they become.
type Changes = Vec<(usize, u32)>;

/// A file that passes reading, with its verdict, which is the model's, and the places that the model opens in it.
struct Subject {
    edition: Edition,
    sheet: Sheet,
    layout: Layout,
    file: Vec<u8>,
    verdict: Verdict,
    opened: Places,
}

/// A word of a table: its number in the stream, the table's number and the point's, and which word of the element there it is.
struct TableWord {
    number: usize,
    place: (usize, usize),
    turn: usize,
}

impl Subject {
    fn new(words: &[u32], file: Vec<u8>, what: &str) -> Subject {
        let edition = edition(words);
        let sheet = Sheet::read(words).unwrap();
        let layout = Layout::new(&sheet);
        let (expected, opened) = opened_in(edition, &file);
        let verdict = verify(edition, &file);
        assert_eq!(verdict.line(), model::line(expected), "{what}");
        assert_eq!(verdict.reads, opened.len() as u64, "{what}");
        Subject {
            edition,
            sheet,
            layout,
            file,
            verdict,
            opened,
        }
    }

    /// Honest or with an 8 or a 9, half of the time with indices that repeat; now and then with a 7 or a 14, for which nothing is opened.
    fn drawn(rng: &mut Rng, words: &[u32], what: &str) -> Subject {
        let edition = edition(words);
        let mut file = if rng.one_in(2) {
            case_of(rng, words).file
        } else {
            let hostile = rng.one_in(4);
            honest(rng, words, hostile)
        };
        match rng.below(16) {
            0 => generate::aim(edition, rng, &mut file, 7),
            1 => generate::aim(edition, rng, &mut file, 14),
            2 => generate::aim(edition, rng, &mut file, 8),
            3 | 4 => generate::aim(edition, rng, &mut file, 9),
            5 | 6 => {
                fail_late(rng, words, &mut file);
                true
            }
            _ => false,
        };
        Subject::new(words, file, what)
    }

    /// All words of all tables.
    fn table_words(&self) -> Vec<TableWord> {
        let mut found = Vec::new();
        for section in &self.layout.sections {
            let Part::Table(table) = section.part else {
                continue;
            };
            for (at, number) in section.words.clone().enumerate() {
                found.push(TableWord {
                    number,
                    place: (table, at / section.width),
                    turn: at % section.width,
                });
            }
        }
        found
    }

    /// Another word in place of this one, which is below p too.
    fn other_word(&self, rng: &mut Rng, word: usize) -> (usize, u32) {
        let p = self.sheet.field.p;
        let any = 1 + rng.below(p - 1);
        let other = u64::from(read_word(&self.file, word)) + rng.pick(&[1, any]);
        (word, (other % p) as u32)
    }

    /// Other words in place of all at places that are not opened, and of all at places that are.
    fn other_words(&self, rng: &mut Rng) -> [Changes; 2] {
        let (inside, outside): (Vec<_>, Vec<_>) = self
            .table_words()
            .into_iter()
            .partition(|word| self.opened.contains(&word.place));
        [outside, inside].map(|words| {
            let numbers = words.iter().map(|word| word.number);
            numbers.map(|word| self.other_word(rng, word)).collect()
        })
    }

    /// The places that all coins lead to, treated or not.
    fn reached(&self, words: &[u32]) -> Places {
        let mut places = Places::new();
        for (i, indices) in indices(words, &self.file).into_iter().enumerate() {
            let (k, stride) = (self.sheet.k[i], self.sheet.indices(i));
            for j in indices {
                places.extend((0..k).map(|m| (i, j as usize + m * stride)));
            }
        }
        places
    }

    /// The lists of shift coins, from round 1 on, and that of the final coins.
    fn lists(&self) -> Vec<Section> {
        let is_list = |part| matches!(part, Part::ShiftIndices(_) | Part::FinalIndices);
        let sections = self.layout.sections.iter().cloned();
        sections.filter(|section| is_list(section.part)).collect()
    }

    /// A list in another order, the other way round or any; nothing if all words stay.
    fn another_order(&self, rng: &mut Rng, list: &Section, any: bool) -> Option<Changes> {
        let words = list.words.clone();
        let coins: Vec<u32> = words.map(|word| read_word(&self.file, word)).collect();
        let mut order = coins.clone();
        order.reverse();
        if any {
            for last in 1..order.len() {
                order.swap(rng.place(last + 1), last);
            }
        }
        (order != coins).then(|| list.words.clone().zip(order).collect())
    }

    /// The archive's verdict of the file with these changes and the checks made right.
    fn verdict_with(&self, changes: &[(usize, u32)]) -> Verdict {
        verify(self.edition, &changed(&self.file, changes))
    }

    /// Tests what changes of the order may do: nothing, but that a 9 may be found at another final coin, where the model finds it too.
    fn keeps(&self, changes: &[(usize, u32)], finals: bool, met: &mut Met, what: &str) {
        let verdict = self.verdict_with(changes);
        if !finals || number(self.verdict) != 9 {
            assert_eq!(verdict, self.verdict, "{what}");
            return;
        }
        assert_eq!(number(verdict), 9, "{what}");
        let expected = verify_in(self.edition, &changed(&self.file, changes));
        assert_eq!(verdict.line(), model::line(expected), "{what}");
        if verdict.outcome != self.verdict.outcome {
            met.count("9 at another place".into());
        }
        if verdict.reads != self.verdict.reads {
            met.count("9 with other reads".into());
        }
    }

    /// Each list in other orders, then all lists at once.
    fn keeps_in_other_orders(&self, rng: &mut Rng, met: &mut Met, what: &str) {
        let number = number(self.verdict);
        for any in [false, true, true] {
            let mut all = Changes::new();
            for list in self.lists() {
                let Some(changes) = self.another_order(rng, &list, any) else {
                    continue;
                };
                let finals = list.part == Part::FinalIndices;
                self.keeps(&changes, finals, met, what);
                let coins = if finals { "final" } else { "shift" };
                met.count(format!("{number}, {coins} coins"));
                all.extend(changes);
            }
            self.keeps(&all, true, met, what);
        }
    }
}

/// The number of a verdict, 0 for accepted.
fn number(verdict: Verdict) -> u32 {
    match verdict.outcome.result() {
        Ok(()) => 0,
        Err(refusal) => refusal.number(),
    }
}

/// How often something was met.
#[derive(Debug, Default)]
struct Met(BTreeMap<String, usize>);

impl Met {
    fn count(&mut self, kind: String) {
        self.0.entry(kind).or_default().add_assign(1);
    }

    fn times(&self, kind: &str) -> usize {
        self.0.get(kind).copied().unwrap_or(0)
    }

    fn is_at_least(&self, least: usize, kind: &str) {
        assert!(self.times(kind) >= least, "{kind}: {self:?}");
    }
}

/// Both editions with each field, and the most rounds of small sheets over it: n0 = 16, where field 0 ends, has no room for two.
fn editions_and_fields() -> impl Iterator<Item = (Edition, u32, usize)> {
    let fields = [(0, 1), (1, 2), (2, 2), (3, 2)];
    let with = move |edition| fields.map(|(field, rounds)| (edition, field, rounds));
    Edition::BOTH.into_iter().flat_map(with)
}

/// Draws of their own for each field.
fn draws(field: u32, seed: u64) -> Rng {
    Rng::new(1_000_000 * u64::from(field) + seed)
}

/// A sheet with so many rounds, and in each and at the end with so many coins or more.
fn sheet(
    edition: Edition,
    rng: &mut Rng,
    field: u32,
    most_n0: u32,
    rounds: usize,
    coins: u32,
) -> Vec<u32> {
    loop {
        let words = generate::sheet_over(edition, rng, field, most_n0);
        let counts = &words[6..=6 + rounds];
        if words[4] == rounds as u32 && counts.iter().all(|&t| t >= coins) {
            return words;
        }
    }
}

/// Every word of every table of small files becomes another: at a place that is not opened nothing changes, though a coin after the refusal may
/// lead there. Most changes of accepted files at places that are opened are seen, in every table and in every word of an element.
#[test]
fn each_table_word() {
    for (edition, field, most_rounds) in editions_and_fields() {
        let (mut met, mut repeated) = (Met::default(), repeats::Met::default());
        for seed in 0..300 {
            let mut rng = draws(field, seed);
            let rounds = seed as usize % (most_rounds + 1);
            let coins = 1 + seed as u32 / 6 % 2;
            let words = sheet(edition, &mut rng, field, 32, rounds, coins);
            let what = format!("{edition:?}, field {field}, seed {seed}");
            let subject = Subject::drawn(&mut rng, &words, &what);
            let number = number(subject.verdict);
            let reached = subject.reached(&words);
            met.count(format!("{number} in {rounds} rounds"));
            let outcome = verify_in(edition, &subject.file).outcome;
            repeated.count(&words, &subject.file, outcome);
            for word in subject.table_words() {
                let (place, turn) = (word.place, word.turn);
                let change = subject.other_word(&mut rng, word.number);
                let verdict = subject.verdict_with(&[change]);
                if !subject.opened.contains(&place) {
                    assert_eq!(verdict, subject.verdict, "{what}: {place:?}");
                    met.count(format!("{number}, kept"));
                    if reached.contains(&place) {
                        met.count(format!("{number}, kept at a later coin"));
                    }
                } else if verdict != subject.verdict {
                    met.count(format!("{number}, seen"));
                    met.count(format!("{number}, seen in table {}, word {turn}", place.0));
                } else {
                    met.count(format!("{number}, not seen"));
                }
            }
        }
        for rounds in 0..=most_rounds {
            met.is_at_least(25, &format!("0 in {rounds} rounds"));
            met.is_at_least(15, &format!("9 in {rounds} rounds"));
            for turn in 0..if field == 3 { 4 } else { 1 } {
                met.is_at_least(100, &format!("0, seen in table {rounds}, word {turn}"));
            }
        }
        for rounds in 1..=most_rounds {
            met.is_at_least(10, &format!("8 in {rounds} rounds"));
        }
        for number in [7, 14, 8, 9] {
            met.is_at_least(10, &format!("{number}, kept at a later coin"));
        }
        met.is_at_least(1000, "0, kept");
        met.is_at_least(3 * met.times("0, not seen"), "0, seen");
        for kind in [
            "accepted, a shift index",
            "accepted, a final index",
            "8, in its round",
            "9, in a round",
            "9, before the failing coin",
        ] {
            assert!(repeated.0[kind] > 0, "{kind}: {repeated:?}");
        }
    }
}

/// All table words at places that are not opened become others at once: the verdict stays, and the model opens the same places. At places that
/// are opened: of accepted files hardly one stays so.
#[test]
fn all_table_words() {
    for (edition, field, most_rounds) in editions_and_fields() {
        let mut met = Met::default();
        for seed in 0..400 {
            let mut rng = draws(field, seed);
            let rounds = seed as usize % (most_rounds + 1);
            let words = sheet(edition, &mut rng, field, 128, rounds, 1);
            let what = format!("{edition:?}, field {field}, seed {seed}");
            let subject = Subject::drawn(&mut rng, &words, &what);
            let number = number(subject.verdict);
            let [outside, inside] = subject.other_words(&mut rng);
            let other = Subject::new(&words, changed(&subject.file, &outside), &what);
            assert_eq!(other.verdict, subject.verdict, "{what}");
            assert_eq!(other.opened, subject.opened, "{what}");
            if !outside.is_empty() {
                met.count(format!("{number}, kept"));
            }
            let seen = match subject.verdict_with(&inside) == subject.verdict {
                true => "not seen",
                false => "seen",
            };
            met.count(format!("{number}, {seen}"));
        }
        for number in [0, 8, 9] {
            met.is_at_least(30, &format!("{number}, kept"));
        }
        met.is_at_least(20 * met.times("0, not seen"), "0, seen");
    }
}

/// Other orders of one round's shift coins, of the final coins, and of all.
#[test]
fn orders_of_coins() {
    for (edition, field, most_rounds) in editions_and_fields() {
        let mut met = Met::default();
        for seed in 0..600 {
            let mut rng = draws(field, seed);
            let rounds = seed as usize % (most_rounds + 1);
            let words = sheet(edition, &mut rng, field, 64, rounds, 2);
            let what = format!("{edition:?}, field {field}, seed {seed}");
            let subject = Subject::drawn(&mut rng, &words, &what);
            subject.keeps_in_other_orders(&mut rng, &mut met, &what);
        }
        for number in [0, 8, 9] {
            met.is_at_least(100, &format!("{number}, final coins"));
            met.is_at_least(30, &format!("{number}, shift coins"));
        }
        met.is_at_least(100, "9 at another place");
        met.is_at_least(100, "9 with other reads");
    }
}

#[test]
fn the_largest_sheets() {
    let mut met = Met::default();
    for (at, sheet) in LARGEST.into_iter().enumerate() {
        for seed in 0..2 {
            let mut rng = Rng::new(seed);
            let what = format!("largest {at}, seed {seed}");
            let subject = Subject::drawn(&mut rng, sheet, &what);
            let number = number(subject.verdict);
            let [outside, inside] = subject.other_words(&mut rng);
            let kept = subject.verdict_with(&outside);
            assert_eq!(kept, subject.verdict, "{what}");
            if subject.verdict_with(&inside) != subject.verdict {
                met.count(format!("{number}, seen"));
            }
            subject.keeps_in_other_orders(&mut rng, &mut met, &what);
        }
    }
    met.is_at_least(10, "0, seen");
    for number in [0, 9] {
        met.is_at_least(20, &format!("{number}, final coins"));
        met.is_at_least(50, &format!("{number}, shift coins"));
    }
    met.is_at_least(20, "9 at another place");
}
