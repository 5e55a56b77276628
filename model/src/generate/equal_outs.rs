//! Equal out coins made on purpose (document 02, CR 6), in the prover's input and
//! in a file, with the refusal that they are made for.

use super::{
    aim, coefficients, coins, honest_file, rewrite_checks, sheet_up_to, word_of_element, Rng,
};
use crate::domain::Subgroup;
use crate::field::Field;
use crate::layout::{Layout, Part};
use crate::load::{Generator, ProverInput};
use crate::sheet::{Edition, Sheet};
use crate::stream::{read_word, to_blocks, write_word};

/// An input of the prover and a file with the same out coins, of which those of a round
/// or more are equal.
#[derive(Debug, Clone)]
pub struct Case {
    pub sheet: Vec<u32>,
    pub coefficients: Vec<u32>,
    pub coins: Vec<u32>,
    pub file: Vec<u8>,
    /// The refusal due: 14, or 7 where an out coin lies in its domain.
    pub number: u32,
    /// Its place in the file.
    pub word: usize,
    /// Its place in the coins.
    pub position: usize,
    /// The first round with equal coins.
    pub round: usize,
    /// Whether the replies of this round are equal too.
    pub replies_agree: bool,
    /// The numbers of the other faults that were made: 7, 8 and 9.
    pub faults: Vec<u32>,
    /// Whether the file would be accepted if equal out coins were allowed; of another
    /// one this is not known.
    pub honest: bool,
}

/// A case whose sheet is drawn; one in eight is honest.
pub fn case(edition: Edition, rng: &mut Rng, most_n0: u32) -> Case {
    let words = loop {
        let words = sheet_up_to(edition, rng, most_n0);
        if words[4] > 0 && words[5] == 2 {
            break words;
        }
    };
    if rng.one_in(8) {
        return honest_case_of(rng, &words);
    }
    case_of(rng, &words)
}

/// An honest case of such a sheet as below: the honest file of a sheet with one out coin
/// in each round, with each out coin and each reply twice.
pub fn honest_case_of(rng: &mut Rng, words: &[u32]) -> Case {
    let mut single = words.to_vec();
    single[5] = 1;
    let coefficients = coefficients(rng, &single);
    let hostile = rng.one_in(2);
    let given = coins(rng, &single, hostile);
    let file = honest_file(&single, &coefficients, &given);

    let layout = Layout::new(&Sheet::read(&single).expect("fewer coins keep the rules"));
    let (mut stream, mut coins) = (words.to_vec(), Vec::new());
    for section in layout.sections {
        let mut part: Vec<u32> = section.words.map(|word| read_word(&file, word)).collect();
        if matches!(section.part, Part::OutCoins(_) | Part::Replies(_)) {
            part = part.repeat(2);
        }
        stream.extend(&part);
        if section.part.is_coin() {
            coins.extend(part);
        }
    }
    let sheet = Sheet::read(words).expect("a sheet without fault");
    let layout = Layout::new(&sheet);
    let [_, word] = pair(&sheet, &layout, 1);
    Case {
        sheet: words.to_vec(),
        coefficients,
        coins,
        file: to_blocks(&stream),
        number: 14,
        word,
        position: layout.coin_position(word),
        round: 1,
        replies_agree: true,
        faults: Vec::new(),
        honest: true,
    }
}

/// A case of a sheet without fault that has rounds with two out coins.
pub fn case_of(rng: &mut Rng, words: &[u32]) -> Case {
    let sheet = Sheet::read(words).expect("a sheet without fault");
    let layout = Layout::new(&sheet);
    let coefficients = coefficients(rng, words);
    let hostile = rng.one_in(2);
    let mut coins = coins(rng, words, hostile);
    let mut file = honest_file(words, &coefficients, &coins);

    let mut faults = Vec::new();
    for number in [9, 8] {
        if rng.one_in(4) && aim(sheet.edition, rng, &mut file, number) {
            faults.push(number);
        }
    }

    // Any round, and now and then others. A clash may have moved an out coin.
    let round = 1 + rng.place(sheet.rounds);
    let others = rng.one_in(3);
    let equal: Vec<usize> = (1..=sheet.rounds)
        .filter(|&i| i == round || others && rng.one_in(2))
        .collect();
    let width = sheet.width;
    for &i in &equal {
        let [first, second] = pair(&sheet, &layout, i);
        let [from, to] = rng.pick(&[[first, second], [second, first]]);
        copy(&mut file, width, from, to);
        let [from, to] = [from, to].map(|word| word + 2 * width);
        copy(&mut file, width, from, to);
        let word = to + word_of_element(rng, width);
        let reply = read_word(&file, word);
        let another = (u64::from(reply) + 1 + rng.below(sheet.field.p - 1)) % sheet.field.p;
        write_word(&mut file, word, rng.pick(&[reply, another as u32]));
    }
    let round = equal[0];
    let [first, second] = pair(&sheet, &layout, round);
    let replies_agree = (2 * width..3 * width)
        .all(|reply| read_word(&file, first + reply) == read_word(&file, second + reply));
    let (mut number, mut word) = (14, second);

    // Of equal coins both are moved, so that they stay equal.
    if rng.one_in(4) {
        let i = 1 + rng.place(sheet.rounds);
        let point = Subgroup::of(&sheet).point(i, rng.place(sheet.n(i)));
        let [first, second] = pair(&sheet, &layout, i);
        let moved = if equal.contains(&i) {
            vec![first, second]
        } else {
            vec![rng.pick(&[first, second])]
        };
        (number, word) = (7, moved[0]);
        for word in moved {
            write_word(&mut file, word, point as u32);
            for later in 1..width {
                write_word(&mut file, word + later, 0);
            }
        }
        faults.push(7);
    }
    rewrite_checks(&mut file);

    for i in 1..=sheet.rounds {
        for word in layout.range(Part::OutCoins(i)) {
            coins[layout.coin_position(word)] = read_word(&file, word);
        }
    }
    Case {
        sheet: words.to_vec(),
        coefficients,
        coins,
        file,
        number,
        word,
        position: layout.coin_position(word),
        round,
        replies_agree,
        faults,
        honest: false,
    }
}

/// The numbers of the first words of the two out coins of a round; each reply is two
/// elements later.
fn pair(sheet: &Sheet, layout: &Layout, i: usize) -> [usize; 2] {
    let outs = layout.range(Part::OutCoins(i));
    [outs.start, outs.start + sheet.width]
}

/// Copies an element of so many words.
fn copy(file: &mut [u8], width: usize, from: usize, to: usize) {
    for at in 0..width {
        let word = read_word(file, from + at);
        write_word(file, to + at, word);
    }
}

/// Whether a run of the load, whose first round has two out coins, draws the first of
/// them again for the second: the state before the run, and what it drew.
pub fn equal_coin_drawn(before: &Generator, input: &ProverInput) -> bool {
    let [first, second] = [input.coins[1], input.coins[2]];
    let p = Field::numbered(input.sheet[0]).map_or(1, |field| field.p);
    let mut generator = before.clone();
    generator.sheet();
    for _ in 0..input.coefficients.len() + 1 {
        generator.step();
    }
    while generator.below(p) != first {}
    loop {
        let coin = generator.below(p);
        if coin == first || coin == second {
            return coin == first;
        }
    }
}
