//! What several tests share: the transcript by hand, a file of each edition, and a
//! few functions.
#![allow(dead_code)]

use tevrolig_model::domain::Subgroup;
use tevrolig_model::elements::Elements;
use tevrolig_model::generate::repeats::reads_due;
use tevrolig_model::generate::{self, rewrite_checks, Rng};
use tevrolig_model::layout::Layout;
use tevrolig_model::sheet::Sheet;
use tevrolig_model::stream::{read_word, write_word};
use tevrolig_model::verify::verify_in;
use tevrolig_model::{line, Outcome};

pub use tevrolig_model::sheet::Edition::{self, One, Two};

/// "A transcript by hand" of document 01.
pub const SHEET: [u32; 12] = [0, 16, 8, 2, 1, 1, 1, 1, 0, 0, 0, 0];
pub const COEFFICIENTS: [u32; 8] = [1, 2, 3, 4, 5, 0, 0, 0];
pub const COINS: [u32; 6] = [2, 0, 3, 4, 0, 1];
pub const STREAM: [u32; 45] = [
    0, 16, 8, 2, 1, 1, 1, 1, 0, 0, 0, 0, // sheet
    3, 11, 6, 11, 5, 6, 1, 3, 13, 8, 7, 12, 5, 10, 2, 15, // table 0
    2,  // fold coin 0
    15, 3, 15, 0, 0, 4, 7, 13, // table 1
    0, 5, // out coin and reply
    3, 4, 0, // combination, fold coin 1, shift index
    14, 11, // final coefficients
    1,  // final index
];
pub const OUT: usize = 37;
pub const REPLY: usize = 38;
pub const FINAL: usize = 42;

/// Its sheet in edition 2.
pub const SHEET_2: [u32; 18] = [0, 16, 8, 2, 1, 1, 1, 1, 0, 0, 0, 0, 2, 0, 0, 0, 0, 2];

/// The numbers that a verdict may have, 0 for accepted.
pub const OUTCOMES: [u32; 11] = [0, 1, 2, 3, 4, 5, 6, 7, 8, 9, 14];

/// Two rounds over field 1 with s = 2: k = 2 and t = 4 3 5, with d = 64 32 16 and 8
/// final coefficients.
pub const TWO_ROUNDS: [u32; 12] = [1, 256, 64, 2, 2, 2, 4, 3, 5, 0, 0, 0];
/// The same in edition 2 with a large first fold: k = 16 4 2 and t = 3 2 4, with d =
/// 512 32 8 and 4 final coefficients.
pub const LARGE_FIRST: [u32; 18] = [1, 1024, 512, 16, 2, 2, 3, 2, 4, 0, 0, 0, 4, 2, 0, 0, 0, 2];

/// The file by hand: words, zeros, check word 6143.
pub fn hand_file() -> Vec<u8> {
    let mut words = STREAM.to_vec();
    words.resize(127, 0);
    words.push(6143);
    words.iter().flat_map(|word| word.to_le_bytes()).collect()
}

/// The file with some stream words changed and the checks made right.
pub fn changed(file: &[u8], changes: &[(usize, u32)]) -> Vec<u8> {
    let mut file = file.to_vec();
    for &(word, value) in changes {
        write_word(&mut file, word, value);
    }
    rewrite_checks(&mut file);
    file
}

/// A list with some words replaced.
pub fn with(list: &[u32], changes: &[(usize, u32)]) -> Vec<u32> {
    let mut list = list.to_vec();
    for &(at, word) in changes {
        list[at] = word;
    }
    list
}

/// The verdict line of a file.
pub fn verdict_line(edition: Edition, file: &[u8]) -> String {
    line(verify_in(edition, file))
}

/// The number of the refusal, 0 for accepted.
pub fn number(edition: Edition, file: &[u8]) -> u32 {
    match verify_in(edition, file).outcome {
        Outcome::Accepted => 0,
        Outcome::Refused { number, .. } => number,
    }
}

/// The edition of a sheet by its number of words.
pub fn edition(sheet: &[u32]) -> Edition {
    Edition::of(sheet).unwrap()
}

/// A random honest file for a sheet.
pub fn honest(rng: &mut Rng, sheet: &[u32], hostile: bool) -> Vec<u8> {
    let coefficients = generate::coefficients(rng, sheet);
    let coins = generate::coins(rng, sheet, hostile);
    generate::honest_file(sheet, &coefficients, &coins)
}

/// The same, and tests that it is accepted with the reads due.
pub fn accept(rng: &mut Rng, sheet: &[u32], hostile: bool) -> Vec<u8> {
    let file = honest(rng, sheet, hostile);
    let expected = format!("accepted 0 0 {}", reads(sheet, &file));
    assert_eq!(verdict_line(edition(sheet), &file), expected, "{sheet:?}");
    file
}

pub fn layout(sheet: &[u32]) -> Layout {
    Layout::new(&Sheet::read(sheet).unwrap())
}

/// k_i by the sheet's words.
pub fn fold(sheet: &[u32], i: usize) -> u32 {
    match (edition(sheet), i) {
        (One, _) | (_, 0) => sheet[3],
        (Two, _) => sheet[11 + i],
    }
}

/// The reads of an accepted file: k_i for each of the different indices of level i.
pub fn reads(sheet: &[u32], file: &[u8]) -> u64 {
    reads_due(sheet, file, Outcome::Accepted)
}

/// An honest file with coins that do not meet and indices that do not repeat.
pub struct Sample {
    pub edition: Edition,
    pub words: &'static [u32],
    pub sheet: Sheet,
    pub layout: Layout,
    pub subgroup: Subgroup,
    pub coefficients: Vec<u32>,
    pub coins: Vec<u32>,
    pub file: Vec<u8>,
}

impl Sample {
    fn new(words: &'static [u32]) -> Sample {
        let mut rng = Rng::new(11);
        let coefficients = generate::coefficients(&mut rng, words);
        let coins = generate::coins(&mut rng, words, false);
        let sheet = Sheet::read(words).unwrap();
        let sample = Sample {
            edition: sheet.edition,
            words,
            layout: Layout::new(&sheet),
            subgroup: Subgroup::of(&sheet),
            sheet,
            file: generate::honest_file(words, &coefficients, &coins),
            coefficients,
            coins,
        };
        let reads = match sample.edition {
            One => 2 * (4 + 3 + 5),
            Two => 16 * 3 + 4 * 2 + 2 * 4,
        };
        assert_eq!(sample.verdict_line(&[]), format!("accepted 0 0 {reads}"));
        sample
    }

    /// The verdict line with some words changed.
    pub fn verdict_line(&self, changes: &[(usize, u32)]) -> String {
        verdict_line(self.edition, &changed(&self.file, changes))
    }

    /// The refusal's number likewise.
    pub fn number(&self, changes: &[(usize, u32)]) -> u32 {
        number(self.edition, &changed(&self.file, changes))
    }

    /// The shift point of the index at a word of round i: the k_(i-1)-th power of a
    /// point of domain i-1.
    pub fn shift_point(&self, i: usize, word: usize) -> u32 {
        let index = read_word(&self.file, word) as usize;
        let k = u64::from(fold(self.words, i - 1));
        let point = self.subgroup.point(i - 1, index);
        self.sheet.field.pow(point, k) as u32
    }
}

/// A file of each edition with two rounds and several blocks.
pub fn samples() -> [Sample; 2] {
    [&TWO_ROUNDS[..], &LARGE_FIRST].map(Sample::new)
}
