//! The operations of both editions, run in the archive and in the model.
#![allow(dead_code)]

pub mod batch;
pub mod nearest;

use std::ops::Range;
use tevrolig::InputRefusal;
use tevrolig_model::generate::repeats::reads_due;
use tevrolig_model::generate::{self, Rng};
use tevrolig_model::layout::{Layout, Section};
use tevrolig_model::prove::prove_in;
use tevrolig_model::sheet::Sheet;
use tevrolig_model::stream::write_word;
use tevrolig_model::verify::{decide_in, read_in, verify_in};
use tevrolig_model::{self as model, Answer, Outcome};

pub use tevrolig_model::sheet::Edition::{self, One, Two};

/// Bytes or words beside the output that nobody may touch. It is odd, so that the output's bytes begin anywhere.
const GUARD: usize = 61;

/// The largest sheets of edition 1, and in edition 2 those with folding numbers of every order; at last those with elements of four words.
#[rustfmt::skip]
pub const LARGEST: [&[u32]; 14] = [
    &[2, 4096, 2048, 2, 5, 2, 48, 48, 48, 48, 48, 48],
    &[2, 4096, 2048, 16, 1, 2, 48, 48, 0, 0, 0, 0],
    &[2, 4096, 512, 4, 2, 2, 36, 27, 22, 0, 0, 0],
    &[1, 4096, 2048, 2, 5, 1, 48, 48, 48, 48, 48, 48],
    &[2, 4096, 2048, 2, 5, 2, 48, 48, 48, 48, 48, 48, 2, 2, 2, 2, 2, 2],
    &[2, 4096, 2048, 16, 2, 2, 48, 29, 48, 0, 0, 0, 4, 2, 0, 0, 0, 2],
    &[2, 4096, 2048, 16, 3, 1, 48, 14, 2, 48, 0, 0, 8, 4, 2, 0, 0, 2],
    &[1, 4096, 2048, 16, 3, 1, 48, 30, 14, 48, 0, 0, 4, 2, 16, 0, 0, 2],
    &[2, 4096, 2048, 2, 3, 2, 48, 48, 29, 48, 0, 0, 4, 8, 16, 0, 0, 2],
    &[1, 1024, 512, 16, 2, 2, 3, 2, 4, 0, 0, 0, 4, 2, 0, 0, 0, 2],
    &[3, 1024, 512, 2, 5, 2, 48, 48, 48, 29, 13, 48],
    &[3, 1024, 512, 16, 1, 2, 29, 48, 0, 0, 0, 0],
    &[3, 1024, 512, 2, 5, 2, 48, 48, 48, 29, 13, 48, 2, 2, 2, 2, 2, 2],
    &[3, 1024, 512, 16, 3, 1, 30, 6, 2, 48, 0, 0, 4, 2, 2, 0, 0, 2],
];

/// What prove is given; encode leaves the coins out.
pub struct ProverInput {
    pub edition: Edition,
    pub sheet: Vec<u32>,
    pub coefficients: Vec<u32>,
    pub coins: Vec<u32>,
}

/// The edition of a sheet by its number of words.
pub fn edition(sheet: &[u32]) -> Edition {
    Edition::of(sheet).unwrap()
}

/// The verdict of the archive.
pub fn verify(edition: Edition, file: &[u8]) -> tevrolig::Verdict {
    match edition {
        One => tevrolig::verify(file),
        Two => tevrolig::edition2::verify(file),
    }
}

/// The verdict as a line, after it and both steps of verify were compared with the model's.
pub fn verdict_line(edition: Edition, file: &[u8], what: &str) -> String {
    let (read, decided) = match edition {
        One => (tevrolig::read(file), tevrolig::decide(file)),
        Two => (
            tevrolig::edition2::read(file),
            tevrolig::edition2::decide(file),
        ),
    };
    let read = match read.result() {
        Ok(()) => Outcome::Accepted,
        Err(refusal) => Outcome::Refused {
            number: refusal.number(),
            place: refusal.place(),
        },
    };
    assert_eq!(read, read_in(edition, file), "{what}: reading");
    let expected = model::line(decide_in(edition, file));
    assert_eq!(decided.line(), expected, "{what}: deciding");
    let line = verify(edition, file).line();
    assert_eq!(line, model::line(verify_in(edition, file)), "{what}");
    line
}

/// A random honest file for a sheet, by the model.
pub fn honest(rng: &mut Rng, sheet: &[u32], hostile: bool) -> Vec<u8> {
    let coefficients = generate::coefficients(rng, sheet);
    let coins = generate::coins(rng, sheet, hostile);
    generate::honest_file(sheet, &coefficients, &coins)
}

/// The file with some words of the stream changed and the checks made right.
pub fn changed(file: &[u8], changes: &[(usize, u32)]) -> Vec<u8> {
    let mut file = file.to_vec();
    for &(word, value) in changes {
        write_word(&mut file, word, value);
    }
    generate::rewrite_checks(&mut file);
    file
}

/// The reads of an accepted file: k_i for each of the different indices of level i.
pub fn reads(sheet: &[u32], file: &[u8]) -> u64 {
    reads_due(sheet, file, model::Outcome::Accepted)
}

/// The answer in the model's terms.
pub fn model_answer(answer: Result<usize, InputRefusal>) -> Answer {
    match answer {
        Ok(size) => Answer::Done(size as u64),
        Err(refusal) => Answer::Refused {
            number: refusal.number(),
            place: refusal.place(),
        },
    }
}

/// Runs an operation in the archive and in the model on outputs of this length with guards at both ends, and answers what both say and the
/// output: the outputs are equal with their guards, what comes after the part written is as before, and after a refusal all is.
pub fn agree<T: Copy + PartialEq>(
    filled: impl Fn(usize) -> T,
    length: usize,
    archive: impl FnOnce(&mut [T]) -> Answer,
    model: impl FnOnce(&mut [T]) -> Answer,
    written: impl FnOnce(u64) -> usize,
    what: &str,
) -> (Answer, Vec<T>) {
    let before: Vec<T> = (0..GUARD + length + GUARD).map(filled).collect();
    let output = GUARD..GUARD + length;
    let (mut room, mut expected) = (before.clone(), before.clone());
    let answer = archive(&mut room[output.clone()]);
    assert_eq!(answer, model(&mut expected[output.clone()]), "{what}");
    let kept = match answer {
        Answer::Done(size) => GUARD + written(size),
        Answer::Refused { .. } => GUARD,
    };
    let differs =
        |range: Range<usize>, other: &[T]| range.into_iter().find(|&i| room[i] != other[i]);
    assert_eq!(
        differs(0..room.len(), &expected),
        None,
        "{what}: the output differs"
    );
    assert_eq!(
        differs(0..GUARD, &before),
        None,
        "{what}: written before the output"
    );
    assert_eq!(
        differs(kept..room.len(), &before),
        None,
        "{what}: written past the end"
    );
    (answer, room[output].to_vec())
}

impl ProverInput {
    pub fn allowed(rng: &mut Rng, sheet: &[u32], hostile: bool) -> ProverInput {
        ProverInput {
            edition: edition(sheet),
            sheet: sheet.to_vec(),
            coefficients: generate::coefficients(rng, sheet),
            coins: generate::coins(rng, sheet, hostile),
        }
    }

    /// An input with nothing in it.
    pub fn empty(edition: Edition) -> ProverInput {
        ProverInput {
            edition,
            sheet: Vec::new(),
            coefficients: Vec::new(),
            coins: Vec::new(),
        }
    }

    /// The sheet and the layout of an input without fault.
    pub fn known(&self) -> (Sheet, Layout) {
        let sheet = Sheet::read(&self.sheet).unwrap();
        let layout = Layout::new(&sheet);
        (sheet, layout)
    }

    /// The archive's answer.
    pub fn proved(&self, output: &mut [u8]) -> Result<usize, InputRefusal> {
        let prove = match self.edition {
            One => tevrolig::prove,
            Two => tevrolig::edition2::prove,
        };
        prove(&self.sheet, &self.coefficients, &self.coins, output)
    }

    /// Both answers to prove, which are equal; a file that comes of it is accepted by the archive and the model.
    pub fn prove(&self, length: usize, what: &str) -> Answer {
        let edition = self.edition;
        let (answer, output) = agree(
            |i| (37 * i + length) as u8,
            length,
            |output| model_answer(self.proved(output)),
            |output| {
                prove_in(
                    edition,
                    &self.sheet,
                    &self.coefficients,
                    &self.coins,
                    output,
                )
            },
            |blocks| 512 * blocks as usize,
            what,
        );
        if let Answer::Done(blocks) = answer {
            let file = &output[..512 * blocks as usize];
            let accepted = format!("accepted 0 0 {}", reads(&self.sheet, file));
            assert_eq!(verdict_line(edition, file, what), accepted, "{what}");
        }
        answer
    }

    /// Both answers to encode, which are equal.
    pub fn encode(&self, length: usize, what: &str) -> Answer {
        let ProverInput {
            sheet,
            coefficients,
            ..
        } = self;
        let (answer, _) = agree(
            |i| (0x9E37_79B9_u32).wrapping_mul((i + length) as u32),
            length,
            |output| model_answer(tevrolig::encode(sheet, coefficients, output)),
            |output| model::encode(sheet, coefficients, output),
            |words| words as usize,
            what,
        );
        answer
    }

    /// An allowed input is proved in an output of the size due and in a longer one, and refused in one that is shorter by one; in edition 1
    /// it is encoded likewise.
    pub fn is_proved(&self, more: usize, what: &str) {
        let (sheet, layout) = self.known();
        let (blocks, words) = (layout.blocks(), sheet.width * sheet.n0);
        let [proved, encoded] = [blocks, words].map(|due| Answer::Done(due as u64));
        let [unproved, unencoded] = [blocks, words].map(|due| refused((11, due)));
        assert_eq!(self.prove(512 * blocks + more, what), proved, "{what}");
        assert_eq!(self.prove(512 * blocks - 1, what), unproved, "{what}");
        if self.edition == One {
            assert_eq!(self.encode(words + more, what), encoded, "{what}");
            assert_eq!(self.encode(words - 1, what), unencoded, "{what}");
        }
    }
}

/// A refusal with number and place.
pub fn refused((number, place): (u32, usize)) -> Answer {
    Answer::Refused {
        number,
        place: place as u64,
    }
}

/// The limit of each word of a section.
pub fn limits(section: &Section) -> impl Iterator<Item = u64> {
    let limit = section.limit;
    section.words.clone().map(move |_| limit)
}
