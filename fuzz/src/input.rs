//! What the bytes of an input stand for. Its first byte chooses between six forms.

use tevrolig_model::generate;

/// An input of the prover, of that of batches and of the encoder, with the lengths of the outputs.
#[derive(Default)]
pub struct ProverInput {
    pub sheet: Vec<u32>,
    /// None where it is not made for a batch.
    pub bounds: Vec<u32>,
    pub coefficients: Vec<u32>,
    pub coins: Vec<u32>,
    /// Bytes for prove and words for encode.
    pub output: u16,
}

/// An input of the search for the nearest polynomial.
#[derive(Default)]
pub struct TableInput {
    pub sheet: Vec<u32>,
    pub table: Vec<u32>,
    /// Words of the output.
    pub output: u16,
}

pub enum Input {
    /// A file as it is.
    Raw(Vec<u8>),
    /// A file whose checks are made right before it is verified.
    WithChecks(Vec<u8>),
    Prover(ProverInput),
    /// The number of a field and two words.
    Field([u32; 3]),
    /// Two times four words for field 3, and an exponent.
    Quartic([u32; 9]),
    Table(TableInput),
}

impl Input {
    /// Every byte string is an input; the prover's lists end where the bytes do.
    pub fn read(bytes: &[u8]) -> Input {
        let Some((form, rest)) = bytes.split_first() else {
            return Input::Raw(Vec::new());
        };
        match form % 6 {
            0 => Input::Raw(rest.to_vec()),
            1 => {
                let mut file = rest.to_vec();
                generate::rewrite_checks(&mut file);
                Input::WithChecks(file)
            }
            2 => Input::Prover(ProverInput::read(rest)),
            3 => Input::Field(first_words(rest)),
            4 => Input::Quartic(first_words(rest)),
            _ => Input::Table(TableInput::read(rest)),
        }
    }

    pub fn write(&self) -> Vec<u8> {
        match self {
            Input::Raw(file) => [&[0][..], file].concat(),
            Input::WithChecks(file) => [&[1][..], file].concat(),
            Input::Prover(given) => [&[2][..], &given.write()].concat(),
            Input::Field(words) => [&[3][..], &bytes(words)].concat(),
            Input::Quartic(words) => [&[4][..], &bytes(words)].concat(),
            Input::Table(given) => [&[5][..], &given.write()].concat(),
        }
    }
}

impl ProverInput {
    fn read(bytes: &[u8]) -> ProverInput {
        let (output, [sheet, bounds, coefficients, coins]) = lists(bytes);
        ProverInput {
            sheet,
            bounds,
            coefficients,
            coins,
            output,
        }
    }

    fn write(&self) -> Vec<u8> {
        let lists = [&self.sheet, &self.bounds, &self.coefficients, &self.coins];
        written(self.output, &lists)
    }
}

impl TableInput {
    fn read(bytes: &[u8]) -> TableInput {
        let (output, [sheet, table]) = lists(bytes);
        TableInput {
            sheet,
            table,
            output,
        }
    }

    fn write(&self) -> Vec<u8> {
        written(self.output, &[&self.sheet, &self.table])
    }
}

/// The output's length and so many lists: first the lengths, of 16 bits each, then the words.
fn lists<const N: usize>(bytes: &[u8]) -> (u16, [Vec<u32>; N]) {
    let (lengths, rest) = bytes.split_at(bytes.len().min(2 + 2 * N));
    let mut lengths = lengths
        .chunks_exact(2)
        .map(|two| u16::from_le_bytes([two[0], two[1]]));
    let mut length = || lengths.next().unwrap_or(0);
    let output = length();
    let mut words = words(rest).into_iter();
    let mut list = || words.by_ref().take(length().into()).collect();
    (output, [(); N].map(|()| list()))
}

fn written(output: u16, lists: &[&Vec<u32>]) -> Vec<u8> {
    let lengths = lists.iter().map(|list| list.len() as u16);
    let mut written = output.to_le_bytes().to_vec();
    written.extend(lengths.flat_map(u16::to_le_bytes));
    written.extend(lists.iter().flat_map(|list| bytes(list)));
    written
}

fn words(bytes: &[u8]) -> Vec<u32> {
    let words = bytes.chunks_exact(4);
    words
        .map(|four| u32::from_le_bytes([four[0], four[1], four[2], four[3]]))
        .collect()
}

/// The first so many words, with 0 for those that are missing.
fn first_words<const N: usize>(bytes: &[u8]) -> [u32; N] {
    let mut words = words(bytes).into_iter();
    [(); N].map(|()| words.next().unwrap_or(0))
}

fn bytes(words: &[u32]) -> Vec<u8> {
    words.iter().flat_map(|word| word.to_le_bytes()).collect()
}
