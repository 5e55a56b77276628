//! A word of the stream in the archive, and the sheet, against the model, which reads only words that are there.

use tevrolig_model::generate::Rng;
use tevrolig_model::stream::read_word;

/// The number of words in a file's whole blocks.
fn words(file: &[u8]) -> u64 {
    127 * (file.len() as u64 / 512)
}

// As the header has them.
const NO_WORD: u32 = 102;

extern "C" {
    fn tevrolig_word(file: *const u8, length: usize, number: u64, word: &mut u32) -> u32;
}

fn expected(file: &[u8], number: u64) -> Option<u32> {
    (number < words(file)).then(|| read_word(file, number as usize))
}

fn random_file(rng: &mut Rng, length: usize) -> Vec<u8> {
    (0..length).map(|_| rng.bits() as u8).collect()
}

#[test]
fn every_word_of_files_of_every_length() {
    let file = random_file(&mut Rng::new(1), 1600);
    for length in 0..=file.len() {
        let file = &file[..length];
        for number in 0..words(file) + 130 {
            assert_eq!(
                tevrolig::word(file, number),
                expected(file, number),
                "word {number} of {length} bytes"
            );
        }
    }
}

#[test]
fn a_word_that_is_not_there_is_not_written() {
    let file = random_file(&mut Rng::new(4), 1100);
    for length in 0..=file.len() {
        let file = &file[..length];
        for number in [0, 126, 127, 253, 254, u64::MAX] {
            for before in [0, 7, u32::MAX] {
                let mut word = before;
                // SAFETY: the file is a slice, and one word is written at most.
                let answer = unsafe { tevrolig_word(file.as_ptr(), length, number, &mut word) };
                let due = expected(file, number).map_or((NO_WORD, before), |word| (0, word));
                assert_eq!((answer, word), due, "word {number} of {length} bytes");
            }
        }
    }
}

#[test]
fn the_largest_numbers() {
    for blocks in [0, 1, 2, 67, 128, 1000] {
        let file = random_file(&mut Rng::new(2), 512 * blocks + 9);
        let end = words(&file);
        let numbers = (0..64)
            .map(|bit| 1_u64 << bit)
            .flat_map(|power| [power - 1, power, power + 1]);
        // Numbers whose byte offset, 512 for every 127 words, would wrap round to a place inside the file.
        let around = [u64::MAX / 512 * 127, u64::MAX / 4, u64::MAX - 1];
        let around = around
            .into_iter()
            .flat_map(|number| (0..300).map(move |more| number.wrapping_add(more)));
        for number in numbers
            .chain(around)
            .chain(end.saturating_sub(300)..end + 300)
        {
            assert_eq!(
                tevrolig::word(&file, number),
                expected(&file, number),
                "word {number} of {blocks} blocks"
            );
        }
    }
}

#[test]
fn the_places_of_refusals_are_words_of_the_file() {
    let file = include_bytes!("../../examples/worked-transcript");
    let stream: Vec<u32> = (0..127)
        .map(|number| tevrolig::word(file, number).unwrap())
        .collect();
    assert_eq!(stream[..6], [0, 16, 8, 2, 1, 1]);
    assert_eq!(stream[37..45], [0, 5, 3, 4, 0, 14, 11, 1]);
    assert!(stream[45..].iter().all(|&word| word == 0));
}

#[test]
fn the_sheet_of_files_and_outputs_of_every_length() {
    let file = random_file(&mut Rng::new(3), 1100);
    for length in 0..=file.len() {
        let file = &file[..length];
        let held = expected(file, 11).is_some();
        let sheet: Vec<u32> = (0..12)
            .filter_map(|number| expected(file, number))
            .collect();
        assert_eq!(
            tevrolig::sheet_of(file).map(Vec::from),
            held.then(|| sheet.clone())
        );
        for room in 0..30 {
            let before: Vec<u32> = (1000..1000 + room).collect();
            let mut output = before.clone();
            let placed = tevrolig::place_sheet(file, &mut output);
            assert_eq!(placed, held && 12 <= room, "{length} bytes, {room} words");
            let written = if placed { 12 } else { 0 };
            assert_eq!(output[..written], sheet[..written]);
            assert_eq!(output[written..], before[written..]);
        }
    }
}
