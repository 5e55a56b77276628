//! Batches, run in the archive and in the model.

use super::{agree, model_answer, refused};
use std::collections::BTreeSet;
use tevrolig_model::batch::{prove_batch, verify_batch};
use tevrolig_model::generate::batch::Order;
use tevrolig_model::layout::{Layout, Part};
use tevrolig_model::sheet::Sheet;
use tevrolig_model::stream::read_word;
use tevrolig_model::{line, Answer};

/// The verdict on a batch as a line, after it was compared with the model's; the file is only read.
pub fn verdict_line(file: &[u8], what: &str) -> String {
    let before = file.to_vec();
    let said = tevrolig::batch::verify(file).line();
    assert_eq!(said, line(verify_batch(file)), "{what}");
    assert_eq!(file, before, "{what}: the file changed");
    said
}

/// The number in a verdict's line.
pub fn number_in(line: &str) -> u32 {
    line.split(' ').nth(1).unwrap().parse().unwrap()
}

/// The sheet and the layout of an order without fault.
pub fn known(order: &Order) -> (Sheet, Layout) {
    let sheet = Sheet::read(&order.sheet).unwrap();
    let layout = Layout::of_batch(&sheet, order.bounds.len());
    (sheet, layout)
}

/// The reads of an accepted batch: k for each of the different indices of a level, and of level 0 in each table.
pub fn reads(order: &Order, file: &[u8]) -> u64 {
    let (sheet, layout) = known(order);
    let level = |part: Part| match part {
        Part::ShiftIndices(i) => Some(i - 1),
        Part::FinalIndices => Some(sheet.rounds),
        _ => None,
    };
    let lists = layout.sections.iter();
    let opened = lists.filter_map(|section| {
        let level = level(section.part)?;
        let indices = section.words.clone().map(|word| read_word(file, word));
        let different = indices.collect::<BTreeSet<u32>>().len();
        let tables = if level == 0 { order.bounds.len() } else { 1 };
        Some(tables * sheet.k[level] * different)
    });
    opened.sum::<usize>() as u64
}

/// Both answers to an order, which are equal, as are the outputs with what stands around them; a file that comes of it is accepted, and is answered too.
pub fn prove(order: &Order, length: usize, what: &str) -> (Answer, Vec<u8>) {
    let Order {
        sheet,
        bounds,
        coefficients,
        coins,
    } = order;
    let (answer, mut output) = agree(
        |i| (37 * i + length) as u8,
        length,
        |output| {
            model_answer(tevrolig::batch::prove(
                sheet,
                bounds,
                coefficients,
                coins,
                output,
            ))
        },
        |output| prove_batch(sheet, bounds, coefficients, coins, output),
        |blocks| 512 * blocks as usize,
        what,
    );
    match answer {
        Answer::Done(blocks) => {
            output.truncate(512 * blocks as usize);
            let accepted = format!("accepted 0 0 {}", reads(order, &output));
            assert_eq!(verdict_line(&output, what), accepted, "{what}");
        }
        Answer::Refused { .. } => output.clear(),
    }
    (answer, output)
}

/// An order without fault is proved in an output that is as long as is due and so many bytes more, and refused in one that is shorter by one. Answers the file.
pub fn proved(order: &Order, more: usize, what: &str) -> Vec<u8> {
    let blocks = known(order).1.blocks();
    assert!(blocks <= tevrolig::batch::MAX_BLOCKS);
    let (short, _) = prove(order, 512 * blocks - 1, what);
    assert_eq!(short, refused((11, blocks)), "{what}");
    let (answer, file) = prove(order, 512 * blocks + more, what);
    assert_eq!(answer, Answer::Done(blocks as u64), "{what}");
    file
}
