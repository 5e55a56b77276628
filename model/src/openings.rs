//! Opening files (document 02, CR 13): a root in the place of each table, and after the
//! final indices the openings, one for each place that a shift or final coin reaches. An
//! opening file has a sheet of edition 1 and operations of its own.

use crate::domain::Subgroup;
use crate::elements::{Elements, Quartic};
use crate::field::QUARTIC;
use crate::layout::{opening_words, Layout, Part};
use crate::prove::{test_room, write_blocks, Answer};
use crate::sheet::{Edition, Sheet, SHEET_WORDS};
use crate::stream::{read_word, to_blocks, BLOCK_BYTES, BLOCK_WORDS};
use crate::tree::{hash_of, hash_words, root_over, Tree, HASH_WORDS};
use crate::verify::{
    decide_read, first_out_of_range, read, read_sheet, test_out_coins, verify, Outcome, Places,
    Reading, Verdict,
};
use crate::Fault;
use std::collections::BTreeMap;

/// Verifies an opening file of any bytes.
pub fn verify_openings(file: &[u8]) -> Verdict {
    let opened = read_openings(file).and_then(|shut| {
        shut.test_out_coins()?;
        shut.test_places()?;
        shut.test_paths()?;
        Ok(shut.opened())
    });
    decide_read(opened).0
}

/// Writes the opening file of a full file that is accepted; any other gets the refusal
/// that its own verdict has.
pub fn build_openings(file: &[u8], output: &mut [u8]) -> Answer {
    let built = match verify(file).outcome {
        Outcome::Refused { number, place } => Err(Fault { number, place }),
        Outcome::Accepted => shut_stream(file).and_then(|stream| {
            test_room(stream.len(), output.len())?;
            Ok(write_blocks(&stream, output))
        }),
    };
    built.into()
}

/// The opening file of a full file that passes the tests 1 to 6, whatever deciding says.
pub fn shut(file: &[u8]) -> Result<Vec<u8>, Fault> {
    shut_stream(file).map(|stream| to_blocks(&stream))
}

/// The places that the shift and final coins of a stream reach.
fn places_due(sheet: &Sheet, layout: &Layout, stream: &[u32]) -> Places {
    let subgroup = Subgroup::of(sheet);
    let mut due = Places::new();
    for section in &layout.sections {
        let table = match section.part {
            Part::ShiftIndices(i) => i - 1,
            Part::FinalIndices => sheet.rounds,
            _ => continue,
        };
        for word in section.words.clone() {
            let roots = subgroup.root_places(table, sheet.k[table], stream[word] as usize);
            due.extend(roots.map(|point| (table, point)));
        }
    }
    due
}

/// The words of the opening file.
fn shut_stream(file: &[u8]) -> Result<Vec<u32>, Fault> {
    let Reading {
        sheet,
        layout,
        stream,
    } = read(Edition::One, file)?;

    let mut words = stream[..SHEET_WORDS].to_vec();
    let mut trees = BTreeMap::new();
    for section in &layout.sections {
        let part = &stream[section.words.clone()];
        match section.part {
            Part::Table(i) => {
                let tree = Tree::over(part, sheet.width);
                words.extend(hash_words(&tree.root()));
                trees.insert(i, (tree, part));
            }
            _ => words.extend(part),
        }
    }

    let due = places_due(&sheet, &layout, &stream);
    words.push(due.len() as u32);
    for (table, point) in due {
        let (tree, entries) = &trees[&table];
        let end = words.len() + opening_words(&sheet);
        words.extend([table as u32, point as u32]);
        words.extend(&entries[sheet.width * point..][..sheet.width]);
        words.extend(tree.path(point).iter().flat_map(hash_words));
        // The nodes that a table with fewer points has no use for.
        words.resize(end, 0);
    }
    Ok(words)
}

/// What one opening says; its numbers may be any.
struct Opening {
    table: u32,
    point: u32,
    entry: Vec<u32>,
    nodes: Vec<u32>,
}

/// An opening file that passed the tests 1 to 6.
struct Shut {
    sheet: Sheet,
    layout: Layout,
    stream: Vec<u32>,
    openings: Vec<Opening>,
}

/// Test 4, in both directions by the number of openings that the file gives, if it is
/// long enough to hold one: the layout.
fn test_blocks(sheet: &Sheet, file: &[u8]) -> Result<Layout, Fault> {
    let blocks = file.len() / BLOCK_BYTES;
    let front = Layout::of_openings(sheet, 0);
    if blocks < front.blocks() {
        return Err(Fault::new(4, front.blocks()));
    }
    let count = read_word(file, front.range(Part::OpeningCount).start) as usize;
    // Up to 2^32 - 1 openings of up to 102 words each.
    let needed = (front.words() + count * opening_words(sheet)).div_ceil(BLOCK_WORDS);
    if blocks != needed {
        return Err(Fault::new(4, needed));
    }
    Ok(Layout::of_openings(sheet, count))
}

/// Tests 1 to 6 in order.
fn read_openings(file: &[u8]) -> Result<Shut, Fault> {
    let sheet = read_sheet(Edition::One, file)?;
    let layout = test_blocks(&sheet, file)?;
    let stream: Vec<u32> = (0..layout.blocks() * BLOCK_WORDS)
        .map(|word| read_word(file, word))
        .collect();
    if let Some(word) = first_out_of_range(&layout, &stream) {
        return Err(Fault::new(5, word));
    }

    let mut openings = Vec::new();
    for section in &layout.sections {
        let words = &stream[section.words.clone()];
        match section.part {
            Part::OpeningNumbers(_) => openings.push(Opening {
                table: words[0],
                point: words[1],
                entry: Vec::new(),
                nodes: Vec::new(),
            }),
            Part::OpeningEntry(q) => openings[q].entry = words.to_vec(),
            Part::OpeningNodes(q) => {
                let table = openings[q].table as usize;
                let unused = if table <= sheet.rounds { table } else { 0 };
                let end = section.words.end;
                let mut words_unused = end - HASH_WORDS * unused..end;
                if let Some(word) = words_unused.find(|&word| stream[word] != 0) {
                    return Err(Fault::new(6, word));
                }
                openings[q].nodes = words[..words.len() - HASH_WORDS * unused].to_vec();
            }
            _ => {}
        }
    }
    if let Some(word) = (layout.words()..stream.len()).find(|&word| stream[word] != 0) {
        return Err(Fault::new(6, word));
    }
    Ok(Shut {
        sheet,
        layout,
        stream,
        openings,
    })
}

impl Shut {
    /// Tests 7 and 14, at the numbers that words have here.
    fn test_out_coins(&self) -> Result<(), Fault> {
        let subgroup = Subgroup::of(&self.sheet);
        let (layout, stream) = (&self.layout, &self.stream);
        match self.sheet.width {
            Quartic::WIDTH => test_out_coins(QUARTIC, &subgroup, layout, stream),
            _ => test_out_coins(self.sheet.field, &subgroup, layout, stream),
        }
    }

    /// Test 18: the openings are those of the places due, each once, in their order.
    fn test_places(&self) -> Result<(), Fault> {
        let due = places_due(&self.sheet, &self.layout, &self.stream);
        let due: Vec<(usize, usize)> = due.into_iter().collect();
        let place = |opening: &Opening| (opening.table as usize, opening.point as usize);
        let given: Vec<(usize, usize)> = self.openings.iter().map(place).collect();
        let longer = due.len().max(given.len());
        match (0..longer).find(|&q| due.get(q) != given.get(q)) {
            Some(q) => Err(Fault::new(18, q)),
            None => Ok(()),
        }
    }

    /// Test 17, of openings that are of tables with a root.
    fn test_paths(&self) -> Result<(), Fault> {
        for (q, opening) in self.openings.iter().enumerate() {
            let path: Vec<_> = opening.nodes.chunks(HASH_WORDS).map(hash_of).collect();
            let reached = root_over(&opening.entry, opening.point as usize, &path);
            let root = Part::Root(opening.table as usize);
            if hash_words(&reached) != self.stream[self.layout.range(root)] {
                return Err(Fault::new(17, q));
            }
        }
        Ok(())
    }

    /// The plain file, as far as it is known: the opened entries stand in its tables, and
    /// zeros where nothing is opened, which no coin leads to.
    fn opened(self) -> Reading {
        let entries: BTreeMap<(usize, usize), &[u32]> = self
            .openings
            .iter()
            .map(|o| ((o.table as usize, o.point as usize), &o.entry[..]))
            .collect();
        let zeros = vec![0; self.sheet.width];
        let layout = Layout::new(&self.sheet);
        let mut stream = self.stream[..SHEET_WORDS].to_vec();
        for section in &layout.sections {
            match section.part {
                Part::Table(i) => {
                    let points = 0..self.sheet.n(i);
                    let entry = |point| *entries.get(&(i, point)).unwrap_or(&&zeros[..]);
                    stream.extend(points.flat_map(entry));
                }
                part => stream.extend(&self.stream[self.layout.range(part)]),
            }
        }
        Reading {
            sheet: self.sheet,
            layout,
            stream,
        }
    }
}
