//! Writes the files that the program over many files is run on, into the folder given, and prints the program's arguments, or with
//! `--verdicts` the lines that the model says.

use std::path::Path;
use tevrolig_model::domain::Subgroup;
use tevrolig_model::field::{Field, QUARTIC};
use tevrolig_model::generate::{aim, coefficients, coins, honest_file, Rng, REFUSALS};
use tevrolig_model::layout::{Layout, Part};
use tevrolig_model::sheet::{Edition, Sheet};
use tevrolig_model::stream::{to_blocks, write_word};
use tevrolig_model::{generate, line, verify};

const WORKED: [u32; 45] = [
    0, 16, 8, 2, 1, 1, 1, 1, 0, 0, 0, 0, // sheet
    3, 11, 6, 11, 5, 6, 1, 3, 13, 8, 7, 12, 5, 10, 2, 15, // table 0
    2,  // fold coin 0
    15, 3, 15, 0, 0, 4, 7, 13, // table 1
    0, 5, 3, 4, 0, // out coin, reply, combination coin, fold coin, shift index
    14, 11, 1, // final coefficients, final index
];

fn worked(changes: &[(usize, u32)]) -> Vec<u8> {
    let mut stream = WORKED;
    for &(word, value) in changes {
        stream[word] = value;
    }
    to_blocks(&stream)
}

fn files() -> Vec<(String, Vec<u8>)> {
    let mut files: Vec<(String, Vec<u8>)> = vec![
        ("p10".into(), worked(&[])),
        ("p11".into(), worked(&[(42, 15)])),
        ("p12".into(), worked(&[(37, 9), (38, 5)])),
        (
            "p13".into(),
            worked(&[(37, 9), (38, 16), (42, 0), (43, 15)]),
        ),
        ("p14".into(), worked(&[(37, 3)])),
        ("empty".into(), Vec::new()),
        ("one-byte-less".into(), worked(&[])[..511].to_vec()),
        ("longer-than-read".into(), vec![0; 70_000]),
    ];

    // Each refusal on files of every field.
    let sheets: [[u32; 12]; 4] = [
        [0, 16, 8, 2, 1, 2, 1, 3, 0, 0, 0, 0],
        [1, 256, 128, 4, 2, 2, 9, 5, 7, 0, 0, 0],
        [2, 128, 64, 2, 3, 2, 7, 6, 5, 9, 0, 0],
        [3, 64, 32, 2, 2, 2, 7, 5, 6, 0, 0, 0],
    ];
    for (field, sheet) in sheets.iter().enumerate() {
        // From these seeds 14, 8 and 9 come in several rounds and at several places, and equal out coins with equal replies and with others.
        let mut rng = Rng::new(14 + field as u64);
        let given = coefficients(&mut rng, sheet);
        let hostile = coins(&mut rng, sheet, true);
        let file = honest_file(sheet, &given, &hostile);
        files.push((format!("honest-{field}"), file.clone()));
        for number in REFUSALS {
            let mut damaged = file.clone();
            let name = format!("refused-{number}-field-{field}");
            let hit = aim(Edition::One, &mut rng, &mut damaged, number);
            let refused = line(verify(&damaged)).starts_with(&format!("refused {number} "));
            assert!(hit && refused, "{name}");
            files.push((name, damaged));
        }
    }

    // Repeated indices (document 02, CR 8): the worked transcript with t_1 = 2 and final indices 1 1, and a file of two rounds, honest, with a clash in the second and
    // with a failing final coin that has repeats before and after it.
    let sheet = [0, 16, 8, 2, 1, 1, 1, 2, 0, 0, 0, 0];
    let given = [1, 2, 3, 4, 5, 0, 0, 0];
    let file = honest_file(&sheet, &given, &[2, 0, 3, 4, 0, 1, 1]);
    files.push(("final-repeated".into(), file));
    let sheet = [1, 256, 128, 4, 2, 2, 10, 5, 9, 0, 0, 0];
    let mut rng = Rng::new(3);
    let given = coefficients(&mut rng, &sheet);
    let mut drawn = coins(&mut rng, &sheet, false);
    let layout = Layout::new(&Sheet::read(&sheet).expect("a sheet without fault"));
    let lists: [(Part, &[u32]); 3] = [
        (Part::ShiftIndices(1), &[60, 8, 60, 8, 8, 0, 63, 63, 60, 1]),
        (Part::ShiftIndices(2), &[8, 0, 8, 31, 0]),
        (Part::FinalIndices, &[8, 8, 3, 8, 3, 15, 8, 9, 15]),
    ];
    for (part, indices) in lists {
        let at = layout.coin_position(layout.range(part).start);
        drawn[at..at + indices.len()].copy_from_slice(indices);
    }
    let file = honest_file(&sheet, &given, &drawn);
    let table = layout.range(Part::Table(2)).start;
    let out = layout.range(Part::OutCoins(2)).start;
    // The shift point of round 2's index 8, and the first place of final index 15.
    let shift = Subgroup::new(Field::numbered(1).expect("field 1"), 256).shift_point(1, 4, 8);
    let changes = [
        ("repeated", None),
        ("repeated-8", Some((out, shift as u32))),
        ("repeated-9", Some((table + 15, 7))),
    ];
    for (name, change) in changes {
        let mut file = file.clone();
        if let Some((word, value)) = change {
            write_word(&mut file, word, value);
        }
        generate::rewrite_checks(&mut file);
        files.push((name.into(), file));
    }

    // Edges of the sheet: the smallest; n0 = 32 in field 0; t_0 + s = d_1; t = 65, and t = 48 and 49 (document 02, CR 1).
    let smallest = [0, 4, 2, 2, 0, 1, 1, 0, 0, 0, 0, 0];
    let mut rng = Rng::new(9);
    let given = coefficients(&mut rng, &smallest);
    let few = coins(&mut rng, &smallest, false);
    files.push(("smallest".into(), honest_file(&smallest, &given, &few)));
    let edges = [
        ("n0-32", 1, 32),
        ("t0-with-s", 6, 3),
        ("t1-65", 7, 65),
        ("t1-49", 7, 49),
        ("t1-48", 7, 48),
    ];
    for (name, word, value) in edges {
        let mut file = worked(&[]);
        write_word(&mut file, word, value);
        generate::rewrite_checks(&mut file);
        files.push((name.into(), file));
    }

    // A file of both editions, with two meanings: the words 12 to 17 are of edition 1's table 0 and of edition 2's sheet.
    let both: [u32; 23] = [
        0, 8, 4, 2, 0, 1, 1, 0, 0, 0, 0, 0, // sheet
        0, 0, 0, 0, 0, 2, // table 0, or the sheet
        1, 5, 3, 13, 16, // table 0, the fold coin and the final coefficients, or table 0
    ];
    files.push(("both-editions".into(), to_blocks(&both)));

    // Elements of four words (document 02, CR 11): n0 ends at 1024; an out coin that is a point of its domain in its first word alone, and one that is the
    // coin before it in three words.
    let sheet = [3, 16, 8, 2, 1, 2, 1, 3, 0, 0, 0, 0];
    let mut rng = Rng::new(31);
    let given = coefficients(&mut rng, &sheet);
    let mut drawn = coins(&mut rng, &sheet, false);
    let point = Subgroup::new(QUARTIC.base, 16).point(1, 3) as u32;
    drawn[4..12].copy_from_slice(&[point, 0, 0, 1, point, 0, 0, 2]);
    let file = honest_file(&sheet, &given, &drawn);
    files.push(("outside-by-d".into(), file.clone()));
    let outs = 12 + 64 + 4 + 32;
    let changes = [
        ("inside", [(outs + 7, 0), (0, 3)]),
        ("equal-in-four-words", [(outs + 7, 1), (0, 3)]),
        ("later-word-above", [(outs + 6, 2013265921), (0, 3)]),
        ("field-3-n0-2048", [(1, 2048), (0, 3)]),
        ("field-4", [(1, 2048), (0, 4)]),
    ];
    for (name, changes) in changes {
        let mut file = file.clone();
        for (word, value) in changes {
            write_word(&mut file, word, value);
        }
        generate::rewrite_checks(&mut file);
        files.push((name.into(), file));
    }

    // The largest sheets, honest.
    let largest: [[u32; 12]; 5] = [
        [2, 4096, 2048, 2, 5, 2, 48, 48, 48, 48, 48, 48],
        [2, 4096, 2048, 16, 1, 2, 48, 48, 0, 0, 0, 0],
        [2, 4096, 512, 4, 2, 2, 36, 27, 22, 0, 0, 0],
        [3, 1024, 512, 2, 5, 2, 48, 48, 48, 29, 13, 48],
        [3, 1024, 512, 16, 1, 2, 29, 48, 0, 0, 0, 0],
    ];
    for (i, sheet) in largest.iter().enumerate() {
        let mut rng = Rng::new(100 + i as u64);
        let given = coefficients(&mut rng, sheet);
        let drawn = coins(&mut rng, sheet, false);
        files.push((format!("largest-{i}"), honest_file(sheet, &given, &drawn)));
    }

    // Longer than any accepted file, up to what a program reads and past it: the largest file with a block more; the worked transcript with blocks more; a length that
    // is no whole number of blocks; no sheet; the last block's check wrong; and a check that is wrong behind the first 65,536 bytes.
    let longest = files[files.len() - 3].1.clone();
    files.push(("blocks-68".into(), filled_to(longest, 68 * 512)));
    files.push(("blocks-80".into(), filled_to(worked(&[]), 80 * 512)));
    files.push(("bytes-50000".into(), filled_to(worked(&[]), 50_000)));
    files.push(("blocks-127".into(), filled_to(Vec::new(), 127 * 512)));
    for (name, blocks) in [("blocks-128", 128), ("blocks-129", 129)] {
        let mut file = filled_to(worked(&[]), blocks * 512);
        *file.last_mut().expect("a byte") ^= 1;
        files.push((name.into(), file));
    }
    files
}

/// A file with blocks of zeros behind it, all checks right, up to a length.
fn filled_to(mut file: Vec<u8>, length: usize) -> Vec<u8> {
    file.resize(length, 0);
    generate::rewrite_checks(&mut file);
    file
}

/// Arguments of the program that it can read nothing from, a folder and a name that no file has: it prints no line for them.
const UNREADABLE: [&str; 2] = [".", "no-such-file"];

fn main() {
    let folder = std::env::args().nth(1).expect("a folder");
    let verdicts = std::env::args().any(|word| word == "--verdicts");
    for name in UNREADABLE.iter().filter(|_| !verdicts) {
        println!("{name}");
    }
    for (name, file) in files() {
        std::fs::write(Path::new(&folder).join(&name), &file).expect("the file is written");
        if verdicts {
            let read = &file[..file.len().min(65536)];
            println!("{}", line(verify(read)));
        } else {
            println!("{name}");
        }
    }
}
