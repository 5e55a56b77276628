//! Verifies standard input, at most its first 65,536 bytes, and prints the verdict; with the argument 2, as a file of edition 2. After the edition, `read` and
//! `decide` are for the steps of verify; reading is printed with no reads. With `batch` after it, the input is verified as a batch; with `openings` as an opening
//! file, of at most 614,400 bytes; with `open` the opening file of an accepted file is written instead of a verdict.

use std::io::{self, Read, Write};
use tevrolig_model::batch::verify_batch;
use tevrolig_model::openings::{build_openings, verify_openings};
use tevrolig_model::sheet::Edition;
use tevrolig_model::verify::{decide_in, read_in, verify_in, Verdict};
use tevrolig_model::{line, Answer};

/// One block more than any opening file that is accepted.
const MOST_OPENING_BYTES: usize = 614_400;

fn main() -> io::Result<()> {
    let mut arguments = std::env::args().skip(1);
    let edition = match arguments.next().as_deref() {
        Some("2") => Edition::Two,
        _ => Edition::One,
    };
    let step = arguments.next();
    let most = match step.as_deref() {
        Some("openings") => MOST_OPENING_BYTES,
        _ => 65_536,
    };
    let mut file = Vec::new();
    io::stdin()
        .lock()
        .take(most as u64)
        .read_to_end(&mut file)?;
    let verdict = match step.as_deref() {
        Some("open") => {
            let mut output = vec![0; MOST_OPENING_BYTES];
            return match build_openings(&file, &mut output) {
                Answer::Done(blocks) => io::stdout().write_all(&output[..512 * blocks as usize]),
                Answer::Refused { number, place } => {
                    eprintln!("refused {number} {place}");
                    std::process::exit(1)
                }
            };
        }
        Some("openings") => verify_openings(&file),
        Some("read") => Verdict {
            outcome: read_in(edition, &file),
            reads: 0,
        },
        Some("decide") => decide_in(edition, &file),
        Some("batch") => verify_batch(&file),
        _ => verify_in(edition, &file),
    };
    println!("{}", line(verdict));
    Ok(())
}
