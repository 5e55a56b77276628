//! Runs the program given as the first argument on many inputs and compares what
//! it prints with the load of the model, byte by byte. The second argument is the
//! number of seeds. For one seed in sixteen the model proves and verifies every file;
//! for the others it draws every input of the prover and says what an honest file is
//! promised.

use std::env;
use std::io::{self, Write};
use std::process::{Command, ExitCode, Stdio};
use tevrolig_model::generate::Rng;
use tevrolig_model::load::{lines, lines_by, seed, ProverInput};

fn main() -> ExitCode {
    let arguments: Vec<String> = env::args().skip(1).collect();
    let count = arguments.get(1).and_then(|text| text.parse().ok());
    let (Some(program), Some(count)) = (arguments.first(), count) else {
        eprintln!("usage: load-against PROGRAM COUNT");
        return ExitCode::FAILURE;
    };
    let inputs = inputs(count);
    for (number, input) in inputs.iter().enumerate() {
        match agree(program, input, number % 16 == 0) {
            Ok(true) => {}
            Ok(false) => {
                eprintln!("{program} differs from the model on the input {input:?}");
                return ExitCode::FAILURE;
            }
            Err(error) => {
                eprintln!("{program}: {error}");
                return ExitCode::FAILURE;
            }
        }
    }
    println!("the program and the model agree on {} loads", inputs.len());
    ExitCode::SUCCESS
}

/// Seeds of four bytes, most of them any, and inputs that are shorter, longer or 0.
fn inputs(count: usize) -> Vec<Vec<u8>> {
    let mut rng = Rng::new(2);
    let mut inputs: Vec<Vec<u8>> = (0..count)
        .map(|number| match number % 8 {
            0 => number as u32 / 8 + 1,
            1 => 1 << (number / 8 % 32),
            2 => u32::MAX - number as u32 / 8,
            _ => rng.word(),
        })
        .map(|seed| seed.to_le_bytes().to_vec())
        .collect();
    for length in [1, 2, 3, 5, 512, 70_000] {
        inputs.push((0..length).map(|_| rng.word() as u8).collect());
    }
    for length in [0, 1, 3, 4] {
        inputs.push(vec![0; length]);
    }
    inputs.push(vec![0, 0, 0, 0, 1]);
    inputs.push(vec![0, 0, 0, 1]);
    inputs
}

/// The program runs while the model works.
fn agree(program: &str, input: &[u8], whole: bool) -> io::Result<bool> {
    let mut running = Command::new(program)
        .stdin(Stdio::piped())
        .stdout(Stdio::piped())
        .spawn()?;
    // It may stop reading before the input ends.
    let _ = running.stdin.take().map(|mut pipe| pipe.write_all(input));
    let seed = seed(input);
    let expected = if whole {
        lines(seed)
    } else {
        lines_by(seed, ProverInput::promised)
    };
    let printed = running.wait_with_output()?;
    let expected = expected.join("\n") + "\n";
    Ok(printed.status.success() && printed.stdout == expected.as_bytes())
}
