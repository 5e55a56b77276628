//! Prints the load of a seed, line by line; with the word `inputs` what is drawn
//! instead, one run in each line: sheet, coefficients and coins.

use std::env;
use std::io::{self, BufWriter, Write};
use std::process::ExitCode;
use tevrolig_model::load;

fn main() -> ExitCode {
    let arguments: Vec<String> = env::args().skip(1).collect();
    let seed = arguments.first().and_then(|text| text.parse().ok());
    let drawn = arguments.get(1).is_some_and(|word| word == "inputs");
    let Some(seed) = seed else {
        eprintln!("usage: load SEED [inputs]");
        return ExitCode::FAILURE;
    };
    let printed = if drawn && seed != 0 {
        print(load::drawn_inputs(seed).map(|input| input.to_string()))
    } else {
        print(load::lines(seed).into_iter())
    };
    printed.map_or(ExitCode::FAILURE, |()| ExitCode::SUCCESS)
}

fn print(lines: impl Iterator<Item = String>) -> io::Result<()> {
    let mut out = BufWriter::new(io::stdout().lock());
    for line in lines {
        writeln!(out, "{line}")?;
    }
    out.flush()
}
