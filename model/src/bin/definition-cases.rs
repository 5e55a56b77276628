//! Prints small test cases in all four fields, one per line: the file's bytes in
//! hexadecimal (`-` for none), then outcome, number, place and reads.
//!
//! Arguments: seed, count, and optionally what to print instead:
//! - `edition2`: the same for files of edition 2;
//! - `steps`: the edition, `read` or `decide`, and the same for that step of verify; of
//!   reading there are no reads;
//! - `convert`: the edition to convert to, the file's bytes, the output's length,
//!   `done 0 BLOCKS` or `refused NUMBER PLACE`, and the output's bytes afterwards,
//!   all of which were 165 before;
//! - `inputs`: a state of the load's generator, the state after one run, and the
//!   run's sheet, coefficients and coins, with bars between them;
//! - `batches`: as first, of files taken for batches;
//! - `orders`: the words of a sheet, of bounds, coefficients and coins of a batch, the
//!   output's length, and answer and output as for `convert`, with bars between them;
//! - `nearest`: the words of a sheet and of a table, the output's length, the answer of the
//!   search for the nearest polynomial, and the output's words afterwards, all of which were
//!   165 before, with bars between them;
//! - `openings`: as first, of opening files;
//! - `builder`: as for `convert` without the edition, of files that opening files are built
//!   of.

use std::env;
use std::io::{self, BufWriter, Write};
use std::process::ExitCode;
use tevrolig_model::batch::{prove_batch, verify_batch};
use tevrolig_model::convert::convert_to;
use tevrolig_model::generate::batch::{aim_batch, honest_batch, order_of, Order, BATCH_REFUSALS};
use tevrolig_model::generate::equal_outs::equal_coin_drawn;
use tevrolig_model::generate::nearest::{self, Case};
use tevrolig_model::generate::openings::{
    aim_openings, honest_full, refused_openings, OPENING_REFUSALS,
};
use tevrolig_model::generate::repeats::{fail_late, repeat};
use tevrolig_model::generate::{
    aim, coefficients, coins, convert, damage, disturb, honest_file, sheet_over, sheet_up_to, Rng,
};
use tevrolig_model::load::{Generator, WORKED_SHEET};
use tevrolig_model::nearest::nearest as find_nearest;
use tevrolig_model::openings::{build_openings, shut, verify_openings};
use tevrolig_model::sheet::Edition;
use tevrolig_model::verify::{decide_in, read_in, verify_in};
use tevrolig_model::{line, Answer, Verdict};

/// Bytes of a file at most: two blocks, or four where elements have four words.
const MOST_BYTES: usize = 1024;
const MOST_BYTES_OF_FOUR: usize = 2048;

fn main() -> ExitCode {
    let arguments: Vec<String> = env::args().skip(1).collect();
    let number = |at: usize| arguments.get(at).and_then(|text| text.parse::<u64>().ok());
    let draw: Option<fn(&mut Rng, u64) -> String> = match arguments.get(2).map(String::as_str) {
        None => Some(|rng, case| verified(Edition::One, rng, case)),
        Some("edition2") => Some(|rng, case| verified(Edition::Two, rng, case)),
        Some("steps") => Some(in_one_step),
        Some("convert") => Some(converted),
        Some("inputs") => Some(drawn_input),
        Some("batches") => Some(batch_verified),
        Some("orders") => Some(batch_proved),
        Some("nearest") => Some(searched),
        Some("openings") => Some(openings_verified),
        Some("builder") => Some(openings_built),
        Some(_) => None,
    };
    let (Some(seed), Some(count), Some(draw)) = (number(0), number(1), draw) else {
        eprintln!(
            "usage: definition-cases SEED COUNT [edition2 | steps | convert | inputs | batches | orders | nearest | openings | builder]"
        );
        return ExitCode::FAILURE;
    };

    let mut rng = Rng::new(seed);
    let mut out = BufWriter::new(io::stdout().lock());
    for case in 0..count {
        if writeln!(out, "{}", draw(&mut rng, case)).is_err() {
            return ExitCode::FAILURE;
        }
    }
    ExitCode::SUCCESS
}

fn hexadecimal(bytes: &[u8]) -> String {
    if bytes.is_empty() {
        return "-".to_string();
    }
    bytes.iter().map(|byte| format!("{byte:02x}")).collect()
}

/// A file with its verdict; the first is empty.
fn verified(edition: Edition, rng: &mut Rng, case: u64) -> String {
    let file = match case {
        0 => Vec::new(),
        _ => small(edition, rng, case as usize),
    };
    let verdict = line(verify_in(edition, &file));
    format!("{} {verdict}", hexadecimal(&file))
}

/// A file of either edition in one of verify's two steps.
fn in_one_step(rng: &mut Rng, case: u64) -> String {
    let (number, edition) = match case % 2 {
        0 => (1, Edition::One),
        _ => (2, Edition::Two),
    };
    let file = small(edition, rng, case as usize / 4);
    let (step, verdict) = match case / 2 % 2 {
        0 => {
            let outcome = read_in(edition, &file);
            ("read", Verdict { outcome, reads: 0 })
        }
        _ => ("decide", decide_in(edition, &file)),
    };
    format!("{number} {step} {} {}", hexadecimal(&file), line(verdict))
}

/// A file that is converted, or refused, with the output afterwards. One in two is
/// made for edition 2.
fn converted(rng: &mut Rng, case: u64) -> String {
    let (number, to) = match case % 2 {
        0 => (2, Edition::Two),
        _ => (1, Edition::One),
    };
    let case = loop {
        let case = convert::case(to, rng, 32);
        if case.file.len() <= MOST_BYTES && case.length <= MOST_BYTES {
            break case;
        }
    };
    let mut output = vec![165; case.length];
    let answer = answered(convert_to(to, &case.file, &mut output));
    let (file, output) = (hexadecimal(&case.file), hexadecimal(&output));
    format!("{number} {file} {} {answer} {output}", case.length)
}

fn answered(answer: Answer) -> String {
    match answer {
        Answer::Done(size) => format!("done 0 {size}"),
        Answer::Refused { number, place } => format!("refused {number} {place}"),
    }
}

/// A run of the load that is short to compute: half of them have rounds, and so out
/// coins, one in eight falls back to the worked sheet, and in one of eight an out coin
/// is drawn that equals the one before it.
fn drawn_input(rng: &mut Rng, case: u64) -> String {
    loop {
        let before = Generator { v: rng.word() };
        // Elsewhere equal coins are too rare to wait for.
        if case % 8 == 5 && before.clone().sheet()[..6] != [0, 16, 8, 2, 1, 2] {
            continue;
        }
        let mut after = before.clone();
        let input = after.draw_input();
        let words = input.coefficients.len() + input.coins.len();
        let wanted = match case % 8 {
            0 => input.sheet == WORKED_SHEET,
            1..=4 => input.sheet[4] > 0 && input.sheet != WORKED_SHEET,
            5 => equal_coin_drawn(&before, &input),
            _ => true,
        };
        let small = input.sheet[1] <= 128 || input.sheet[4] == 0;
        if wanted && words <= 100 && small {
            return format!("{} | {} | {input}", before.v, after.v);
        }
    }
}

/// An order for a batch that is short to compute: of three tables at most, over few points.
fn small_order(rng: &mut Rng) -> Order {
    let field = rng.below(4) as u32;
    let most_n0 = if field == 3 { 8 } else { 16 };
    let mut sheet = sheet_over(Edition::One, rng, field, most_n0);
    while sheet[4] == 0 && !rng.one_in(4) {
        sheet = sheet_over(Edition::One, rng, field, most_n0);
    }
    let last = 6 + sheet[4] as usize;
    sheet[last] = sheet[last].min(4);
    let count = 1 + rng.place(3);
    let hostile = rng.one_in(2);
    order_of(rng, &sheet, count, hostile)
}

/// A file taken for a batch, with its verdict: a third honest, the rest damaged.
fn batch_verified(rng: &mut Rng, case: u64) -> String {
    let mut file = honest_batch(&small_order(rng));
    if case % 16 == 15 {
        file = small(Edition::One, rng, case as usize);
    } else if !case.is_multiple_of(3) {
        let number = BATCH_REFUSALS[case as usize / 3 % BATCH_REFUSALS.len()];
        aim_batch(rng, &mut file, number);
    }
    format!("{} {}", hexadecimal(&file), line(verify_batch(&file)))
}

/// An order for a batch, half of them with lists that are disturbed, and what is answered
/// and written.
fn batch_proved(rng: &mut Rng, case: u64) -> String {
    let mut order = small_order(rng);
    let due = honest_batch(&order).len();
    let length = due + rng.pick(&[0, 1]) - usize::from(rng.one_in(6));
    if case % 2 == 1 {
        let Order {
            sheet,
            bounds,
            coefficients,
            coins,
        } = &mut order;
        for list in [sheet, bounds, coefficients, coins] {
            disturb(rng, list);
        }
    }
    let mut output = vec![165; length];
    let Order {
        sheet,
        bounds,
        coefficients,
        coins,
    } = &order;
    let answer = answered(prove_batch(sheet, bounds, coefficients, coins, &mut output));
    let lists = [sheet, bounds, coefficients, coins].map(|list| decimal(list));
    format!(
        "{} | {length} {answer} {}",
        lists.join(" | "),
        hexadecimal(&output)
    )
}

/// A search for the nearest polynomial. The definition goes through all polynomials, so they are
/// few, or the one that is near comes early: its coefficients but for the first two are 0, or the
/// third is 1. In other fields than the smallest a test fails before the search.
fn searched(rng: &mut Rng, case: u64) -> String {
    let n0 = rng.pick(&[4, 8, 16]);
    let mut given = match case % 4 {
        0 | 1 => nearest::case(rng, &[0, n0, 2, 2, 0, 1, 1, 0, 0, 0, 0, 0]),
        2 => {
            let sheet = sheet_up_to(Edition::One, rng, 16);
            let before_the_search = &nearest::TESTS[..5];
            let [first, other] = [(); 2].map(|()| rng.pick(before_the_search));
            let second = rng.pick(&[first, other]);
            nearest::faulty(rng, &sheet, [first, second].into_iter())
        }
        _ => {
            let n0 = n0.max(8);
            let d0 = rng.pick(&[4, n0 / 2]);
            let sheet = [0, n0, d0, 2, 0, 1, 1, 0, 0, 0, 0, 0];
            let mut f = vec![0; d0 as usize];
            f[..2].fill_with(|| rng.below(17) as u32);
            f[2] = rng.below(2) as u32;
            let most = (n0 - d0) as usize / 2;
            let wrong = nearest::some_places(rng, n0 as usize, most);
            nearest::spoiled_table(rng, &sheet, f, &wrong)
        }
    };
    if case % 4 != 2 {
        given.length += rng.place(2);
    }
    let Case {
        sheet,
        table,
        length,
        ..
    } = given;
    let mut output = vec![165; length];
    let answer = answered(find_nearest(&sheet, &table, &mut output));
    let [sheet, table, output] = [sheet, table, output].map(|list| decimal(&list));
    format!("{sheet} | {table} | {length} {answer} | {output}")
}

fn decimal(list: &[u32]) -> String {
    let words: Vec<String> = list.iter().map(u32::to_string).collect();
    words.join(" ")
}

/// A full file over 4 or 8 points with few coins, or over 16 with one each, so that its
/// hashes are short to compute.
fn few_places(rng: &mut Rng) -> Vec<u8> {
    let field = rng.below(4) as u32;
    let sheet = if rng.one_in(3) {
        // The smallest sheet that has a round.
        let outs = 1 + rng.below(2) as u32;
        [field, 16, 8, 2, 1, outs, 1, 1, 0, 0, 0, 0].to_vec()
    } else {
        let mut sheet = sheet_over(Edition::One, rng, field, 8);
        sheet[6] = sheet[6].min(1 + rng.below(2) as u32);
        sheet
    };
    let hostile = rng.one_in(2);
    honest_full(rng, &sheet, hostile)
}

/// An opening file with its verdict: a third honest, the rest damaged, now and then twice.
fn openings_verified(rng: &mut Rng, case: u64) -> String {
    let file = if case.is_multiple_of(3) {
        shut(&few_places(rng)).expect("a file that is read")
    } else {
        let at = case as usize / 3 % OPENING_REFUSALS.len();
        let mut file = damaged_openings(rng, OPENING_REFUSALS[at]);
        if rng.one_in(4) {
            let earlier = OPENING_REFUSALS[rng.place(at + 1)];
            aim_openings(rng, &mut file, earlier);
        }
        file
    };
    format!("{} {}", hexadecimal(&file), line(verify_openings(&file)))
}

/// An opening file with damage of this number, half of the time in the full file that it is
/// made of, where that is possible.
fn damaged_openings(rng: &mut Rng, number: u32) -> Vec<u8> {
    loop {
        let full = few_places(rng);
        if matches!(number, 7 | 14 | 8 | 9) && rng.one_in(2) {
            if let Some(file) = refused_openings(rng, &full, number) {
                return file;
            }
        }
        let mut file = shut(&full).expect("a file that is read");
        if aim_openings(rng, &mut file, number) {
            return file;
        }
    }
}

/// A full file that an opening file is built of, or a refused one, with the output
/// afterwards.
fn openings_built(rng: &mut Rng, case: u64) -> String {
    let mut file = few_places(rng);
    let due = shut(&file).expect("a file that is read").len();
    let length = due + rng.pick(&[0, 1]) - usize::from(rng.one_in(4));
    if case % 4 == 3 {
        damage(Edition::One, rng, &mut file);
    }
    let mut output = vec![165; length];
    let answer = answered(build_openings(&file, &mut output));
    let (file, output) = (hexadecimal(&file), hexadecimal(&output));
    format!("{file} {length} {answer} {output}")
}

/// The faults of small files; those that leave more to compute are wanted more often, and
/// 0 is any damage.
const FAULTS: [u32; 16] = [1, 7, 9, 2, 14, 8, 3, 9, 4, 7, 5, 14, 9, 6, 8, 0];
/// Those of files with repeated indices.
const DECIDED: [u32; 8] = [8, 9, 9, 14, 8, 9, 9, 0];

/// A file of any field: about a third honest, the rest damaged, not empty. In a third of
/// them indices are repeated, and those mostly have several shift coins, and damage that
/// deciding finds. Most have rounds, and at most 6 final coins, and none has final coins
/// with more than 128 places, so that a case is short to compute.
fn small(edition: Edition, rng: &mut Rng, case: usize) -> Vec<u8> {
    let field = rng.below(4) as u32;
    let repeated = case.is_multiple_of(3);
    let (shifts, tries) = if repeated { (2, 64) } else { (1, 8) };
    // With four words each, fewer points: a case is to be short to compute.
    let (most_n0, most_bytes) = match field {
        3 if !rng.one_in(4) => (16, MOST_BYTES_OF_FOUR),
        3 => (32, MOST_BYTES_OF_FOUR),
        _ => (32, MOST_BYTES),
    };
    let mut sheet = sheet_over(edition, rng, field, most_n0);
    while (sheet[4] == 0 || sheet[6] < shifts) && !rng.one_in(tries) {
        sheet = sheet_over(edition, rng, field, most_n0);
    }
    let last = sheet[4] as usize;
    let fold = match edition {
        Edition::Two if last > 0 => sheet[11 + last],
        _ => sheet[3],
    };
    let most = match rng.below(16) {
        0 => 128 / fold,
        _ if repeated => 3 + rng.below(4) as u32,
        _ => 1 + rng.below(6) as u32,
    };
    sheet[6 + last] = sheet[6 + last].min(most);
    let polynomial = coefficients(rng, &sheet);
    let hostile = rng.one_in(2);
    let mut coins = coins(rng, &sheet, hostile);
    if repeated {
        repeat(rng, &sheet, &mut coins);
    }
    let file = honest_file(&sheet, &polynomial, &coins);
    if rng.one_in(3) {
        return file;
    }
    let faults: &[u32] = if repeated { &DECIDED } else { &FAULTS };
    let mut number = faults[case % faults.len()];
    loop {
        let mut damaged = file.clone();
        let hit = match number {
            0 => damage(edition, rng, &mut damaged).is_none(),
            9 if repeated && rng.one_in(2) => {
                fail_late(rng, &sheet, &mut damaged);
                true
            }
            _ => aim(edition, rng, &mut damaged, number),
        };
        if hit && !damaged.is_empty() && damaged.len() <= most_bytes {
            return damaged;
        }
        // The file has no place for that fault.
        number = rng.pick(faults);
    }
}
