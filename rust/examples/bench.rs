//! Verify, prove and encode in the archive, verify and prove of batches, and the nearest polynomial, beside the same algorithms in Rust, in one run: ratios first.
//!
//! Two baselines take turns with the archive: plain Rust, and Rust tuned by hand (one remainder for a product and a sum, two points in one
//! walk); and of verify a third, by the coefficient lists of the proved code. Where elements have four words there is one, plain Rust by coefficient lists. Each figure is
//! the least time of a call over several rounds.
//! With an argument the rows for the plots are written to that folder, as `verify.rows`, `prove.rows` and `encode.rows`.

use std::fmt::Write as _;
use std::hint::black_box;
use std::path::PathBuf;
use std::time::Instant;
use tevrolig::{batch, edition2, nearest};
use tevrolig_model::baseline::{self, Lists, Newton};
use tevrolig_model::batch::verify_batch;
use tevrolig_model::generate::batch::{honest_batch, order_of, Order};
use tevrolig_model::generate::nearest::{noise, planted_in_every_word, Case};
use tevrolig_model::generate::{self, Rng};
use tevrolig_model::sheet::Edition;
use tevrolig_model::stream;
use tevrolig_model::verify::verify_in;

/// The least time of one call in microseconds, for each of the functions, which take turns.
fn least<const N: usize>(calls: usize, mut work: [&mut dyn FnMut(); N]) -> [f64; N] {
    let mut best = [f64::MAX; N];
    for _ in 0..15 {
        for (function, least) in work.iter_mut().zip(&mut best) {
            let start = Instant::now();
            for _ in 0..calls {
                function();
            }
            *least = least.min(start.elapsed().as_secs_f64() * 1e6 / calls as f64);
        }
    }
    best
}

/// An honest run: what the prover is given, and its file.
struct HonestRun {
    edition: Edition,
    sheet: Vec<u32>,
    coefficients: Vec<u32>,
    coins: Vec<u32>,
    file: Vec<u8>,
}

impl HonestRun {
    fn new(sheet: &[u32]) -> Self {
        let mut rng = Rng::new(7);
        let coefficients = generate::coefficients(&mut rng, sheet);
        let coins = generate::coins(&mut rng, sheet, false);
        HonestRun {
            edition: Edition::of(sheet).expect("a sheet"),
            sheet: sheet.to_vec(),
            file: generate::honest_file(sheet, &coefficients, &coins),
            coefficients,
            coins,
        }
    }

    fn verify(&self) -> [f64; 4] {
        let (edition, file) = (self.edition, self.file.as_slice());
        let proved = match edition {
            Edition::One => tevrolig::verify,
            Edition::Two => edition2::verify,
        };
        let [plain, tuned, lists] = [
            baseline::verify::<Newton, false>,
            baseline::verify::<Newton, true>,
            baseline::verify::<Lists, true>,
        ];
        assert_eq!(proved(file).outcome, tevrolig::Outcome::Accepted);
        let verdict = verify_in(edition, file);
        assert_eq!(proved(file).reads, verdict.reads);
        for baseline in [plain, tuned, lists] {
            assert_eq!(baseline(edition, file), verdict);
        }
        least(
            calls(file),
            [
                &mut || {
                    black_box(proved(black_box(file)));
                },
                &mut || {
                    black_box(plain(edition, black_box(file)));
                },
                &mut || {
                    black_box(tuned(edition, black_box(file)));
                },
                &mut || {
                    black_box(lists(edition, black_box(file)));
                },
            ],
        )
    }

    fn prove(&self) -> [f64; 3] {
        let (edition, sheet) = (self.edition, self.sheet.as_slice());
        let (f, coins) = (self.coefficients.as_slice(), self.coins.as_slice());
        let prove = match edition {
            Edition::One => tevrolig::prove,
            Edition::Two => edition2::prove,
        };
        let mut outputs = [vec![0; 34304], vec![0; 34304], vec![0; 34304]];
        let [proved, plain, tuned] = &mut outputs;
        let best = least(
            calls(&self.file) / 2 + 1,
            [
                &mut || {
                    let answer = prove(black_box(sheet), f, coins, proved);
                    black_box(answer.expect("an honest input"));
                },
                &mut || {
                    let sheet = black_box(sheet);
                    black_box(baseline::prove::<false>(edition, sheet, f, coins, plain));
                },
                &mut || {
                    let sheet = black_box(sheet);
                    black_box(baseline::prove::<true>(edition, sheet, f, coins, tuned));
                },
            ],
        );
        for output in &outputs {
            assert_eq!(output[..self.file.len()], self.file);
        }
        best
    }

    fn encode(&self) -> [f64; 3] {
        let (sheet, f) = (self.sheet.as_slice(), self.coefficients.as_slice());
        let mut outputs = [vec![0; 4096], vec![0; 4096], vec![0; 4096]];
        let [proved, plain, tuned] = &mut outputs;
        let best = least(
            calls(&self.file) / 2 + 1,
            [
                &mut || {
                    let answer = tevrolig::encode(black_box(sheet), f, proved);
                    black_box(answer.expect("an honest input"));
                },
                &mut || {
                    black_box(baseline::encode::<false>(black_box(sheet), f, plain));
                },
                &mut || {
                    black_box(baseline::encode::<true>(black_box(sheet), f, tuned));
                },
            ],
        );
        assert!(outputs[0] == outputs[1] && outputs[0] == outputs[2]);
        best
    }
}

/// How often a call is timed in one go, by its file.
fn calls(file: &[u8]) -> usize {
    (2_000_000 / file.len()).max(5)
}

/// An honest batch: what the prover is given, and its file.
struct BatchRun {
    order: Order,
    file: Vec<u8>,
}

impl BatchRun {
    /// With so many tables, whose bounds are d0, 1, and between.
    fn new(sheet: &[u32], count: usize) -> Self {
        let mut order = order_of(&mut Rng::new(7), sheet, count, false);
        let (d0, width) = (sheet[2], if sheet[0] == 3 { 4 } else { 1 });
        order.bounds = (0..count as u32).map(|m| d0 - m * (d0 - 1) / 2).collect();
        let due = width * order.bounds.iter().sum::<u32>();
        order.coefficients = (0..due).map(|i| (i * i + 1) % 2013265921).collect();
        BatchRun {
            file: honest_batch(&order),
            order,
        }
    }

    fn verify(&self) -> [f64; 4] {
        let file = self.file.as_slice();
        let [plain, tuned, lists] = [
            baseline::verify_batch::<Newton, false>,
            baseline::verify_batch::<Newton, true>,
            baseline::verify_batch::<Lists, true>,
        ];
        let verdict = verify_batch(file);
        assert_eq!(batch::verify(file).outcome, tevrolig::Outcome::Accepted);
        assert_eq!(batch::verify(file).reads, verdict.reads);
        for baseline in [plain, tuned, lists] {
            assert_eq!(baseline(file), verdict);
        }
        least(
            calls(file),
            [
                &mut || {
                    black_box(batch::verify(black_box(file)));
                },
                &mut || {
                    black_box(plain(black_box(file)));
                },
                &mut || {
                    black_box(tuned(black_box(file)));
                },
                &mut || {
                    black_box(lists(black_box(file)));
                },
            ],
        )
    }

    fn prove(&self) -> [f64; 3] {
        let Order {
            sheet,
            bounds,
            coefficients: f,
            coins,
        } = &self.order;
        let mut outputs = [(); 3].map(|()| vec![0; self.file.len()]);
        let [proved, plain, tuned] = &mut outputs;
        let best = least(
            calls(&self.file) / 2 + 1,
            [
                &mut || {
                    let answer = batch::prove(black_box(sheet), bounds, f, coins, proved);
                    black_box(answer.expect("an honest input"));
                },
                &mut || {
                    let sheet = black_box(sheet);
                    black_box(baseline::prove_batch::<false>(
                        sheet, bounds, f, coins, plain,
                    ));
                },
                &mut || {
                    let sheet = black_box(sheet);
                    black_box(baseline::prove_batch::<true>(
                        sheet, bounds, f, coins, tuned,
                    ));
                },
            ],
        );
        for output in &outputs {
            assert_eq!(*output, self.file);
        }
        best
    }
}

/// The nearest polynomial to a table.
fn find(case: &Case) -> [f64; 3] {
    let (sheet, table) = (case.sheet.as_slice(), case.table.as_slice());
    let mut outputs = [(); 3].map(|()| vec![0; case.length]);
    let [proved, plain, tuned] = &mut outputs;
    let best = least(
        5,
        [
            &mut || {
                let _ = black_box(nearest::find(black_box(sheet), table, proved));
            },
            &mut || {
                black_box(baseline::nearest::<false>(black_box(sheet), table, plain));
            },
            &mut || {
                black_box(baseline::nearest::<true>(black_box(sheet), table, tuned));
            },
        ],
    );
    let mut due = vec![0; case.length];
    if let Some(Ok(words)) = &case.due {
        due[..words.len()].copy_from_slice(words);
    }
    for output in &outputs {
        assert!(*output == due);
    }
    best
}

/// A row: the ratios of the first time to each other, the times, and the sheet. With elements of four words there is one baseline.
fn show(what: &str, sheet: &[u32], bytes: usize, times: &[f64]) {
    let times = if sheet[0] == 3 { &times[..2] } else { times };
    let words: Vec<String> = sheet.iter().map(u32::to_string).collect();
    let ratio = |i: usize| {
        times.get(i).map_or("    -".to_string(), |time| {
            format!("{:5.2}", times[0] / time)
        })
    };
    let time = |i: usize| {
        times
            .get(i)
            .map_or("        -".to_string(), |time| format!("{time:9.1}"))
    };
    println!(
        "{} {} {}  {} {} {} {}  {:6}  {:7}{}",
        ratio(1),
        ratio(2),
        ratio(3),
        time(0),
        time(1),
        time(2),
        time(3),
        bytes,
        what,
        words.join(" ")
    );
}

fn main() {
    let folder = std::env::args().nth(1).map(PathBuf::from);
    println!("ratio to Rust            microseconds a call");
    println!("plain tuned lists     proved     plain     tuned     lists   bytes  sheet");
    #[rustfmt::skip]
    let named: [&[u32]; 10] = [
        &[2, 4096, 2048, 2, 5, 2, 48, 48, 48, 48, 48, 48],
        &[2, 4096, 2048, 16, 1, 2, 48, 48, 0, 0, 0, 0],
        &[2, 4096, 2048, 16, 2, 2, 48, 29, 48, 0, 0, 0, 4, 2, 0, 0, 0, 2],
        &[2, 4096, 512, 4, 2, 2, 36, 27, 22, 0, 0, 0],
        &[2, 1024, 256, 4, 2, 2, 20, 9, 12, 0, 0, 0],
        &[1, 256, 128, 4, 2, 2, 9, 5, 7, 0, 0, 0],
        &[0, 16, 8, 2, 1, 1, 1, 1, 0, 0, 0, 0],
        &[3, 1024, 512, 2, 5, 2, 48, 48, 48, 29, 13, 48],
        &[3, 1024, 512, 16, 1, 2, 29, 48, 0, 0, 0, 0],
        &[3, 16, 8, 2, 1, 1, 1, 1, 0, 0, 0, 0],
    ];
    for sheet in named {
        let run = HonestRun::new(sheet);
        show("verify ", sheet, run.file.len(), &run.verify());
        show("prove  ", sheet, run.file.len(), &run.prove());
        if run.edition == Edition::One {
            show("encode ", sheet, run.file.len(), &run.encode());
        }
    }

    #[rustfmt::skip]
    let batches: [(usize, &[u32]); 3] = [
        (3, &[2, 1024, 256, 4, 2, 2, 20, 9, 12, 0, 0, 0]),
        (2, &[2, 4096, 2048, 2, 5, 2, 48, 48, 48, 48, 48, 48]),
        (2, &[3, 1024, 512, 2, 5, 2, 48, 48, 48, 29, 13, 48]),
    ];
    for (count, sheet) in batches {
        let run = BatchRun::new(sheet, count);
        let [verify, prove] = ["verify", "prove"].map(|what| format!("{what} {count} tables: "));
        show(&verify, sheet, run.file.len(), &run.verify());
        show(&prove, sheet, run.file.len(), &run.prove());
    }

    // Tables with no wrong entry, with as many as there may be, and drawn ones, which nothing is near to.
    for [field, n0, d0] in [[2, 4096, 2048], [3, 1024, 512]] {
        let sheet = [field, n0, d0, 2, 0, 1, 1, 0, 0, 0, 0, 0];
        let (most, rng) = ((n0 - d0) as usize / 2, &mut Rng::new(7));
        let cases = [
            ("0 wrong", planted_in_every_word(rng, &sheet, 0)),
            ("10 wrong", planted_in_every_word(rng, &sheet, 10)),
            ("the most wrong", planted_in_every_word(rng, &sheet, most)),
            ("drawn", noise(rng, &sheet)),
        ];
        for (what, case) in cases {
            let bytes = 4 * case.table.len();
            show(&format!("nearest, {what}: "), &sheet, bytes, &find(&case));
        }
    }

    // What the pass over the file and its ranges takes: a file whose first out coin lies in its domain is refused right after it.
    let mut run = HonestRun::new(named[0]);
    let whole = run.verify()[0];
    stream::write_word(&mut run.file, 12 + 4096 + 1 + 2048, 1282623253);
    stream::write_checks(&mut run.file);
    let refused = tevrolig::verify(&run.file);
    assert_eq!(refused.line(), "refused 7 6157 0");
    let pass = least(
        calls(&run.file),
        [&mut || {
            black_box(tevrolig::verify(black_box(&run.file)));
        }],
    )[0];
    println!(
        "the pass over the largest file, its ranges and its points: {pass:.1} of {whole:.1} microseconds, {:.0} %",
        100.0 * pass / whole
    );

    let Some(folder) = folder else { return };
    let by_size = [16, 64, 256, 1024, 4096].map(|n0| [2, n0, 8, 2, 1, 1, 1, 1, 0, 0, 0, 0]);
    let by_coins = [2, 4, 8, 16, 32, 48].map(|t| [2, 4096, 2048, 16, 1, 2, t, t, 0, 0, 0, 0]);
    let mut rows = [String::new(), String::new(), String::new()];
    let sheets = by_size.iter().map(|sheet| ("n0", sheet[1], sheet));
    let sheets = sheets.chain(by_coins.iter().map(|s| ("tk", s[3] * s[6], s)));
    for (kind, value, sheet) in sheets {
        let run = HonestRun::new(sheet);
        let verify = run.verify();
        let prove = run.prove();
        let mut times = vec![(verify[0], verify[1]), (prove[0], prove[1])];
        if kind == "n0" {
            let encode = run.encode();
            times.push((encode[0], encode[1]));
        }
        for (rows, (proved, plain)) in rows.iter_mut().zip(times) {
            writeln!(rows, "{kind} {value} {proved:.2} {plain:.2}").expect("a string");
        }
    }
    std::fs::create_dir_all(&folder).expect("the folder can be made");
    for (name, rows) in ["verify", "prove", "encode"].iter().zip(rows) {
        std::fs::write(folder.join(format!("{name}.rows")), rows).expect("the rows are written");
    }
}
