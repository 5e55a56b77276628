//! Orders of batches with one fault or several, in the archive and in the model: which refusal it is, where, and that nothing is written.

mod common;

use common::batch::{known, prove, proved};
use common::{limits, refused, One};
use std::collections::BTreeSet;
use tevrolig_model::domain::Subgroup;
use tevrolig_model::generate::batch::{most_tables, order, order_of, Order};
use tevrolig_model::generate::{self, break_length, too_large, Rng};
use tevrolig_model::layout::{Layout, Part};
use tevrolig_model::sheet::Sheet;
use tevrolig_model::Answer;

/// The tests of an order, in the order in which they are made.
#[derive(Debug, Clone, Copy, PartialEq, Eq, PartialOrd, Ord)]
enum Test {
    SheetLength,
    Sheet,
    TableCount,
    Bound,
    CoefficientCount,
    CoinCount,
    Coefficients,
    FirstCoin,
    Coins,
    OutCoins,
    EqualOuts,
    Output,
}

const TESTS: [Test; 12] = [
    Test::SheetLength,
    Test::Sheet,
    Test::TableCount,
    Test::Bound,
    Test::CoefficientCount,
    Test::CoinCount,
    Test::Coefficients,
    Test::FirstCoin,
    Test::Coins,
    Test::OutCoins,
    Test::EqualOuts,
    Test::Output,
];

/// An order with faults, and the output's length.
struct Faulty {
    order: Order,
    length: usize,
    sheet: Sheet,
    layout: Layout,
}

impl Faulty {
    /// Makes the order fail this test, where it can, and answers the refusal. What a later test needs was there before.
    fn fail(&mut self, rng: &mut Rng, test: Test) -> Option<(u32, usize)> {
        let (blocks, width) = (self.layout.blocks(), self.sheet.width);
        let due: usize = self.order.bounds.iter().map(|&b| width * b as usize).sum();
        let Order {
            sheet,
            bounds,
            coefficients,
            coins,
        } = &mut self.order;
        match test {
            Test::SheetLength => {
                break_length(rng, sheet);
                Some((10, 0))
            }
            Test::Sheet => {
                let faults = generate::two_faults(rng, sheet);
                for (at, word) in faults.into_iter().rev() {
                    sheet[at] = word;
                }
                Some((3, faults[0].0))
            }
            Test::TableCount => {
                let most = most_tables(sheet);
                let counts = [0, most + 1, most + 1, 9, 100];
                bounds.resize(rng.pick(&counts), 1);
                Some((15, 0))
            }
            Test::Bound => {
                let (at, later) = (rng.place(bounds.len()), rng.place(bounds.len()));
                let over = too_large(rng, self.sheet.d0 as u64 + 1);
                for at in [at, at.max(later)] {
                    bounds[at] = rng.pick(&[0, over]);
                }
                Some((15, at + 1))
            }
            Test::CoefficientCount => {
                break_length(rng, coefficients);
                Some((10, 1))
            }
            Test::CoinCount => {
                break_length(rng, coins);
                Some((10, 2))
            }
            Test::Coefficients => {
                let (at, later) = (rng.place(due), rng.place(due));
                for at in [at, at.max(later)] {
                    coefficients[at] = too_large(rng, self.sheet.field.p);
                }
                Some((5, at))
            }
            Test::FirstCoin => {
                let at = rng.place(width);
                coins[at] = too_large(rng, self.sheet.field.p);
                Some((5, due + at))
            }
            Test::Coins => {
                let limits: Vec<u64> = self.layout.coin_sections().flat_map(limits).collect();
                let at = width + rng.place(limits.len() - width);
                coins[at] = too_large(rng, limits[at]);
                Some((5, due + at))
            }
            Test::OutCoins | Test::EqualOuts => {
                let round = 1 + rng.place(self.sheet.rounds);
                let words = self.layout.range(Part::OutCoins(round));
                let first = self.layout.coin_position(words.start);
                if words.is_empty() || test == Test::EqualOuts && self.sheet.outs < 2 {
                    return None;
                }
                if test == Test::EqualOuts {
                    coins.copy_within(first..first + width, first + width);
                    return Some((14, first + width));
                }
                let at = first + width * rng.place(self.sheet.outs);
                let subgroup = Subgroup::of(&self.sheet);
                let point = subgroup.point(round, rng.place(self.sheet.n(round)));
                coins[at..at + width].fill(0);
                coins[at] = point as u32;
                Some((7, at))
            }
            Test::Output => {
                let size = 512 * blocks;
                self.length = rng.pick(&[0, size / 2, size - 1]);
                Some((11, blocks))
            }
        }
    }
}

/// Later tests are made to fail first, so that what an earlier one needs stands; the first that is made counts, and nothing is written.
#[test]
fn faulty_orders() {
    let mut met = BTreeSet::new();
    for seed in 0..30_000 {
        let rng = &mut Rng::new(seed);
        let sheet = generate::sheet_up_to(One, rng, 64);
        let order = order(rng, &sheet, seed % 2 == 0);
        let (known, layout) = known(&order);
        let mut faulty = Faulty {
            length: 512 * layout.blocks() + rng.place(100),
            sheet: known,
            order,
            layout,
        };
        let some = 1 + rng.place(3);
        let chosen: BTreeSet<Test> = (0..some).map(|_| rng.pick(&TESTS)).collect();
        let mut expected = None;
        for &test in chosen.iter().rev() {
            if let Some(refusal) = faulty.fail(rng, test) {
                expected = Some((test, refusal));
            }
        }
        let Some((test, refusal)) = expected else {
            continue;
        };
        let what = format!("{chosen:?}, seed {seed}");
        let (answer, _) = prove(&faulty.order, faulty.length, &what);
        assert_eq!(answer, refused(refusal), "{what}");
        let place = matches!(test, Test::Sheet | Test::Bound).then_some(refusal.1);
        met.insert((test, place));
    }
    for test in TESTS {
        let places: Vec<Option<usize>> = match test {
            Test::Sheet => (0..12).map(Some).collect(),
            Test::Bound => (1..9).map(Some).collect(),
            _ => vec![None],
        };
        for place in places {
            assert!(met.contains(&(test, place)), "{test:?} {place:?} is met");
        }
    }
}

/// Every position of the bounds, the coefficients and the coins in turn.
#[test]
fn every_position_of_an_order() {
    let orders: [(&[u32], &[u32]); 4] = [
        (&[0, 16, 8, 2, 1, 1, 1, 1, 0, 0, 0, 0], &[3, 8, 1]),
        (&[3, 16, 8, 2, 1, 2, 1, 3, 0, 0, 0, 0], &[8, 1]),
        (
            &[1, 64, 16, 4, 0, 1, 3, 0, 0, 0, 0, 0],
            &[1, 1, 1, 1, 16, 1, 1, 5],
        ),
        (&[2, 64, 32, 2, 3, 1, 3, 2, 2, 7, 0, 0], &[32]),
    ];
    for (seed, (sheet, bounds)) in (0..).zip(orders) {
        let rng = &mut Rng::new(seed);
        let mut order = order_of(rng, sheet, bounds.len(), false);
        let (known, layout) = known(&order);
        let what = format!("every position, seed {seed}");
        let length = 512 * layout.blocks();
        order.bounds = bounds.to_vec();
        let due = known.width * bounds.iter().sum::<u32>() as usize;
        let p = known.field.p;
        order.coefficients = (0..due).map(|_| rng.below(p) as u32).collect();
        for (at, &kept) in bounds.iter().enumerate() {
            for word in [0, known.d0 as u32 + 1, u32::MAX] {
                order.bounds[at] = word;
                assert_eq!(prove(&order, length, &what).0, refused((15, at + 1)));
            }
            order.bounds[at] = kept;
        }
        for at in 0..due {
            let kept = order.coefficients[at];
            for word in [p as u32, u32::MAX] {
                order.coefficients[at] = word;
                assert_eq!(prove(&order, length, &what).0, refused((5, at)));
            }
            order.coefficients[at] = kept;
        }
        let every: Vec<u64> = layout.coin_sections().flat_map(limits).collect();
        for (at, limit) in every.into_iter().enumerate() {
            let kept = order.coins[at];
            for word in [limit as u32, u32::MAX] {
                order.coins[at] = word;
                assert_eq!(prove(&order, length, &what).0, refused((5, due + at)));
            }
            order.coins[at] = kept;
        }
        proved(&order, 0, &what);
    }
}

/// Lists and outputs of any length, empty ones too, and words of any size.
#[test]
fn any_lists() {
    let empty = Order {
        sheet: Vec::new(),
        bounds: Vec::new(),
        coefficients: Vec::new(),
        coins: Vec::new(),
    };
    assert_eq!(prove(&empty, 0, "empty").0, refused((10, 0)));
    let (mut done, mut numbers) = (0, BTreeSet::new());
    for seed in 0..20_000 {
        let rng = &mut Rng::new(seed);
        let sheet = generate::sheet_up_to(One, rng, 32);
        let mut order = order(rng, &sheet, true);
        let width = if sheet[0] == 3 { 4 } else { 1 };
        let lists = [
            &mut order.sheet,
            &mut order.bounds,
            &mut order.coefficients,
            &mut order.coins,
        ];
        for list in lists {
            generate::disturb(rng, list);
        }
        if rng.one_in(8) && order.coins.len() >= 4 * width {
            // Out coins, where there are rounds with two.
            order.coins.copy_within(2 * width..3 * width, 3 * width);
        }
        let length = rng.pick(&[0, 511, 512, 1024, 2000, 8192]);
        match prove(&order, length, &format!("any, seed {seed}")).0 {
            Answer::Done(_) => done += 1,
            Answer::Refused { number, place } => {
                numbers.insert((number, if number == 10 { place } else { 0 }));
            }
        }
    }
    assert!(done > 1_500, "{done} of these orders are proved");
    let lengths = [(10, 0), (10, 1), (10, 2)];
    let others = [3, 5, 7, 11, 14, 15].map(|number| (number, 0));
    assert_eq!(numbers, lengths.into_iter().chain(others).collect());
}
