//! Sheets without fault, and words that break a rule of one.

use super::Rng;
use crate::sheet::{Edition, Sheet, MOST_COINS};

/// A random sheet without fault.
pub fn sheet(edition: Edition, rng: &mut Rng) -> Vec<u32> {
    sheet_up_to(edition, rng, 4096)
}

/// A random sheet without fault, with n0 at most the limit (or 4).
pub fn sheet_up_to(edition: Edition, rng: &mut Rng, most_n0: u32) -> Vec<u32> {
    let field = rng.below(4) as u32;
    sheet_over(edition, rng, field, most_n0)
}

/// The same with elements of one word.
pub fn sheet_of_one_word(edition: Edition, rng: &mut Rng, most_n0: u32) -> Vec<u32> {
    let field = rng.below(3) as u32;
    sheet_over(edition, rng, field, most_n0)
}

/// The same for a given field, which is 0, 1, 2 or 3. A sheet without rounds is
/// drawn again up to four times, as most small ones have none.
pub fn sheet_over(edition: Edition, rng: &mut Rng, field: u32, most_n0: u32) -> Vec<u32> {
    let mut words = any_sheet(edition, rng, field, most_n0);
    for _ in 0..4 {
        if words[4] == 0 {
            words = any_sheet(edition, rng, field, most_n0);
        }
    }
    words
}

fn any_sheet(edition: Edition, rng: &mut Rng, field: u32, most_n0: u32) -> Vec<u32> {
    let most = match field {
        0 => 16,
        3 => 1024,
        _ => 4096,
    };
    let most_n0 = most_n0.clamp(4, most);
    let n0 = power_of_two(rng, 4, most_n0);
    let d0 = power_of_two(rng, 2, n0 / 2).max(power_of_two(rng, 2, n0 / 2));
    let outs = 1 + rng.below(2) as u32;
    let manner = match edition {
        Edition::One => Manner::Equal,
        Edition::Two => Manner::any(rng),
    };
    let folds = more_folds(rng, manner, d0, outs, Vec::new());
    with_folds(edition, rng, [field, n0, d0], outs, &folds)
}

/// A random sheet of edition 2 whose k_0 to k_(i-1) are equal and whose k_i is
/// another, for i from 1 to 5.
pub fn differing_at(rng: &mut Rng, i: usize) -> Vec<u32> {
    // d_i has room for one shift coin before it, and for k_i.
    let least_d0 = |&[k, other]: &[u32; 2]| k.pow(i as u32) * other.max(4);
    let numbers = [2, 4, 8, 16];
    let pairs: Vec<[u32; 2]> = numbers
        .iter()
        .flat_map(|&k| numbers.map(|other| [k, other]))
        .filter(|pair| pair[0] != pair[1] && least_d0(pair) <= 2048)
        .collect();
    let pair = rng.pick(&pairs);
    let d0 = least_d0(&pair) << rng.pick(&[0, 0, 1]);
    let d0 = d0.min(2048);
    let n0 = (2 * d0) << rng.pick(&[0, 0, 1]);
    let n0 = n0.min(4096);
    let field = match n0 {
        ..=16 => rng.below(4) as u32,
        17..=1024 => 1 + rng.below(3) as u32,
        _ => 1 + rng.below(2) as u32,
    };
    let outs = 1 + rng.below(2) as u32;
    let mut folds = vec![pair[0]; i];
    folds.push(pair[1]);
    let manner = Manner::any(rng);
    let folds = more_folds(rng, manner, d0, outs, folds);
    with_folds(Edition::Two, rng, [field, n0, d0], outs, &folds)
}

/// How the folding numbers of a sheet follow one another.
#[derive(Clone, Copy)]
enum Manner {
    Equal,
    MostlyEqual,
    /// A large first fold.
    NeverRising,
    NeverFalling,
    Different,
    Any,
}

impl Manner {
    fn any(rng: &mut Rng) -> Manner {
        use Manner::*;
        rng.pick(&[MostlyEqual, NeverRising, NeverFalling, Different, Any])
    }
}

/// These folding numbers and more after them, as long as there is room for one and
/// for a shift coin before it, and the draw goes on.
fn more_folds(rng: &mut Rng, manner: Manner, d0: u32, outs: u32, mut folds: Vec<u32>) -> Vec<u32> {
    // d_i for the next k_i; t_(i-1) + s is below it.
    let mut bound = folds.iter().fold(d0, |d, k| d / k);
    while folds.is_empty() || folds.len() < 6 && 1 + outs < bound && !rng.one_in(5) {
        let mut draw = || power_of_two(rng, 2, bound.min(16));
        let (any, another) = (draw(), draw());
        let k = match (manner, folds.last()) {
            (Manner::NeverRising, None) => any.max(another),
            (Manner::NeverRising, Some(&before)) => any.min(before),
            (Manner::NeverFalling, None) => any.min(another),
            (Manner::NeverFalling, Some(&before)) => any.max(before),
            (Manner::Equal, Some(&before)) => before,
            (Manner::MostlyEqual, Some(&before)) if !rng.one_in(4) => before,
            (Manner::Different, _) if folds.contains(&any) => another,
            _ => any,
        };
        let repeated = matches!(manner, Manner::Different) && folds.contains(&k);
        if k > bound || repeated {
            break;
        }
        folds.push(k);
        bound /= k;
    }
    folds
}

/// The sheet of these words, k_0 to k_M, and drawn numbers of coins.
fn with_folds(
    edition: Edition,
    rng: &mut Rng,
    [field, n0, d0]: [u32; 3],
    outs: u32,
    folds: &[u32],
) -> Vec<u32> {
    let rounds = folds.len() - 1;
    let mut words = vec![field, n0, d0, folds[0], rounds as u32, outs];
    words.extend(coin_counts(rng, d0, outs, folds));
    if edition == Edition::Two {
        words.extend(&folds[1..]);
        words.resize(17, 0);
        words.push(2);
    }
    words
}

/// t_0 to t_5 for k_0 to k_M, which leave room for them: t_i + s < d_(i+1) below M.
fn coin_counts(rng: &mut Rng, d0: u32, outs: u32, folds: &[u32]) -> [u32; 6] {
    let mut counts = [0; 6];
    let mut bound = d0;
    for (i, k) in folds.iter().enumerate() {
        bound /= k;
        let most = if i + 1 < folds.len() {
            MOST_COINS.min(bound - outs - 1)
        } else {
            MOST_COINS
        };
        counts[i] = coin_count(rng, most);
    }
    counts
}

/// A power of two from `least`, which is one itself, to `most`, which is not below it.
fn power_of_two(rng: &mut Rng, least: u32, most: u32) -> u32 {
    let choices = most.ilog2() - least.ilog2() + 1;
    least << rng.below(u64::from(choices))
}

/// 1 to `most`, with both ends often and small numbers more often than large ones.
fn coin_count(rng: &mut Rng, most: u32) -> u32 {
    let draw = |rng: &mut Rng| 1 + rng.below(u64::from(most)) as u32;
    match rng.below(8) {
        0 | 1 => 1,
        2 => most,
        _ => draw(rng).min(draw(rng)).min(draw(rng)),
    }
}

/// Words for a place of a sheet at which something may change.
fn candidates(rng: &mut Rng, old: u32) -> Vec<u32> {
    let any = rng.word();
    let near = [old.wrapping_sub(1), old + 1, old / 2, 2 * old, 4 * old];
    let values = [0, 1, 2, 3, 4, 5, 6, 8, 12, 16, 32, 48, 49, 65, 8192, any];
    [&near[..], &values].concat()
}

/// A word that breaks the rule at this place of a sheet without fault, where the
/// words that are tested before it stay.
pub fn fault(rng: &mut Rng, sheet: &[u32], place: usize) -> u32 {
    let mut words = sheet.to_vec();
    let mut broken = candidates(rng, sheet[place]);
    broken.retain(|&word| {
        words[place] = word;
        Sheet::read(&words) == Err(place)
    });
    if broken.is_empty() || rng.one_in(8) {
        return u32::MAX;
    }
    rng.pick(&broken)
}

/// The places of a sheet in the order in which they are tested.
pub fn test_order(edition: Edition) -> Vec<usize> {
    match edition {
        Edition::One => (0..12).collect(),
        Edition::Two => (0..6).chain(12..18).chain(6..12).collect(),
    }
}

/// Two such words, with their places; the first, which may be the second too, is
/// tested first.
pub fn two_faults(rng: &mut Rng, sheet: &[u32]) -> [(usize, u32); 2] {
    let order = Edition::of(sheet).map_or(Vec::new(), test_order);
    let first = rng.place(order.len());
    let second = first + rng.place(order.len() - first);
    [first, second].map(|turn| (order[turn], fault(rng, sheet, order[turn])))
}

/// A place and a word that breaks its rule, or keeps it and breaks another's.
pub(super) fn any_fault(rng: &mut Rng, sheet: &[u32]) -> (usize, u32) {
    let place = rng.place(sheet.len());
    let mut words = sheet.to_vec();
    let changes = candidates(rng, sheet[place]);
    words[place] = rng.pick(&changes);
    match Sheet::read(&words) {
        Ok(_) => (place, fault(rng, sheet, place)),
        Err(_) => (place, words[place]),
    }
}
