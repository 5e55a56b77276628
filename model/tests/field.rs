//! The public field operations (document 01, "Fields and the sheet"; of four words,
//! document 02, CR 11).

use tevrolig_model::field::{difference, inverse, power, power_turns, product, sum};
use tevrolig_model::field::{difference_3, inverse_3, power_3, power_turns_3, product_3, sum_3};
use tevrolig_model::generate::Rng;

const PRIMES: [u32; 3] = [17, 65537, 2013265921];

/// Words at the ends of the elements and of all words.
fn edge_words(p: u32) -> Vec<u32> {
    let mut words = vec![0, 1, 2, p - 2, p - 1, p, p + 1, 2 * p - 1, 2 * p];
    words.extend([u32::MAX - 1, u32::MAX]);
    words
}

#[test]
fn no_field_above_2() {
    for field in [3, 4, 17, u32::MAX] {
        assert_eq!(sum(field, 1, 1), None);
        assert_eq!(difference(field, 1, 1), None);
        assert_eq!(product(field, 1, 1), None);
        assert_eq!(power(field, 1, 1), None);
        assert_eq!(power_turns(field, 1, 1), None);
        assert_eq!(inverse(field, 1), None);
    }
}

#[test]
fn operations_are_those_of_whole_numbers_modulo_p() {
    let mut rng = Rng::new(1);
    for (field, p) in (0..).zip(PRIMES) {
        let mut words = edge_words(p);
        words.extend((0..60).map(|_| rng.word()));
        let whole = i128::from(p);
        for &a in &words {
            for &b in &words {
                let (x, y) = (i128::from(a), i128::from(b));
                let expect = |value: i128| Some(value.rem_euclid(whole) as u32);
                assert_eq!(sum(field, a, b), expect(x + y));
                assert_eq!(difference(field, a, b), expect(x - y));
                assert_eq!(product(field, a, b), expect(x * y));
            }
        }
    }
}

#[test]
fn inverses() {
    let mut rng = Rng::new(2);
    for (field, p) in (0..).zip(PRIMES) {
        assert_eq!(inverse(field, 0), Some(None));
        assert_eq!(inverse(field, p), Some(None));
        assert_eq!(inverse(field, 2 * p), Some(None));
        assert_eq!(inverse(field, p + 1), Some(Some(1)));
        let mut words = edge_words(p);
        words.extend(1..17);
        words.extend((0..2000).map(|_| rng.word()));
        for a in words {
            let answer = inverse(field, a).unwrap();
            assert_eq!(answer.is_none(), a % p == 0, "{field} {a}");
            let Some(found) = answer else { continue };
            assert!(found < p);
            assert_eq!(product(field, a, found), Some(1), "{field} {a}");
            // Fermat: the inverse is the power p - 2.
            assert_eq!(power(field, a, p - 2), Some(found));
        }
    }
}

#[test]
fn powers() {
    let mut rng = Rng::new(3);
    for (field, p) in (0..).zip(PRIMES) {
        for a in edge_words(p) {
            assert_eq!(power(field, a, 0), Some(1));
            assert_eq!(power(field, a, 1), Some(a % p));
            let mut by_hand = 1;
            for exponent in 0..70 {
                assert_eq!(power(field, a, exponent), Some(by_hand));
                by_hand = product(field, by_hand, a).unwrap();
            }
            // The exponent is not reduced: 2^32 - 1 = (2^16 - 1)(2^16 + 1).
            let inner = power(field, a, 65535).unwrap();
            assert_eq!(power(field, a, u32::MAX), power(field, inner, 65537));
        }
        for _ in 0..200 {
            let (a, m, n) = (rng.word(), rng.word() >> 1, rng.word() >> 1);
            let apart = product(
                field,
                power(field, a, m).unwrap(),
                power(field, a, n).unwrap(),
            );
            assert_eq!(power(field, a, m + n), apart);
        }
    }
    assert_eq!(power(0, 17, 0), Some(1));
    assert_eq!(power(0, 3, u32::MAX), power(0, 3, 15));
    assert_eq!(power(0, 0, u32::MAX), Some(0));
}

#[test]
fn turns_are_binary_digits() {
    let mut rng = Rng::new(4);
    let mut exponents: Vec<u32> = (0..1 << 12).collect();
    exponents.extend((0..32).flat_map(|bit| [1 << bit, (1 << bit) - 1, u32::MAX >> bit]));
    exponents.extend((0..1000).map(|_| rng.word()));
    for exponent in exponents {
        let written = format!("{exponent:b}");
        let digits = if exponent == 0 { 0 } else { written.len() };
        for field in 0..3 {
            let a = rng.word();
            let expected = (power(field, a, exponent).unwrap(), digits as u32);
            assert_eq!(power_turns(field, a, exponent), Some(expected));
        }
    }
}

/// The prime of field 3's words.
const P: u32 = PRIMES[2];

/// Any four words, one in four of them at an end of the range.
fn four_words(rng: &mut Rng) -> [u32; 4] {
    let edges = edge_words(P);
    [(); 4].map(|()| match rng.below(4) {
        0 => rng.pick(&edges),
        _ => rng.word(),
    })
}

#[test]
fn four_words_by_hand() {
    let a = [2013265920, 5, 2013265921, 4294967295];
    assert_eq!(
        sum_3(a, [2, 2013265916, 1, 4294967294]),
        [1, 0, 1, 536870905]
    );
    let a = [0, 1, 2013265924, 7];
    let b = [1, 4294967295, 2013265921, 9];
    let due = [2013265920, 1744830469, 3, 2013265919];
    assert_eq!(difference_3(a, b), due);
    // X·X³ = 11, and (1 + X)·(1 - X + X² - X³) = 1 - X⁴.
    assert_eq!(product_3([0, 1, 0, 0], [0, 0, 0, 1]), [11, 0, 0, 0]);
    let b = [1, 2013265920, 1, 2013265920];
    assert_eq!(product_3([1, 1, 0, 0], b), [2013265911, 0, 0, 0]);
    let a = [4294967295, 2000000001, 1999999999, 2013265923];
    let b = [2013265920, 2013265919, 2013265918, 2013265917];
    let due = [753040409, 60095516, 1247757236, 1005853711];
    assert_eq!(product_3(a, b), due);
    assert_eq!(power_3([P, 0, 0, P], 0), [1, 0, 0, 0]);
    let due = [19024556, 12904792, 7234788, 3456464];
    assert_eq!(power_turns_3([P + 1, 2, 3, 4], 5), (due, 3));
    let due = [1587469345, 920666518, 1160282443, 647153706];
    assert_eq!(inverse_3([1, 2, 3, 4]), Some(due));
    assert_eq!(inverse_3([P, 1, P, 0]), Some([0, 0, 0, 549072524]));
    assert_eq!(inverse_3([0, P, 2 * P, 0]), None);
}

/// Word by word, and the product by the powers of X.
#[test]
fn four_words_by_those_of_one() {
    let mut rng = Rng::new(5);
    for _ in 0..5000 {
        let [a, b] = [(); 2].map(|()| four_words(&mut rng));
        let each = |of: fn(u32, u32, u32) -> Option<u32>| -> [u32; 4] {
            std::array::from_fn(|i| of(2, a[i], b[i]).unwrap())
        };
        assert_eq!(sum_3(a, b), each(sum));
        assert_eq!(difference_3(a, b), each(difference));
        // a·b is the sum of b's words times a, a·X, a·X², a·X³.
        let mut shifted = a.map(|word| word % P);
        let mut due = [0; 4];
        for word in b {
            let scaled = shifted.map(|x| product(2, x, word).unwrap());
            due = sum_3(due, scaled);
            let [x, y, z, last] = shifted;
            shifted = [product(2, 11, last).unwrap(), x, y, z];
        }
        assert_eq!(product_3(a, b), due);
        assert_eq!(product_3(b, a), due);
    }
}

#[test]
fn inverses_of_four_words() {
    let mut rng = Rng::new(6);
    let one = [1, 0, 0, 0];
    for zeros in 0..16 {
        for _ in 0..200 {
            let mut a = four_words(&mut rng);
            for (at, word) in a.iter_mut().enumerate() {
                if zeros >> at & 1 == 1 {
                    *word = rng.pick(&[0, P, 2 * P]);
                }
            }
            let answer = inverse_3(a);
            assert_eq!(answer.is_none(), a.iter().all(|word| word % P == 0));
            let Some(found) = answer else { continue };
            assert!(found.iter().all(|&word| word < P));
            assert_eq!(product_3(a, found), one, "{a:?}");
            assert_eq!(inverse_3(found), Some(a.map(|word| word % P)));
        }
    }
}

/// The elements other than 0 are a group of p⁴ - 1, and X has the order that 11 gives it.
#[test]
fn powers_of_four_words() {
    let mut rng = Rng::new(7);
    for _ in 0..300 {
        let a = four_words(&mut rng);
        let mut by_hand = [1, 0, 0, 0];
        for exponent in 0..40 {
            assert_eq!(power_3(a, exponent), by_hand);
            by_hand = product_3(by_hand, a);
        }
        let inner = power_3(a, 65535);
        assert_eq!(power_3(a, u32::MAX), power_3(inner, 65537));
        // The p-th power maps X to X^p, so four of them give back a.
        let back = (0..4).fold(a, |x, _| power_3(x, P));
        assert_eq!(back, a.map(|word| word % P));
        assert_ne!(power_3(a, P), a.map(|word| word % P));
        let exponent = rng.word() >> rng.place(32);
        let digits = u32::BITS - exponent.leading_zeros();
        assert_eq!(power_turns_3(a, exponent), (power_3(a, exponent), digits));
    }
}
