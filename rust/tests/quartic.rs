//! The operations of field 3 in the archive against the model, and against what makes it a field of four words.

use tevrolig::quartic::{difference, inverse, power, power_turns, product, sum};
use tevrolig_model::field;
use tevrolig_model::generate::Rng;

const P: u32 = 2013265921;
const ZERO: [u32; 4] = [0; 4];
const ONE: [u32; 4] = [1, 0, 0, 0];
const X: [u32; 4] = [0, 1, 0, 0];

// As the header has them.
const NO_INVERSE: u32 = 101;

type Binary = unsafe extern "C" fn(&[u32; 4], &[u32; 4], &mut [u32; 4]) -> u32;

extern "C" {
    fn tevrolig_sum_3(a: &[u32; 4], b: &[u32; 4], out: &mut [u32; 4]) -> u32;
    fn tevrolig_difference_3(a: &[u32; 4], b: &[u32; 4], out: &mut [u32; 4]) -> u32;
    fn tevrolig_product_3(a: &[u32; 4], b: &[u32; 4], out: &mut [u32; 4]) -> u32;
    fn tevrolig_power_3(a: &[u32; 4], exponent: u32, out: &mut [u32; 4]) -> u32;
    fn tevrolig_power_turns_3(
        a: &[u32; 4],
        exponent: u32,
        out: &mut [u32; 4],
        turns: &mut u32,
    ) -> u32;
    fn tevrolig_inverse_3(a: &[u32; 4], out: &mut [u32; 4]) -> u32;
}

/// A word of any size, an element, or one at which something may change.
fn word(rng: &mut Rng) -> u32 {
    let (any, element) = (rng.word(), rng.below(P.into()) as u32);
    match rng.below(4) {
        0 => any,
        1 => rng.pick(&[
            0,
            0,
            1,
            2,
            P - 2,
            P - 1,
            P,
            P + 1,
            2 * P - 1,
            2 * P,
            u32::MAX,
        ]),
        _ => element,
    }
}

/// Four such words; in one of four of them only some are not multiples of p.
fn four(rng: &mut Rng) -> [u32; 4] {
    let mut words = [(); 4].map(|()| word(rng));
    if rng.one_in(4) {
        let kept = rng.place(16);
        for (i, word) in words.iter_mut().enumerate() {
            if kept >> i & 1 == 0 {
                *word = rng.pick(&[0, P, 2 * P]);
            }
        }
    }
    words
}

/// All operations are the model's, and the C functions write what the crate answers.
fn operations(a: [u32; 4], b: [u32; 4], exponent: u32) {
    let what = format!("{a:?}, {b:?}, {exponent}");
    assert_eq!(sum(a, b), field::sum_3(a, b), "{what}");
    assert_eq!(difference(a, b), field::difference_3(a, b), "{what}");
    assert_eq!(product(a, b), field::product_3(a, b), "{what}");
    assert_eq!(inverse(a), field::inverse_3(a), "{what}");
    let raised = power_turns(a, exponent);
    let expected = field::power_turns_3(a, exponent);
    assert_eq!((raised.element, raised.turns), expected, "{what}");
    assert_eq!(power(a, exponent), raised.element, "{what}");

    let operations: [Binary; 3] = [tevrolig_sum_3, tevrolig_difference_3, tevrolig_product_3];
    let elements = [sum(a, b), difference(a, b), product(a, b)];
    for (operation, element) in operations.into_iter().zip(elements) {
        let mut out = [7; 4];
        // Four words are written.
        let answer = unsafe { operation(&a, &b, &mut out) };
        assert_eq!((answer, out), (0, element), "{what}");
    }
    let (mut out, mut out_too, mut found, mut turns) = ([7; 4], [7; 4], [7; 4], 7);
    // Four words are written, and the turns.
    let answers = unsafe {
        [
            tevrolig_power_3(&a, exponent, &mut out),
            tevrolig_power_turns_3(&a, exponent, &mut out_too, &mut turns),
            tevrolig_inverse_3(&a, &mut found),
        ]
    };
    assert_eq!((out, out_too, turns), (expected.0, expected.0, expected.1));
    let (answer, due) = inverse(a).map_or((NO_INVERSE, [7; 4]), |element| (0, element));
    assert_eq!((answers, found), ([0, 0, answer], due), "{what}");
}

#[test]
fn random_elements() {
    let mut rng = Rng::new(1);
    for _ in 0..200_000 {
        let exponent = rng.word() >> rng.below(32);
        operations(four(&mut rng), four(&mut rng), exponent);
    }
}

/// The words at the ends of the elements and of all words in each of the four places, with each other.
#[test]
fn edge_words() {
    let edges = [0, 1, P - 1, P, P + 1, 2 * P, u32::MAX];
    let elements: Vec<[u32; 4]> = (0..7 * 7 * 7 * 7)
        .map(|n| [n, n / 7, n / 49, n / 343].map(|i| edges[i % 7]))
        .collect();
    for (i, &a) in elements.iter().enumerate() {
        for j in 0..40 {
            operations(a, elements[(i * 40 + 61 * j) % elements.len()], j as u32);
        }
    }
}

#[test]
fn no_inverse_for_zero_alone() {
    for n in 0..81 {
        let a = [n, n / 3, n / 9, n / 27].map(|i| P * (i % 3));
        assert_eq!(inverse(a), None, "{a:?}");
        for place in 0..4 {
            let mut other = a;
            other[place] += 1;
            let found = inverse(other).expect("an inverse");
            assert_eq!(product(other, found), ONE, "{other:?}");
        }
    }
}

/// X to the fourth is 11, no lower power is a number, and what the words stand for is the sum of their multiples of powers of X.
#[test]
fn elements_are_polynomials_in_x() {
    let powers = [0, 1, 2, 3].map(|e| power(X, e));
    assert_eq!(powers, [ONE, X, [0, 0, 1, 0], [0, 0, 0, 1]]);
    assert_eq!(power(X, 4), [11, 0, 0, 0]);
    let mut rng = Rng::new(2);
    for _ in 0..10_000 {
        let a = four(&mut rng);
        let terms = [0, 1, 2, 3].map(|i| product([a[i], 0, 0, 0], powers[i]));
        assert_eq!(terms.into_iter().fold(ZERO, sum), sum(a, ZERO), "{a:?}");
    }
}

/// The laws of a field, on elements of any words.
#[test]
fn laws() {
    let mut rng = Rng::new(3);
    for _ in 0..50_000 {
        let [a, b, c] = [(); 3].map(|()| four(&mut rng));
        let what = format!("{a:?}, {b:?}, {c:?}");
        assert_eq!(product(a, b), product(b, a), "{what}");
        assert_eq!(
            product(product(a, b), c),
            product(a, product(b, c)),
            "{what}"
        );
        let apart = sum(product(a, b), product(a, c));
        assert_eq!(product(a, sum(b, c)), apart, "{what}");
        assert_eq!(sum(difference(a, b), b), sum(a, ZERO), "{what}");
        if let Some(found) = inverse(a) {
            assert_eq!(product(product(a, b), found), sum(b, ZERO), "{what}");
        }
    }
}

/// p to the fourth elements: raised to p four times, each is itself again, and the numbers are so at once.
#[test]
fn the_power_p_is_a_turn_of_the_field() {
    let mut rng = Rng::new(4);
    for _ in 0..2_000 {
        let (a, b) = (four(&mut rng), four(&mut rng));
        assert_eq!(
            power(sum(a, b), P),
            sum(power(a, P), power(b, P)),
            "{a:?}, {b:?}"
        );
        let raised = (0..4).fold(a, |x, _| power(x, P));
        assert_eq!(raised, sum(a, ZERO), "{a:?}");
        let number = [a[0], 0, 0, 0];
        assert_eq!(power(number, P), sum(number, ZERO));
    }
}
