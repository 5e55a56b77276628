//! The field operations of the archive against plain arithmetic and the model.

use tevrolig::Field;
use tevrolig_model::field;
use tevrolig_model::generate::Rng;

const PRIMES: [u32; 3] = [17, 65537, 2013265921];

// As the header has them: why nothing is written, and the functions, for the numbers that make no `Field`.
const NO_FIELD: u32 = 100;
const NO_INVERSE: u32 = 101;

extern "C" {
    fn tevrolig_sum(field: u32, a: u32, b: u32, element: &mut u32) -> u32;
    fn tevrolig_difference(field: u32, a: u32, b: u32, element: &mut u32) -> u32;
    fn tevrolig_product(field: u32, a: u32, b: u32, element: &mut u32) -> u32;
    fn tevrolig_power(field: u32, a: u32, exponent: u32, element: &mut u32) -> u32;
    fn tevrolig_power_turns(
        field: u32,
        a: u32,
        exponent: u32,
        element: &mut u32,
        turns: &mut u32,
    ) -> u32;
    fn tevrolig_inverse(field: u32, a: u32, element: &mut u32) -> u32;
}

/// Words at the ends of the elements and of all words, and others.
fn words(rng: &mut Rng, p: u32, others: usize) -> Vec<u32> {
    let mut words = vec![0, 1, 2, p - 2, p - 1, p, p + 1, 2 * p - 1, 2 * p];
    words.extend([1 << 31, u32::MAX - 1, u32::MAX]);
    words.extend((0..others).map(|_| rng.word()));
    words.extend((0..others).map(|_| rng.below(u64::from(p)) as u32));
    words
}

/// What each operation answers in C, with what stood in its place before and stands there after.
fn written(number: u32, a: u32, b: u32, before: u32) -> [(u32, u32); 4] {
    [
        tevrolig_sum,
        tevrolig_difference,
        tevrolig_product,
        tevrolig_power,
    ]
    .map(|operation| {
        let mut element = before;
        // The operations write one word at most.
        let answer = unsafe { operation(number, a, b, &mut element) };
        (answer, element)
    })
}

/// A test of one pair of words in one field: every operation is the one of whole numbers modulo p, and the model's.
fn operations(number: u32, a: u32, b: u32) {
    let field = Field::new(number).unwrap();
    let whole = i128::from(PRIMES[number as usize]);
    let modulo = |value: i128| value.rem_euclid(whole) as u32;
    let (x, y) = (i128::from(a), i128::from(b));
    let what = format!("field {number}, {a}, {b}");
    assert_eq!(field.sum(a, b), modulo(x + y), "{what}");
    assert_eq!(field.difference(a, b), modulo(x - y), "{what}");
    assert_eq!(field.product(a, b), modulo(x * y), "{what}");
    assert_eq!(Some(field.sum(a, b)), field::sum(number, a, b), "{what}");
    assert_eq!(
        Some(field.difference(a, b)),
        field::difference(number, a, b),
        "{what}"
    );
    assert_eq!(
        Some(field.product(a, b)),
        field::product(number, a, b),
        "{what}"
    );
    assert_eq!(
        Some(field.power(a, b)),
        field::power(number, a, b),
        "{what}"
    );
    assert_eq!(Some(field.inverse(a)), field::inverse(number, a), "{what}");
    let (sum, difference) = (field.sum(a, b), field.difference(a, b));
    let elements = [sum, difference, field.product(a, b), field.power(a, b)];
    assert_eq!(
        written(number, a, b, !b),
        elements.map(|x| (0, x)),
        "{what}"
    );
    let one = field.inverse(a).map(|found| field.product(a, found));
    assert_eq!(one, (modulo(x) != 0).then_some(1), "{what}");
}

#[test]
fn the_fields_are_these() {
    for (number, p) in (0..).zip(PRIMES) {
        let field = Field::new(number).unwrap();
        assert_eq!((field.number(), field.prime()), (number, p));
    }
}

#[test]
fn edge_words() {
    let mut rng = Rng::new(1);
    for (number, p) in (0..).zip(PRIMES) {
        let words = words(&mut rng, p, 60);
        for &a in &words {
            for &b in &words {
                operations(number, a, b);
            }
        }
    }
}

#[test]
fn every_small_pair() {
    for number in 0..3 {
        for a in 0..60 {
            for b in 0..60 {
                operations(number, a, b);
            }
        }
    }
}

#[test]
fn random_pairs() {
    let mut rng = Rng::new(2);
    for _ in 0..300_000 {
        operations(rng.below(3) as u32, rng.word(), rng.word());
    }
}

#[test]
fn powers_of_whole_numbers() {
    for (number, p) in (0..).zip(PRIMES) {
        let field = Field::new(number).unwrap();
        for a in words(&mut Rng::new(3), p, 8) {
            let mut by_hand = 1;
            for exponent in 0..70 {
                assert_eq!(field.power(a, exponent), by_hand, "field {number}, {a}");
                by_hand = (u64::from(by_hand) * u64::from(a) % u64::from(p)) as u32;
            }
        }
        // An exponent is not reduced by p: where it is p itself, the power is the element.
        assert_eq!((field.power(3, p), field.power(3, p - 1)), (3, 1));
        assert_eq!((field.power(0, 0), field.power(p, 0)), (1, 1));
    }
}

#[test]
fn no_inverse_for_zero() {
    let answer = |number, a| {
        let mut element = 7;
        // The operation writes one word at most.
        let answer = unsafe { tevrolig_inverse(number, a, &mut element) };
        (answer, element)
    };
    // Where there is none the place keeps its 7.
    for (number, p) in (0..).zip(PRIMES) {
        let field = Field::new(number).unwrap();
        for a in [0, p, 2 * p] {
            assert_eq!(answer(number, a), (NO_INVERSE, 7));
            assert_eq!(field.inverse(a), None);
        }
        for a in [1, p + 1] {
            assert_eq!((answer(number, a), field.inverse(a)), ((0, 1), Some(1)));
        }
        assert_eq!(answer(number, p - 1), (0, p - 1));
    }
    for a in [0, 1, 17, u32::MAX] {
        assert_eq!(answer(3, a), (NO_FIELD, 7));
    }
}

/// A power with its turns is the model's, and the element is the power's without them.
fn turns(number: u32, a: u32, exponent: u32) {
    let field = Field::new(number).unwrap();
    let found = field.power_turns(a, exponent);
    let what = format!("field {number}, {a}, {exponent}");
    let expected = field::power_turns(number, a, exponent);
    assert_eq!(Some((found.element, found.turns)), expected, "{what}");
    assert_eq!(found.element, field.power(a, exponent), "{what}");
}

#[test]
fn turns_of_every_exponent_of_12_bits() {
    for (number, p) in (0..).zip(PRIMES) {
        for a in words(&mut Rng::new(4), p, 4) {
            for exponent in 0..1 << 12 {
                turns(number, a, exponent);
            }
        }
    }
}

#[test]
fn turns_of_other_exponents() {
    let mut rng = Rng::new(5);
    for number in 0..3 {
        for bit in 0..32 {
            for exponent in [1 << bit, (1 << bit) - 1, u32::MAX >> bit, u32::MAX << bit] {
                turns(number, rng.word(), exponent);
            }
        }
    }
    for _ in 0..300_000 {
        // Exponents of every length alike.
        let exponent = rng.word() >> rng.below(32);
        turns(rng.below(3) as u32, rng.word(), exponent);
    }
}

#[test]
fn other_numbers_have_no_turns() {
    for number in (3..1000).chain([17, 65537, 1 << 31, u32::MAX - 1, u32::MAX]) {
        for exponent in [0, 1, 5, 4095, u32::MAX] {
            let (mut element, mut turns) = (7, 8);
            // Two words are written at most.
            let answer =
                unsafe { tevrolig_power_turns(number, 5, exponent, &mut element, &mut turns) };
            let what = format!("{number}, {exponent}");
            assert_eq!((answer, element, turns), (NO_FIELD, 7, 8), "{what}");
        }
    }
}

#[test]
fn other_numbers_name_no_field() {
    for number in (3..1000).chain([17, 65537, 1 << 31, u32::MAX - 1, u32::MAX]) {
        assert_eq!(Field::new(number), None);
        for (a, b) in [(0, 0), (1, 1), (5, 7), (u32::MAX, u32::MAX)] {
            let before = [7, 8, 9, 10, u32::MAX];
            let mut elements = before;
            let [sum, difference, product, power, inverse] = &mut elements;
            // The five operations write one word each at most.
            let answers = unsafe {
                [
                    tevrolig_sum(number, a, b, sum),
                    tevrolig_difference(number, a, b, difference),
                    tevrolig_product(number, a, b, product),
                    tevrolig_power(number, a, b, power),
                    tevrolig_inverse(number, a, inverse),
                ]
            };
            let what = format!("{number}, {a}, {b}");
            assert_eq!((answers, elements), ([NO_FIELD; 5], before), "{what}");
        }
    }
}
