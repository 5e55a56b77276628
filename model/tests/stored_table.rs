//! The numbers of the stored table, as they stand in the source of the proved code,
//! against what document 01 says of them ("Domains").

use tevrolig_model::domain::Subgroup;
use tevrolig_model::elements::Elements;
use tevrolig_model::field::Field;

const TABLE: &str = include_str!("../../crates/powers/src/table.rt");
const FEW: &str = include_str!("../../crates/powers/src/few.rt");

/// The numbers of such a source: some in a line, each with a comma behind it.
fn numbers(source: &str) -> Vec<u64> {
    source
        .lines()
        .filter_map(|line| line.trim().strip_suffix(','))
        .flat_map(|line| line.split(", "))
        .map(|number| number.parse().unwrap())
        .collect()
}

fn field() -> Field {
    Field::numbered(2).unwrap()
}

/// "The first is 1, each next is the one before times the ω of n0 = 4096."
#[test]
fn first_and_next() {
    let field = field();
    let omega = field.pow(field.g, (field.p - 1) / 4096);
    let table = numbers(TABLE);
    assert_eq!(table.len(), 4096);
    assert_eq!(table[0], 1);
    for pair in table.windows(2) {
        assert_eq!(pair[1], field.mul(pair[0], omega));
    }
}

/// "A smaller n0 takes every (4096/n0)-th." Domain 0 begins with ω and so has the 1 last.
#[test]
fn every_nth() {
    let table = numbers(TABLE);
    for log in 2..=12 {
        let n0 = 1 << log;
        let mut taken: Vec<u64> = table.iter().copied().step_by(4096 / n0).collect();
        taken.rotate_left(1);
        assert_eq!(taken, Subgroup::new(field(), n0).domain(0), "n0 = {n0}");
    }
}

/// The second table, for small domains, is every 16th of the first.
#[test]
fn few_are_of_the_table() {
    let every_16th: Vec<u64> = numbers(TABLE).into_iter().step_by(16).collect();
    assert_eq!(numbers(FEW), every_16th);
}
