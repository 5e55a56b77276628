//! What the programs `domains` and `domains2` print of the sheets stored with them.

mod common;

use common::*;
use tevrolig_model::domain::Subgroup;
use tevrolig_model::sheet::Sheet;

/// The lines of a sheet of the edition, given as bytes, which keeps its rules.
fn listing(edition: Edition, bytes: &[u8]) -> String {
    let words: Vec<u32> = bytes
        .chunks(4)
        .map(|word| u32::from_le_bytes(word.try_into().unwrap()))
        .collect();
    let sheet = Sheet::read_in(edition, &words).unwrap().unwrap();
    let subgroup = Subgroup::of(&sheet);
    let mut text = String::from("keeps its rules\n");
    for i in 0..=sheet.rounds {
        let points: Vec<String> = subgroup.domain(i).iter().map(u64::to_string).collect();
        text += &format!("domain {i}: {}\n", points.join(" "));
    }
    text
}

#[test]
fn stored_listings_are_the_models() {
    let first = include_bytes!("../../crates/domains/stdin");
    let second = include_bytes!("../../crates/domains2/stdin");
    assert_eq!(
        listing(One, first),
        include_str!("../../crates/domains/stdout")
    );
    assert_eq!(
        listing(Two, second),
        include_str!("../../crates/domains2/stdout")
    );
}
