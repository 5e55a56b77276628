//! What the answers say in words, with their numbers and places.

use std::error::Error;
use tevrolig::convert::ConvertRefusal;
use tevrolig::{InputRefusal, Outcome, Refusal, Verdict};

#[test]
fn refusals_of_verify() {
    let all = [
        (
            Refusal::Length,
            1,
            0,
            "the file is empty, or its length is no multiple of 512 bytes",
        ),
        (
            Refusal::Check { block: 2 },
            2,
            2,
            "block 2 has a wrong check",
        ),
        (
            Refusal::Sheet { word: 0 },
            3,
            0,
            "word 0 of the sheet (the field) breaks its rule",
        ),
        (
            Refusal::Sheet { word: 3 },
            3,
            3,
            "word 3 of the sheet (k) breaks its rule",
        ),
        (
            Refusal::Sheet { word: 11 },
            3,
            11,
            "word 11 of the sheet (t_5) breaks its rule",
        ),
        (
            Refusal::TableCount,
            15,
            0,
            "the number of tables is not from 1 to 8, or too large for the sheet's n0",
        ),
        (
            Refusal::Bound { table: 3 },
            15,
            3,
            "the bound of table 3 is not from 1 to d0",
        ),
        (
            Refusal::Blocks { needed: 67 },
            4,
            67,
            "the number of blocks is not 67, which the sheet needs",
        ),
        (
            Refusal::Range { word: 12 },
            5,
            12,
            "word 12 of the stream is out of range",
        ),
        (
            Refusal::Fill { word: 45 },
            6,
            45,
            "word 45 comes after the stream's end and is not zero",
        ),
        (
            Refusal::OutCoin { word: 37 },
            7,
            37,
            "word 37 of the stream is an out coin inside its round's domain",
        ),
        (
            Refusal::EqualOut { word: 38 },
            14,
            38,
            "word 38 of the stream is an out coin and equals the one before it in its round",
        ),
        (
            Refusal::Clash { round: 1 },
            8,
            1,
            "in round 1 two equal points have different values",
        ),
        (
            Refusal::Final { position: 4 },
            9,
            4,
            "the final polynomial differs from the fold at position 4 of the final indices",
        ),
        (
            Refusal::Unknown {
                number: 77,
                place: 5,
            },
            77,
            5,
            "refusal 77 at 5, which has no name here",
        ),
    ];
    for (refusal, number, place, text) in all {
        let error: &dyn Error = &refusal;
        assert_eq!(error.to_string(), text);
        assert_eq!((refusal.number(), refusal.place()), (number, place));
        let outcome = Outcome::Refused(refusal);
        assert_eq!(outcome.to_string(), format!("refused: {text}"));
        assert_eq!(outcome.result(), Err(refusal));
        let verdict = Verdict { outcome, reads: 6 };
        assert_eq!(
            verdict.to_string(),
            format!("refused after 6 reads: {text}")
        );
        assert_eq!(verdict.line(), format!("refused {number} {place} 6"));
    }
}

#[test]
fn accepted() {
    let verdict = Verdict {
        outcome: Outcome::Accepted,
        reads: 762,
    };
    assert_eq!(verdict.to_string(), "accepted after 762 reads");
    assert_eq!(verdict.line(), "accepted 0 0 762");
    assert_eq!(
        (verdict.outcome.to_string(), verdict.outcome.result()),
        ("accepted".into(), Ok(()))
    );
}

#[test]
fn refusals_of_inputs() {
    let all = [
        (
            InputRefusal::SheetLength,
            10,
            0,
            "the sheet has not 12 words",
        ),
        (
            InputRefusal::SheetLength2,
            10,
            0,
            "the sheet has not 18 words",
        ),
        (
            InputRefusal::Sheet { word: 5 },
            3,
            5,
            "word 5 of the sheet (s) breaks its rule",
        ),
        (
            InputRefusal::TableCount,
            15,
            0,
            "the number of tables is not from 1 to 8, or too large for the sheet's n0",
        ),
        (
            InputRefusal::Bound { table: 8 },
            15,
            8,
            "the bound of table 8 is not from 1 to d0",
        ),
        (
            InputRefusal::BatchCoefficientCount,
            10,
            1,
            "the coefficients are not as many as the bounds say",
        ),
        (
            InputRefusal::EntryCount,
            10,
            1,
            "the table's entries are not as many as the sheet's n0",
        ),
        (
            InputRefusal::EntryRange { position: 9 },
            5,
            9,
            "word 9 of the table is out of range",
        ),
        (
            InputRefusal::NothingNear,
            19,
            0,
            "no polynomial of degree below d0 differs from the table in at most (n0 - d0)/2 points",
        ),
        (
            InputRefusal::CoefficientCount,
            10,
            1,
            "the coefficients are not as many as the sheet's d0",
        ),
        (
            InputRefusal::CoinCount,
            10,
            2,
            "the coins are not as many as the sheet makes due",
        ),
        (
            InputRefusal::Range { position: 9 },
            5,
            9,
            "word 9 of the coefficients followed by the coins is out of range",
        ),
        (
            InputRefusal::OutCoin { position: 1 },
            7,
            1,
            "coin 1 is an out coin inside its round's domain",
        ),
        (
            InputRefusal::EqualOut { position: 2 },
            14,
            2,
            "coin 2 is an out coin and equals the one before it in its round",
        ),
        (
            InputRefusal::OutputBlocks { needed: 2 },
            11,
            2,
            "the output is too short for the blocks needed: 2",
        ),
        (
            InputRefusal::OutputWords { needed: 16 },
            11,
            16,
            "the output is too short for the words needed: 16",
        ),
        (
            InputRefusal::Unknown {
                number: 77,
                place: 5,
            },
            77,
            5,
            "refusal 77 at 5, which has no name here",
        ),
    ];
    for (refusal, number, place, text) in all {
        let error: &dyn Error = &refusal;
        assert_eq!(error.to_string(), text);
        assert_eq!((refusal.number(), refusal.place()), (number, place));
    }
}

#[test]
fn words_of_the_longer_sheet() {
    let names = ["k_1", "k_2", "k_3", "k_4", "k_5", "the edition"];
    for (word, name) in (12..).zip(names) {
        let text = format!("word {word} of the sheet ({name}) breaks its rule");
        assert_eq!(Refusal::Sheet { word }.to_string(), text);
        assert_eq!(InputRefusal::Sheet { word }.to_string(), text);
    }
    // No sheet has such a word.
    let word = u64::MAX;
    let text = format!("word {word} of the sheet breaks its rule");
    assert_eq!(Refusal::Sheet { word }.to_string(), text);
}

#[test]
fn refusals_of_the_converter() {
    let all = [
        (
            ConvertRefusal::File(Refusal::Length),
            1,
            0,
            "the file is empty, or its length is no multiple of 512 bytes",
        ),
        (
            ConvertRefusal::File(Refusal::Fill { word: 51 }),
            6,
            51,
            "word 51 comes after the stream's end and is not zero",
        ),
        (
            ConvertRefusal::Folds { round: 5 },
            13,
            5,
            "k_5 is not k_0, so the file has no edition 1",
        ),
        (
            ConvertRefusal::OutputBlocks { needed: 67 },
            11,
            67,
            "the output is too short for the blocks needed: 67",
        ),
        (
            ConvertRefusal::Unknown {
                number: 77,
                place: 5,
            },
            77,
            5,
            "refusal 77 at 5, which has no name here",
        ),
    ];
    for (refusal, number, place, text) in all {
        let error: &dyn Error = &refusal;
        assert_eq!(error.to_string(), text);
        assert_eq!((refusal.number(), refusal.place()), (number, place));
    }
}
