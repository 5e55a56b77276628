//! Every refusal of verify but that of the sheet, its places, its reads and the order
//! of the tests, in both editions (document 01, "Verify, prove, encode").

mod common;

use common::*;
use tevrolig_model::generate::{self, Rng};
use tevrolig_model::layout::Part;
use tevrolig_model::stream::read_word;

#[test]
fn length_1() {
    for Sample { edition, file, .. } in samples() {
        for length in [0, 1, 4, 511, file.len() - 1] {
            assert_eq!(verdict_line(edition, &file[..length]), "refused 1 0 0");
        }
        for extra in [1, 4, 511] {
            let mut longer = file.clone();
            longer.resize(file.len() + extra, 0);
            assert_eq!(verdict_line(edition, &longer), "refused 1 0 0");
        }
    }
}

#[test]
fn check_2() {
    for Sample { edition, file, .. } in samples() {
        let blocks = file.len() / 512;
        assert!(blocks >= 4);
        for b in [0, 1, blocks - 1] {
            for byte in [0, 17, 400, 508, 511] {
                let mut wrong = file.clone();
                wrong[512 * b + byte] ^= 0x40;
                assert_eq!(verdict_line(edition, &wrong), format!("refused 2 {b} 0"));
                // A later wrong block changes nothing.
                wrong[512 * (blocks - 1) + 100] ^= 1;
                assert_eq!(verdict_line(edition, &wrong), format!("refused 2 {b} 0"));
            }
        }
        // A block too many with a wrong check is 2, not 4.
        let mut longer = file.clone();
        longer.resize(file.len() + 512, 0);
        assert_eq!(
            verdict_line(edition, &longer),
            format!("refused 2 {blocks} 0")
        );
    }
}

#[test]
fn check_words_are_canonical_remainders() {
    for edition in Edition::BOTH {
        // A lone word w at place 0 makes the check w + 1 modulo 4294967291.
        let mut file = vec![0; 512];
        file[..4].copy_from_slice(&4294967290_u32.to_le_bytes());
        assert_eq!(verdict_line(edition, &file), "refused 3 0 0");
        file[508..].copy_from_slice(&4294967291_u32.to_le_bytes());
        assert_eq!(verdict_line(edition, &file), "refused 2 0 0");
        // Every word at its greatest.
        let file = changed(&vec![0xFF; 1024], &[]);
        assert_eq!(verdict_line(edition, &file), "refused 3 0 0");
    }
}

#[test]
fn block_count_4() {
    for (sample, blocks) in samples().iter().zip([4, 15]) {
        let Sample { edition, file, .. } = sample;
        assert_eq!(file.len(), 512 * blocks);
        assert_eq!(blocks, sample.layout.blocks());
        let expected = format!("refused 4 {blocks} 0");
        for present in [1, blocks - 1, blocks + 1, blocks + 40] {
            let mut other = file.clone();
            other.resize(512 * present, 0);
            assert_eq!(verdict_line(*edition, &changed(&other, &[])), expected);
        }
        // Beyond the need contents do not matter, only checks.
        let mut longer = file.clone();
        longer.resize(file.len() + 512, 0xEE);
        assert_eq!(verdict_line(*edition, &changed(&longer, &[])), expected);
    }
}

#[test]
fn a_stream_that_ends_with_its_block_has_no_fill() {
    // Sheet, 64 + 1 + 16 + t_0 words.
    let one = |t| vec![1, 64, 32, 2, 0, 1, t, 0, 0, 0, 0, 0];
    let two = |t| [one(t), vec![0, 0, 0, 0, 0, 2]].concat();
    let mut rng = Rng::new(5);
    for (sheet, most) in [(&one as &dyn Fn(u32) -> Vec<u32>, 34), (&two, 28)] {
        for (t, blocks) in [(most - 1, 1), (most, 1), (most + 1, 2)] {
            let sheet = sheet(t);
            let file = accept(&mut rng, &sheet, true);
            assert_eq!(layout(&sheet).words(), sheet.len() + 81 + t as usize);
            assert_eq!(file.len(), 512 * blocks);
        }
        let sheet = sheet(most);
        let mut longer = honest(&mut rng, &sheet, false);
        longer.resize(1024, 0);
        let longer = changed(&longer, &[]);
        assert_eq!(verdict_line(edition(&sheet), &longer), "refused 4 1 0");
    }
}

/// Where each part of the samples stands.
#[test]
fn parts_by_hand() {
    let lengths: [&[usize]; 2] = [
        &[256, 1, 128, 2, 2, 1, 1, 4, 64, 2, 2, 1, 1, 3, 8, 5],
        &[1024, 1, 512, 2, 2, 1, 1, 3, 256, 2, 2, 1, 1, 2, 4, 4],
    ];
    // Shift indices are below n_0/k_0 and n_1/k_1, final ones below n_2/k_2.
    let limits = [[128, 64, 32], [64, 128, 128]];
    for ((sample, lengths), limits) in samples().iter().zip(lengths).zip(limits) {
        let sections = &sample.layout.sections;
        let found: Vec<usize> = sections.iter().map(|s| s.words.len()).collect();
        assert_eq!(found, lengths);
        assert_eq!(sections[0].words.start, sample.words.len());
        let all = sample.words.len() + lengths.iter().sum::<usize>();
        assert_eq!(sample.layout.words(), all);
        assert_eq!([7, 13, 15].map(|at| sections[at].limit), limits);
        for (at, section) in sections.iter().enumerate() {
            assert!([7, 13, 15].contains(&at) || section.limit == 65537);
        }
    }
}

#[test]
fn range_5() {
    for sample in samples() {
        for section in &sample.layout.sections {
            let limit = section.limit as u32;
            let (first, last) = (section.words.start, section.words.end - 1);
            for word in [first, (first + last) / 2, last] {
                for value in [limit, limit + 1, u32::MAX] {
                    let refused = format!("refused 5 {word} 0");
                    assert_eq!(sample.verdict_line(&[(word, value)]), refused);
                    // The fault behind it changes nothing.
                    let also = (sample.layout.words() - 1, u32::MAX);
                    assert_eq!(sample.verdict_line(&[(word, value), also]), refused);
                }
                assert_ne!(sample.number(&[(word, limit - 1)]), 5);
            }
        }
    }
}

#[test]
fn fill_6() {
    for sample in samples() {
        let (first, end) = (sample.layout.words(), sample.layout.blocks() * 127);
        assert!(first + 2 < end);
        for word in [first, (first + end) / 2, end - 1] {
            for value in [1, 65537, u32::MAX] {
                let refused = format!("refused 6 {word} 0");
                assert_eq!(sample.verdict_line(&[(word, value)]), refused);
            }
        }
        let both = [(end - 1, 1), (first, 1)];
        assert_eq!(sample.verdict_line(&both), format!("refused 6 {first} 0"));
    }
}

#[test]
fn out_coin_7() {
    for (sample, reads) in samples().iter().zip([2 * 4, 16 * 3]) {
        let Sample {
            layout, subgroup, ..
        } = sample;
        for i in 1..=2 {
            let domain = subgroup.domain(i);
            for word in layout.range(Part::OutCoins(i)) {
                for j in [0, domain.len() / 3, domain.len() - 1] {
                    let inside = [(word, domain[j] as u32)];
                    assert_eq!(sample.verdict_line(&inside), format!("refused 7 {word} 0"));
                }
            }
        }
        // A point of domain 1 that is not in domain 2 is a permitted coin of round 2.
        let word = layout.range(Part::OutCoins(2)).start;
        let point = subgroup.point(1, 1);
        assert!(!subgroup.domain(2).contains(&point));
        assert_eq!(sample.number(&[(word, point as u32)]), 9);
        // 7 in round 2 comes before 8 in round 1.
        let shift = layout.range(Part::ShiftIndices(1)).start;
        let out = layout.range(Part::OutCoins(1)).start;
        let clash = (out, sample.shift_point(1, shift));
        assert_eq!(
            sample.verdict_line(&[clash]),
            format!("refused 8 1 {reads}")
        );
        let inside = (word, subgroup.point(2, 0) as u32);
        let refused = format!("refused 7 {word} 0");
        assert_eq!(sample.verdict_line(&[clash, inside]), refused);
    }
}

/// 14 at the second of two equal out coins, whatever their replies are.
#[test]
fn equal_out_coins_14() {
    for sample in samples() {
        let Sample { layout, file, .. } = &sample;
        for i in 1..=2 {
            let outs = layout.range(Part::OutCoins(i));
            let [first, second] = [outs.start, outs.start + 1];
            let refused = format!("refused 14 {second} 0");
            let coins = [first, second].map(|word| read_word(file, word));
            // A shift point's fold differs from the replies, and 0 is in no domain.
            let shift = layout.range(Part::ShiftIndices(i)).start;
            for coin in [coins[0], coins[1], 0, sample.shift_point(i, shift)] {
                let equal = [(first, coin), (second, coin)];
                assert_eq!(sample.verdict_line(&equal), refused);
                for replies in [[5, 5], [5, 6], [0, 0]] {
                    let [a, b] = [(first + 2, replies[0]), (second + 2, replies[1])];
                    assert_eq!(sample.verdict_line(&[equal[0], equal[1], a, b]), refused);
                }
            }
        }
    }
}

/// 14 comes after every 7, also one of a later round, and before every 8 and 9.
#[test]
fn equal_out_coins_in_the_order_of_tests() {
    for sample in samples() {
        let Sample {
            layout, subgroup, ..
        } = &sample;
        let [one, two] = [1, 2].map(|i| layout.range(Part::OutCoins(i)).start);
        let equal = |out: usize| (out + 1, read_word(&sample.file, out));
        let at = |number: u32, word: usize| format!("refused {number} {word} 0");
        // Of two rounds the first counts.
        assert_eq!(
            sample.verdict_line(&[equal(one), equal(two)]),
            at(14, one + 1)
        );
        assert_eq!(sample.verdict_line(&[equal(two)]), at(14, two + 1));
        // A 7 in the other round.
        for (i, inside, equal_one) in [(1, one, two), (1, one + 1, two), (2, two, one)] {
            let moved = (inside, subgroup.point(i, 3) as u32);
            let changes = [moved, equal(equal_one)];
            assert_eq!(sample.verdict_line(&changes), at(7, inside));
        }
        // Equal coins in their domain.
        for (i, out) in [(1, one), (2, two)] {
            let point = subgroup.point(i, 0) as u32;
            let inside = [(out, point), (out + 1, point)];
            assert_eq!(sample.verdict_line(&inside), at(7, out));
        }
        // An 8 in the first round, and a 9; then ranges and the fill.
        let shift = layout.range(Part::ShiftIndices(1)).start;
        let clash = (one, sample.shift_point(1, shift));
        assert_eq!(sample.number(&[clash]), 8);
        assert_eq!(sample.verdict_line(&[clash, equal(two)]), at(14, two + 1));
        let last = layout.range(Part::FinalCoefficients).start;
        let other = (last, (read_word(&sample.file, last) + 1) % 65537);
        assert_eq!(sample.number(&[other]), 9);
        assert_eq!(sample.verdict_line(&[other, equal(two)]), at(14, two + 1));
        let (fill, above) = (layout.words(), layout.words() - 1);
        assert_eq!(sample.verdict_line(&[equal(one), (fill, 1)]), at(6, fill));
        let range = [equal(one), (above, u32::MAX)];
        assert_eq!(sample.verdict_line(&range), at(5, above));
    }
}

/// Words beside an out coin that are no out coin of its round may equal it: its reply,
/// the combination coin, the out coins of the other round.
#[test]
fn other_equal_words() {
    // 5 + 11X + 5X^2 is -1 at -1, and 16 is in no domain past the first.
    let coins = with(&COINS, &[(1, 16), (2, 16)]);
    let file = generate::honest_file(&SHEET, &COEFFICIENTS, &coins);
    assert_eq!([OUT, REPLY].map(|word| read_word(&file, word)), [16, 16]);
    assert_eq!(verdict_line(One, &file), "accepted 0 0 4");

    for sample in samples() {
        let layout = &sample.layout;
        let [one, two] = [1, 2].map(|i| {
            let word = layout.range(Part::OutCoins(i)).start;
            layout.coin_position(word)
        });
        let [a, b] = [sample.coins[one], sample.coins[one + 1]];
        let c = sample.coins[two];
        for [first, second] in [[a, b], [b, a], [a, c], [c, a], [b, c], [c, b]] {
            // The coin after the second is the combination coin.
            let changes = [(two, first), (two + 1, second), (two + 2, second)];
            let coins = with(&sample.coins, &changes);
            let file = generate::honest_file(sample.words, &sample.coefficients, &coins);
            let accepted = format!("accepted 0 0 {}", reads(sample.words, &file));
            assert_eq!(verdict_line(sample.edition, &file), accepted);
        }
    }
}

#[test]
fn clash_8() {
    let reads = [[2 * 4, 2 * (4 + 3)], [16 * 3, 16 * 3 + 4 * 2]];
    for (sample, reads) in samples().iter().zip(reads) {
        let layout = &sample.layout;
        for (i, reads) in (1..).zip(reads) {
            let expected = format!("refused 8 {i} {reads}");
            let outs = layout.range(Part::OutCoins(i));
            // An out coin and the first, a middle, the last shift point.
            for word in layout.range(Part::ShiftIndices(i)) {
                let power = sample.shift_point(i, word);
                for out in outs.clone() {
                    assert_eq!(sample.verdict_line(&[(out, power)]), expected);
                }
            }
        }
        // Of two rounds the first counts.
        let clash = |i: usize| {
            let shift = layout.range(Part::ShiftIndices(i)).start;
            let out = layout.range(Part::OutCoins(i)).start;
            (out, sample.shift_point(i, shift))
        };
        let expected = format!("refused 8 1 {}", reads[0]);
        assert_eq!(sample.verdict_line(&[clash(1), clash(2)]), expected);
    }
}

#[test]
fn comparison_9() {
    // k = 4, and k = 2 4; the one shift coin reads k_0 words.
    let sheets: [(&[u32], usize); 2] = [
        (&[2, 64, 16, 4, 1, 1, 1, 9, 0, 0, 0, 0], 4),
        (&[2, 64, 16, 2, 1, 1, 1, 9, 0, 0, 0, 0, 4, 0, 0, 0, 0, 2], 2),
    ];
    for (sheet, before) in sheets {
        let edition = edition(sheet);
        let layout = layout(sheet);
        let mut rng = Rng::new(3);
        let honest = honest(&mut rng, sheet, false);
        // Final indices 0 to 7 and 0 again, all different but the last.
        let indices = layout.range(Part::FinalIndices);
        let spread: Vec<(usize, u32)> = indices.clone().zip([0, 1, 2, 3, 4, 5, 6, 7, 0]).collect();
        let file = changed(&honest, &spread);
        let verdict_line =
            |changes: &[(usize, u32)]| verdict_line(edition, &changed(&file, changes));
        // The last index opens nothing new.
        let accepted = |different: usize| format!("accepted 0 0 {}", before + 4 * different);
        assert_eq!(verdict_line(&[]), accepted(8));

        // A wrong table word under one index fails at its first place alone.
        let table = layout.range(Part::Table(1)).start;
        for index in 0..8 {
            for m in 0..4 {
                let word = table + index + 8 * m;
                let value = (read_word(&file, word) + 1) % 2013265921;
                let reads = before + 4 * (index + 1);
                let refused = format!("refused 9 {index} {reads}");
                assert_eq!(verdict_line(&[(word, value)]), refused);
            }
        }
        // At the last position, where the index is moved there.
        let moved = [(indices.start, 1), (table, read_word(&file, table) ^ 1)];
        assert_eq!(
            verdict_line(&moved),
            format!("refused 9 8 {}", before + 4 * 8)
        );
        // Words that no coin leads to are tested for their range alone.
        let unused: Vec<(usize, u32)> = indices.map(|word| (word, 1)).chain([moved[1]]).collect();
        assert_eq!(verdict_line(&unused), accepted(1));
    }
}
