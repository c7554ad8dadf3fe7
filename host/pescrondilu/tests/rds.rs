//! The group former beside bits that are worked out here from the standard's generator matrix, and
//! its refusals.

mod common;

use common::{Random, cause, lengths};
use pescrondilu::kernels::rds::{FormerRecord, GROUP_BITS, RdsFormer, remainder};
use pescrondilu::{Error, Refusal};

/// The generator matrix of IEC 62106: the check of each single bit of a word, from bit 15 down.
const MATRIX: [u32; 16] = [
    0x077, 0x2E7, 0x3AF, 0x30B, 0x359, 0x370, 0x1B8, 0x0DC, 0x06E, 0x037, 0x2C7, 0x3BF, 0x303,
    0x35D, 0x372, 0x1B9,
];
const A: u32 = 0x0FC;
const B: u32 = 0x198;
const C: u32 = 0x168;
const C_PRIME: u32 = 0x350;
const D: u32 = 0x1B4;

/// Bit 11 of word two.
const VERSION_B: u16 = 0x0800;

/// What outputs hold before a call.
const LEFT: u8 = 9;

/// The check by the matrix: the exclusive-or of the rows of the word's bits.
fn check(word: u16) -> u32 {
    let rows = MATRIX.iter().enumerate();
    let set = rows.filter(|(row, _)| word >> (15 - row) & 1 == 1);
    set.fold(0, |sum, (_, row)| sum ^ row)
}

/// The n lowest bits, the highest first.
fn bits(x: u32, n: u32) -> impl Iterator<Item = u8> {
    (0..n).rev().map(move |k| (x >> k & 1) as u8)
}

fn block(word: u16, offset: u32) -> Vec<u8> {
    bits(word.into(), 16)
        .chain(bits(check(word) ^ offset, 10))
        .collect()
}

fn offsets(words: [u16; 4]) -> [u32; 4] {
    let third = if words[1] & VERSION_B == 0 {
        C
    } else {
        C_PRIME
    };
    [A, B, third, D]
}

/// The bits of a group after the output bit `previous`.
fn coded(previous: u8, words: [u16; 4]) -> Vec<u8> {
    let blocks = words.into_iter().zip(offsets(words));
    let plain = blocks.flat_map(|(word, offset)| block(word, offset));
    let next = |last: &mut u8, bit: u8| {
        *last ^= bit;
        Some(*last)
    };
    plain.scan(previous, next).collect()
}

fn former(carried: u8) -> RdsFormer {
    let carried = carried.into();
    RdsFormer::from_record(FormerRecord { carried })
}

/// Any group; `again` where word three has to be word one.
fn any_words(random: &mut Random, again: bool) -> [u16; 4] {
    let x = random.word();
    let [one, two, three, four] = [0, 16, 32, 48].map(|shift| (x >> shift) as u16);
    match again {
        true => [one, two | VERSION_B, one, four],
        false => [one, two & !VERSION_B, three, four],
    }
}

/// Forms a group and compares it with the one worked out here.
fn compare(former: &mut RdsFormer, words: [u16; 4]) {
    let wanted = coded(former.carried().into(), words);
    let mut output = [LEFT; GROUP_BITS];
    assert_eq!(former.group(words, &mut output), Ok(()), "{words:x?}");
    assert_eq!(output[..], wanted, "{words:x?}");
    assert_eq!(u8::from(former.carried()), output[GROUP_BITS - 1]);
}

/// A group of version A by hand: words of 0 have checks of 0, so that the offset words go out.
#[test]
fn words_of_0_send_the_offset_words() {
    let mut output = [LEFT; GROUP_BITS];
    RdsFormer::new().group([0; 4], &mut output).unwrap();
    let undone: Vec<u8> = (0..GROUP_BITS)
        .map(|i| output[i] ^ if i == 0 { 0 } else { output[i - 1] })
        .collect();
    for (block, offset) in undone.chunks(26).zip([A, B, C, D]) {
        assert_eq!(block[..16], [0; 16]);
        assert_eq!(block[16..], bits(offset, 10).collect::<Vec<u8>>());
    }
}

#[test]
fn whole_groups_in_both_versions() {
    for carried in [0, 1] {
        for words in [
            [0xD318, 0x0408, 0xE0CD, 0x5065],
            [0xD318, 0x0C08, 0xD318, 0x5065],
            [0xFFFF; 4],
            [0xFFFF, 0xF7FF, 0, 0xFFFF],
            [0, VERSION_B, 0, 0],
        ] {
            compare(&mut former(carried), words);
        }
    }
}

/// Each row of the matrix at each place.
#[test]
fn every_single_bit() {
    for place in 0..4 {
        for bit in 0..16 {
            let mut words = [0; 4];
            words[place] = 1 << bit;
            compare(&mut former(0), words);
        }
    }
}

#[test]
fn groups_in_a_row_carry_the_last_bit() {
    let mut random = Random(19);
    let mut former = RdsFormer::new();
    let mut carried = [0; 2];
    for k in 0..2_000 {
        let words = any_words(&mut random, k % 2 == 1);
        carried[usize::from(former.carried())] += 1;
        compare(&mut former, words);
    }
    assert!(carried[0] > 500 && carried[1] > 500, "{carried:?}");
}

/// The same two groups, the second one beside what follows from the first one's last bit.
#[test]
fn the_second_group_goes_on_from_the_first() {
    let (first, second) = ([0; 4], [0xD318, 0x0C08, 0xD318, 0x5065]);
    let mut output = [LEFT; 2 * GROUP_BITS];
    let mut former = RdsFormer::new();
    for (words, bits) in [first, second].into_iter().zip(output.chunks_mut(104)) {
        former.group(words, bits).unwrap();
    }
    let one = coded(0, first);
    assert_eq!(one[103], 1, "the bit that is carried has to matter");
    assert_eq!(output[..104], one);
    assert_eq!(output[104..], coded(1, second));
    assert_ne!(output[104..], coded(0, second));
}

#[test]
fn a_new_former_has_sent_nothing() {
    assert_eq!(RdsFormer::new(), RdsFormer::default());
    assert!(!RdsFormer::new().carried());
    for (switch, on) in [(0, false), (1, true), (2, true), (u32::MAX, true)] {
        let former = RdsFormer::from_record(FormerRecord { carried: switch });
        assert_eq!(former.carried(), on);
        assert_eq!(former.record(), FormerRecord { carried: on.into() });
    }
}

/// A refusal, with output and carried bit as they were.
fn refused(words: [u16; 4], n: usize, want: Refusal) {
    for carried in [0, 1] {
        let (mut st, mut output) = (former(carried), vec![LEFT; n]);
        assert_eq!(st.group(words, &mut output), Err(want), "{words:x?}");
        assert_eq!(st, former(carried));
        assert!(output.iter().all(|x| *x == LEFT));
    }
}

const VERSION_A_WORDS: [u16; 4] = [1, 0, 2, 3];
const VERSION_B_WORDS: [u16; 4] = [1, VERSION_B, 1, 3];
/// Word three is not word one.
const WRONG_WORDS: [u16; 4] = [1, VERSION_B, 2, 3];

#[test]
fn other_lengths_are_11() {
    for n in [0, 1, 26, 103, 105, 208] {
        refused(VERSION_A_WORDS, n, lengths(11, 104, n));
        refused(VERSION_B_WORDS, n, lengths(11, 104, n));
    }
}

#[test]
fn another_word_three_is_19() {
    refused(WRONG_WORDS, GROUP_BITS, cause(19));
    // one bit is enough, and the other bits of word two do not matter
    for bit in 0..16 {
        for two in [VERSION_B, 0xFFFF] {
            let words = [0x55AA, two, 0x55AA ^ 1 << bit, 0];
            refused(words, GROUP_BITS, cause(19));
        }
    }
}

#[test]
fn length_comes_before_word_three() {
    for n in [0, 103, 105] {
        refused(WRONG_WORDS, n, lengths(11, 104, n));
    }
}

#[test]
fn a_former_goes_on_after_a_refusal() {
    let mut st = RdsFormer::new();
    let mut output = [LEFT; GROUP_BITS];
    st.group([0; 4], &mut output).unwrap();
    let before = st;
    assert!(before.carried());
    assert!(st.group(WRONG_WORDS, &mut output).is_err());
    assert!(st.group(VERSION_A_WORDS, &mut output[..103]).is_err());
    assert_eq!(output[..], coded(0, [0; 4]));
    assert_eq!(st, before);
    compare(&mut st, VERSION_B_WORDS);
}

#[test]
fn refusals_as_errors() {
    let error = |words, n| {
        let refusal = RdsFormer::new().group(words, &mut vec![0; n]).unwrap_err();
        Error::from(refusal)
    };
    let (expected, got) = (104, 103);
    let mismatch = Error::LengthMismatch { expected, got };
    assert_eq!(error(VERSION_A_WORDS, 103), mismatch);
    let invalid = Error::InvalidParameter(cause(19).message());
    assert_eq!(error(WRONG_WORDS, 104), invalid);
}

#[test]
fn the_remainder_is_the_check_of_every_word() {
    for word in 0..=u16::MAX {
        assert_eq!(remainder(u32::from(word) << 10), check(word), "{word:x}");
    }
}

/// What a receiver does: a block without a wrong bit leaves its offset word.
#[test]
fn the_remainder_of_a_block_is_its_offset_word() {
    let mut random = Random(26);
    for offset in [A, B, C, C_PRIME, D] {
        for _ in 0..100 {
            let word = random.word() as u16;
            let block = u32::from(word) << 10 | check(word) ^ offset;
            assert_eq!(remainder(block), offset);
            for bit in 0..26 {
                assert_ne!(remainder(block ^ 1 << bit), offset, "bit {bit} is wrong");
            }
        }
    }
}

/// Each power of z leaves z times what the one below leaves, less the generator where that has z^10.
#[test]
fn the_remainder_of_a_number_beyond_a_block() {
    let mut left = MATRIX[0];
    for bit in 26..32 {
        left *= 2;
        if left >= 1 << 10 {
            left ^= 0x5B9;
        }
        assert_eq!(remainder(1 << bit), left);
        assert_eq!(remainder(1 << bit | 1 << 10), left ^ MATRIX[15]);
    }
}
