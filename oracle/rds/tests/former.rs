//! The model beside groups worked out by hand, and what it refuses.

use rds_oracle::Former;
use rds_oracle::former::{GROUP, Words};
use stereo_oracle::answers::ACCEPTED;

/// The checks, each the row of the word's one bit and the offset: 1B9 and 0FC give 145; 0 and 198,
/// 198; 0 and 168, 168; 077 and 1B4, 1C3.
const VERSION_A: Words = [0x0001, 0x0000, 0x0000, 0x8000];

/// 0000000000000001 0101000101, 0000000000000000 0110011000, 0000000000000000 0101101000 and
/// 1000000000000000 0111000011, coded from a carried 0.
const CODED_A: [&str; 8] = [
    "0000000000000001",
    "1001111001",
    "1111111111111111",
    "1011101111",
    "1111111111111111",
    "1001001111",
    "0000000000000000",
    "0101111101",
];

/// The checks: 2E7 and 0FC give 21B; 359 and 198, 2C1; 2E7 and 350, 1B7; 1B9 and 1B4, 00D.
const VERSION_B: Words = [0x4000, 0x0800, 0x4000, 0x0001];

/// 0100000000000000 1000011011, 0000100000000000 1011000001, 0100000000000000 0110110111 and
/// 0000000000000001 0000001101, coded from a carried 1.
const CODED_B: [&str; 8] = [
    "1000000000000000",
    "1111101101",
    "1111000000000000",
    "1101111110",
    "0111111111111111",
    "1011011010",
    "0000000000000001",
    "1111110110",
];

/// Refused by 19: one bit of word three is another.
const UNLIKE: Words = [0x4000, 0x0800, 0x4001, 0x0001];

fn bytes(coded: [&str; 8]) -> Vec<u8> {
    coded.concat().bytes().map(|digit| digit - b'0').collect()
}

#[test]
fn a_group_of_version_a_is_as_worked_out() {
    let mut former = Former::default();
    let mut output = [9; GROUP];
    assert_eq!(former.group(&VERSION_A, &mut output), ACCEPTED);
    assert_eq!(output[..], bytes(CODED_A));
    assert!(former.carried);
}

#[test]
fn the_next_group_begins_with_the_carried_bit() {
    let mut former = Former::default();
    let mut output = [9; GROUP];
    assert_eq!(former.group(&VERSION_A, &mut output), ACCEPTED);
    assert_eq!(former.group(&VERSION_B, &mut output), ACCEPTED);
    assert_eq!(output[..], bytes(CODED_B));
    assert!(!former.carried);
}

/// A carried 1 turns every bit of the output.
#[test]
fn the_carried_bit_turns_the_whole_group() {
    let mut former = Former { carried: true };
    let mut output = [9; GROUP];
    assert_eq!(former.group(&VERSION_A, &mut output), ACCEPTED);
    let turned: Vec<u8> = bytes(CODED_A).iter().map(|bit| 1 - bit).collect();
    assert_eq!(output[..], turned);
    assert!(!former.carried);
}

/// A refused call leaves output and carried bit.
fn is_refused(words: &Words, length: usize, said: [usize; 3]) {
    for carried in [false, true] {
        let mut former = Former { carried };
        let mut output = vec![9; length];
        assert_eq!(former.group(words, &mut output), said);
        assert_eq!(output, vec![9; length]);
        assert_eq!(former, Former { carried });
    }
}

#[test]
fn another_length_is_refused_by_11() {
    for length in (0..=208).filter(|n| *n != 104) {
        is_refused(&VERSION_A, length, [111, 104, length]);
        is_refused(&VERSION_B, length, [111, 104, length]);
    }
}

#[test]
fn an_unlike_word_three_of_version_b_is_refused_by_19() {
    is_refused(&UNLIKE, GROUP, [119, 0, 0]);
    for bit in 0..16 {
        let [one, two, three, four] = VERSION_B;
        is_refused(&[one, two, three ^ 1 << bit, four], GROUP, [119, 0, 0]);
    }
}

#[test]
fn an_unlike_word_three_of_version_a_is_accepted() {
    let [one, two, three, four] = UNLIKE;
    let words = [one, two ^ 0x0800, three, four];
    let mut output = [9; GROUP];
    assert_eq!(Former::default().group(&words, &mut output), ACCEPTED);
    assert!(output.iter().all(|bit| *bit <= 1));
}

#[test]
fn cause_11_comes_before_19() {
    is_refused(&UNLIKE, 103, [111, 104, 103]);
    is_refused(&UNLIKE, 0, [111, 104, 0]);
}
