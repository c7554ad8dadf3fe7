//! The check of a word in two ways that share no number: by the standard's generator matrix, and
//! by division over a list of bits.

/// Bits of a word.
pub const WORD: usize = 16;

/// Bits of a check.
pub const CHECK: usize = 10;

/// The generator matrix's rows for the bits of a word, from bit 15 down to bit 0.
const ROWS: [u16; WORD] = [
    0x077, 0x2E7, 0x3AF, 0x30B, 0x359, 0x370, 0x1B8, 0x0DC, //
    0x06E, 0x037, 0x2C7, 0x3BF, 0x303, 0x35D, 0x372, 0x1B9,
];

/// The powers of z in the generator.
const GENERATOR: [usize; 7] = [10, 8, 7, 5, 4, 3, 0];

/// The lowest bits of a number, the highest first.
pub fn bits(number: u32, count: usize) -> Vec<bool> {
    (0..count).rev().map(|k| number >> k & 1 == 1).collect()
}

/// The number whose bits these are, the highest first.
fn number(bits: &[bool]) -> u32 {
    bits.iter().fold(0, |n, bit| 2 * n + *bit as u32)
}

/// The exclusive-or of the rows of the word's bits.
pub fn by_matrix(word: u16) -> u16 {
    bits(word as u32, WORD)
        .into_iter()
        .zip(ROWS)
        .filter(|(bit, _)| *bit)
        .fold(0, |check, (_, row)| check ^ row)
}

/// The remainder of the word times z^10.
pub fn by_division(word: u16) -> u16 {
    let times = [bits(word as u32, WORD), vec![false; CHECK]].concat();
    number(&remainder(&times)) as u16
}

/// What the generator leaves of a list of bits, which is not shorter than ten.
fn remainder(dividend: &[bool]) -> Vec<bool> {
    let mut left = dividend.to_vec();
    let steps = left.len() - CHECK;
    for i in 0..steps {
        if left[i] {
            GENERATOR
                .iter()
                .for_each(|power| left[i + CHECK - power] ^= true);
        }
    }
    left.split_off(steps)
}

/// The remainders of numbers of 32 bits. The ten lowest bits are their own remainder, so the division
/// is carried out once for each number of the other 22.
pub struct Remainders(Vec<u16>);

impl Remainders {
    pub fn divided() -> Self {
        let high = 0..1 << (32 - CHECK);
        Remainders(
            high.map(|x| number(&remainder(&bits(x << CHECK, 32))) as u16)
                .collect(),
        )
    }

    pub fn of(&self, number: u32) -> u32 {
        self.0[(number >> CHECK) as usize] as u32 ^ (number & 0x3FF)
    }
}

#[cfg(test)]
mod tests {
    use super::*;
    use stereo_oracle::inputs::Inputs;

    #[test]
    fn matrix_and_division_agree_on_every_word() {
        for word in 0..=u16::MAX {
            assert_eq!(by_matrix(word), by_division(word), "{word:04x}");
        }
    }

    /// z^10 leaves the generator without z^10, and z^11 this times z.
    #[test]
    fn the_lowest_words_have_the_check_of_hand_arithmetic() {
        assert_eq!(by_division(0), 0);
        assert_eq!(by_division(1), 0b01_1011_1001);
        assert_eq!(by_division(2), 0b11_0111_0010);
        // twice 372 has z^10, so the generator is taken off once more
        assert_eq!(by_division(4), 0b11_0111_0010 << 1 ^ 0b101_1011_1001);
    }

    #[test]
    fn a_number_leaves_what_the_whole_division_leaves() {
        let remainders = Remainders::divided();
        let mut r = Inputs::new(1);
        let single = (0..32).map(|k| 1 << k);
        let any = (0..10_000).map(|_| r.u32());
        for x in single.chain(any) {
            let whole = number(&remainder(&bits(x, 32)));
            assert_eq!(remainders.of(x), whole, "{x:08x}");
        }
    }

    #[test]
    fn a_word_with_its_check_leaves_nothing() {
        for word in 0..=u16::MAX {
            let block = [bits(word as u32, WORD), bits(by_matrix(word) as u32, CHECK)];
            assert_eq!(remainder(&block.concat()), [false; CHECK], "{word:04x}");
        }
    }
}
