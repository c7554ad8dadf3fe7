//! The bits that go on air: one group after the other, and from the first again.

use pescrondilu::Refusal;
use pescrondilu::kernels::rds::{GROUP_BITS, RdsFormer};

use super::groups::Groups;

pub struct Bits {
    groups: Groups,
    /// The place of the next group.
    next: usize,
    former: RdsFormer,
    /// The bits of the group that is being sent, and how many of them were taken.
    bits: [u8; GROUP_BITS],
    taken: usize,
}

impl Bits {
    pub fn new(groups: &Groups) -> Bits {
        Bits {
            groups: groups.clone(),
            next: 0,
            former: RdsFormer::new(),
            bits: [0; GROUP_BITS],
            taken: GROUP_BITS,
        }
    }

    pub fn take(&mut self) -> Result<bool, Refusal> {
        if self.taken == GROUP_BITS {
            self.form()?;
        }
        let bit = self.bits[self.taken];
        self.taken += 1;
        Ok(bit == 1)
    }

    fn form(&mut self) -> Result<(), Refusal> {
        let groups = self.groups.words();
        self.former.group(groups[self.next], &mut self.bits)?;
        self.next = (self.next + 1) % groups.len();
        self.taken = 0;
        Ok(())
    }
}

#[cfg(test)]
mod tests {
    use super::*;

    #[test]
    fn groups_go_out_in_turn_and_the_bit_is_carried() {
        let groups = Groups::parse("0000 0000 0000 0000\nD318 0C08 D318 5065").unwrap();
        let mut bits = Bits::new(&groups);
        let mut former = RdsFormer::new();
        let mut carried = 0;
        for turn in 0..5 {
            let mut wanted = [0; GROUP_BITS];
            carried += u32::from(former.carried());
            former.group(groups.words()[turn % 2], &mut wanted).unwrap();
            for bit in wanted {
                assert_eq!(bits.take(), Ok(bit == 1), "group {turn}");
            }
        }
        assert!(carried > 0, "the bit that is carried has to matter");
    }
}
