// Random operands.
#[path = "../../original/splitmix.rs"]
mod splitmix;

pub use splitmix::Random;

impl Random {
    // A number of a random bit length.
    pub fn number(&mut self) -> u128 {
        self.below(128)
    }

    // A number of a random bit length, at most this one.
    pub fn below(&mut self, most: u16) -> u128 {
        let bits = self.bits();
        let length = self.next() % (u64::from(most) + 1);
        bits.unbounded_shr(128 - length as u32)
    }

    // A number or its complement.
    pub fn operand(&mut self) -> u128 {
        let number = self.number();
        if self.next() % 2 == 0 {
            number
        } else {
            !number
        }
    }

    // A shift's amount.
    pub fn amount(&mut self) -> u128 {
        u128::from(self.next() % 144)
    }
}
