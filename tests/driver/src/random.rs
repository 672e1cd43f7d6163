// Choices from random numbers.
#[path = "../../original/splitmix.rs"]
mod splitmix;

pub use splitmix::Random;

impl Random {
    pub fn below(&mut self, limit: usize) -> usize {
        (self.next() % limit as u64) as usize
    }

    // True once in so many times.
    pub fn once_in(&mut self, times: usize) -> bool {
        self.below(times) == 0
    }

    pub fn pick<T: Copy>(&mut self, of: &[T]) -> T {
        of[self.below(of.len())]
    }

    // A pattern of a random bit length.
    pub fn pattern(&mut self) -> u128 {
        self.bits().unbounded_shr(self.below(129) as u32)
    }
}
