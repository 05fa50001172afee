//! The refusals that apply to one call: all of them, not only the one that is given.

#[derive(Clone, Copy, Default)]
pub struct Refusals(u32);

impl Refusals {
    pub fn when(&mut self, applies: bool, number: u8) {
        if applies {
            self.0 |= 1 << number;
        }
    }

    pub fn has(self, number: u8) -> bool {
        self.0 >> number & 1 == 1
    }

    /// The earliest of a call's order.
    pub fn first(self, order: &[u8]) -> Option<u8> {
        order.iter().copied().find(|&number| self.has(number))
    }
}
