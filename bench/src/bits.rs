//! Writes fields of bits, most significant first, by way of an accumulator from which four octets go
//! out at once.

pub struct BitWriter<'a> {
    out: &'a mut [u8],
    at: usize,
    pending: u64,
    /// Bits of `pending` that are still to be written: under 32 between two calls.
    bits: usize,
}

impl<'a> BitWriter<'a> {
    pub fn new(out: &'a mut [u8]) -> Self {
        BitWriter {
            out,
            at: 0,
            pending: 0,
            bits: 0,
        }
    }

    /// `value` has no more than `width` bits, and `width` is at most 32.
    pub fn put(&mut self, value: u32, width: usize) {
        self.pending = self.pending << width | value as u64;
        self.bits += width;
        if self.bits >= 32 {
            self.bits -= 32;
            let four = (self.pending >> self.bits) as u32;
            self.out[self.at..self.at + 4].copy_from_slice(&four.to_be_bytes());
            self.at += 4;
        }
    }

    /// Writes what is left, with zeros behind it, into the octets that are left.
    pub fn finish(self) {
        let last = ((self.pending << (32 - self.bits)) as u32).to_be_bytes();
        let rest = &mut self.out[self.at..];
        rest.copy_from_slice(&last[..rest.len()]);
    }
}
