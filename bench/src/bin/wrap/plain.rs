//! The ordinary Rust ones behind the signatures that are measured; none is inlined into the loops
//! that do so.

use crate::aes::{self, Schedule};
use crate::keywrap;
use crate::{Calls, Refused};

pub struct Rust(Schedule);

impl Calls for Rust {
    fn new() -> Option<Self> {
        Some(Rust([[0; 16]; aes::ROUNDS + 1]))
    }
    #[inline(never)]
    fn expand(&mut self, key: &[u8; 16]) {
        self.0 = aes::expand(key);
    }
    #[inline(never)]
    fn encrypt(&mut self, block: &mut [u8; 16]) {
        aes::encrypt(&self.0, block);
    }
    #[inline(never)]
    fn decrypt(&mut self, block: &mut [u8; 16]) {
        aes::decrypt(&self.0, block);
    }
    #[inline(never)]
    fn wrap(&mut self, key: &[u8; 16], p: &[u8], out: &mut [u8]) -> Result<usize, Refused> {
        keywrap::wrap(key, p, out).map_err(|_| Refused)
    }
    #[inline(never)]
    fn unwrap(&mut self, key: &[u8; 16], c: &[u8], out: &mut [u8]) -> Result<usize, Refused> {
        keywrap::unwrap(key, c, out).map_err(|_| Refused)
    }
}
