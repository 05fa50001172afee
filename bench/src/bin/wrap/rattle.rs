//! The proved ones: single blocks by the exports of `crates/measure`, the two calls by the library
//! itself.

use crate::{Calls, Refused};

extern "C" {
    fn measure_expand(key: &[u8; 16], w: &mut [u8; 176]);
    fn measure_encrypt(w: &[u8; 176], s: &mut [u8; 16]);
    fn measure_decrypt(w: &[u8; 176], s: &mut [u8; 16]);
    fn shawm_wrap(k: *const u8, kn: usize, p: *const u8, pn: usize, o: *mut u8, on: usize) -> u32;
    fn shawm_unwrap(k: *const u8, kn: usize, c: *const u8, cn: usize, o: *mut u8, on: usize)
        -> u32;
}

pub struct Rattle([u8; 176]);

fn answer(answer: u32) -> Result<usize, Refused> {
    if answer >> 31 == 0 {
        Ok(answer as usize)
    } else {
        Err(Refused)
    }
}

impl Calls for Rattle {
    fn new() -> Option<Self> {
        Some(Rattle([0; 176]))
    }
    fn expand(&mut self, key: &[u8; 16]) {
        unsafe { measure_expand(key, &mut self.0) }
    }
    fn encrypt(&mut self, block: &mut [u8; 16]) {
        unsafe { measure_encrypt(&self.0, block) }
    }
    fn decrypt(&mut self, block: &mut [u8; 16]) {
        unsafe { measure_decrypt(&self.0, block) }
    }
    fn wrap(&mut self, key: &[u8; 16], p: &[u8], out: &mut [u8]) -> Result<usize, Refused> {
        let (o, on) = (out.as_mut_ptr(), out.len());
        answer(unsafe { shawm_wrap(key.as_ptr(), 16, p.as_ptr(), p.len(), o, on) })
    }
    fn unwrap(&mut self, key: &[u8; 16], c: &[u8], out: &mut [u8]) -> Result<usize, Refused> {
        let (o, on) = (out.as_mut_ptr(), out.len());
        answer(unsafe { shawm_unwrap(key.as_ptr(), 16, c.as_ptr(), c.len(), o, on) })
    }
}
