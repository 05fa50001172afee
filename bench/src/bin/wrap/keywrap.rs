//! The AES key wrap with padding (RFC 5649) as one would write it, over `aes`. No heap, no unsafe
//! code.

use crate::aes::{decrypt, encrypt, expand, Block, Schedule};

const MARK: [u8; 4] = [0xa6, 0x59, 0x59, 0xa6];
const LIMIT: usize = 240;

/// A refusal by its number.
#[derive(Debug, PartialEq, Eq)]
pub struct Refusal(pub u8);

/// A and register i as one block, by the cipher or its inverse, and back.
fn through(x: &mut [u8], i: usize, f: impl FnOnce(&mut Block)) {
    let mut block = [0; 16];
    block[..8].copy_from_slice(&x[..8]);
    block[8..].copy_from_slice(&x[8 * i..8 * i + 8]);
    f(&mut block);
    x[..8].copy_from_slice(&block[..8]);
    x[8 * i..8 * i + 8].copy_from_slice(&block[8..]);
}

fn wrap_registers(w: &Schedule, x: &mut [u8]) {
    let n = x.len() / 8 - 1;
    if n == 1 {
        return through(x, 1, |block| encrypt(w, block));
    }
    for t in 1..=6 * n {
        through(x, (t - 1) % n + 1, |block| {
            encrypt(w, block);
            block[7] ^= t as u8;
        });
    }
}

fn unwrap_registers(w: &Schedule, x: &mut [u8]) {
    let n = x.len() / 8 - 1;
    if n == 1 {
        return through(x, 1, |block| decrypt(w, block));
    }
    for t in (1..=6 * n).rev() {
        through(x, (t - 1) % n + 1, |block| {
            block[7] ^= t as u8;
            decrypt(w, block);
        });
    }
}

pub fn wrap(key: &[u8], plaintext: &[u8], out: &mut [u8]) -> Result<usize, Refusal> {
    let key = key.try_into().map_err(|_| Refusal(34))?;
    if plaintext.is_empty() || plaintext.len() > LIMIT {
        return Err(Refusal(33));
    }
    let count = 8 + plaintext.len().next_multiple_of(8);
    let x = out.get_mut(..count).ok_or(Refusal(13))?;
    x[..4].copy_from_slice(&MARK);
    x[4..8].copy_from_slice(&(plaintext.len() as u32).to_be_bytes());
    x[8..8 + plaintext.len()].copy_from_slice(plaintext);
    x[8 + plaintext.len()..].fill(0);
    wrap_registers(&expand(key), x);
    Ok(count)
}

/// The length of the plaintext in the registers, where all is well with them.
fn length(x: &[u8]) -> Option<usize> {
    let (n, padded) = (
        u32::from_be_bytes(x[4..8].try_into().ok()?) as usize,
        &x[8..],
    );
    let fits = n <= padded.len() && n + 8 > padded.len();
    (x[..4] == MARK && fits && padded[n..].iter().all(|&octet| octet == 0)).then_some(n)
}

pub fn unwrap(key: &[u8], ciphertext: &[u8], out: &mut [u8]) -> Result<usize, Refusal> {
    let key = key.try_into().map_err(|_| Refusal(34))?;
    if ciphertext.len() % 8 != 0 || !(16..=8 + LIMIT).contains(&ciphertext.len()) {
        return Err(Refusal(22));
    }
    let mut registers = [0; 8 + LIMIT];
    let x = &mut registers[..ciphertext.len()];
    x.copy_from_slice(ciphertext);
    unwrap_registers(&expand(key), x);
    let n = length(x).ok_or(Refusal(22))?;
    out.get_mut(..n)
        .ok_or(Refusal(13))?
        .copy_from_slice(&x[8..8 + n]);
    Ok(n)
}
