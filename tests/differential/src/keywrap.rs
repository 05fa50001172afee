//! AES Key Wrap with Padding, written from RFC 3394 and RFC 5649, and the refusals of document 02, order 4.

use crate::aes::Aes;
use crate::paper::{Why, Written};

/// AES-128.
pub const KEY: usize = 16;
/// "plaintext of 1 to 240 octets"
pub const PLAINTEXT_LIMIT: usize = 240;
/// RFC 5649, section 3: the first half of the Alternative Initial Value.
pub const MARK: [u8; 4] = [0xA6, 0x59, 0x59, 0xA6];

/// RFC 3394, section 2.2.1, the form with an index, of A and the registers behind it.
pub fn wrap_registers(aes: &Aes, text: &[u8]) -> Vec<u8> {
    let n = text.len() / 8 - 1;
    let mut text = text.to_vec();
    for j in 0..=5 {
        for i in 1..=n {
            let b = aes.encrypt(joined(&text, i));
            put(&mut text, i, b, n * j + i);
        }
    }
    text
}

/// Section 2.2.2.
pub fn unwrap_registers(aes: &Aes, text: &[u8]) -> Vec<u8> {
    let n = text.len() / 8 - 1;
    let mut text = text.to_vec();
    for j in (0..=5).rev() {
        for i in (1..=n).rev() {
            let mut block = joined(&text, i);
            add_count(&mut block, n * j + i);
            put(&mut text, i, aes.decrypt(block), 0);
        }
    }
    text
}

/// A | R[i]
fn joined(text: &[u8], i: usize) -> [u8; 16] {
    [&text[..8], &text[8 * i..8 * i + 8]].concat().try_into().unwrap()
}

/// A ^ t, A being the first eight octets.
fn add_count(block: &mut [u8; 16], t: usize) {
    for (octet, of_t) in block.iter_mut().zip((t as u64).to_be_bytes()) {
        *octet ^= of_t;
    }
}

/// A = MSB(64, B) ^ t, R[i] = LSB(64, B)
fn put(text: &mut [u8], i: usize, mut b: [u8; 16], t: usize) {
    add_count(&mut b, t);
    text[..8].copy_from_slice(&b[..8]);
    text[8 * i..8 * i + 8].copy_from_slice(&b[8..]);
}

/// The Alternative Initial Value, the plaintext, and zeros up to eight octets (RFC 5649, sections 3 and 4.1).
pub fn laid_out(plaintext: &[u8]) -> Vec<u8> {
    let mut text = MARK.to_vec();
    text.extend((plaintext.len() as u32).to_be_bytes());
    text.extend(plaintext);
    text.resize(text.len().div_ceil(8) * 8, 0);
    text
}

/// RFC 5649, section 4.1, step 2: two registers are one block, more are wrapped by RFC 3394.
pub fn closed(aes: &Aes, text: &[u8]) -> Vec<u8> {
    match text.try_into() {
        Ok(block) => aes.encrypt(block).to_vec(),
        Err(_) => wrap_registers(aes, text),
    }
}

/// Section 4.2, step 1.
fn opened(aes: &Aes, ciphertext: &[u8]) -> Vec<u8> {
    match ciphertext.try_into() {
        Ok(block) => aes.decrypt(block).to_vec(),
        Err(_) => unwrap_registers(aes, ciphertext),
    }
}

/// "Wrapping refuses in order 34, 33, 13"
pub fn wrap(key: &[u8], plaintext: &[u8], room: usize) -> Written {
    if key.len() != KEY {
        return (Err(34), Why::WrapKeyLength);
    }
    if plaintext.is_empty() {
        return (Err(33), Why::WrapEmpty);
    }
    if plaintext.len() > PLAINTEXT_LIMIT {
        return (Err(33), Why::WrapLong);
    }
    let ciphertext = closed(&Aes::new(key), &laid_out(plaintext));
    if ciphertext.len() > room {
        return (Err(13), Why::WrapNoRoom);
    }
    let why = if ciphertext.len() == 16 { Why::WrapOneBlock } else { Why::WrapRegisters };
    (Ok(ciphertext), why)
}

/// "unwrapping 34, 22, 13"
pub fn unwrap(key: &[u8], ciphertext: &[u8], room: usize) -> Written {
    if key.len() != KEY {
        return (Err(34), Why::UnwrapKeyLength);
    }
    let aes = Aes::new(key);
    let plaintext = match plaintext_of(&aes, ciphertext) {
        Ok(plaintext) => plaintext,
        Err(why) => return (Err(22), why),
    };
    // "accepted exactly if some plaintext of 1 to 240 octets wraps to it"
    assert!((1..=PLAINTEXT_LIMIT).contains(&plaintext.len()));
    assert_eq!(closed(&aes, &laid_out(&plaintext)), ciphertext);
    if plaintext.len() > room {
        return (Err(13), Why::UnwrapNoRoom);
    }
    let why = if ciphertext.len() == 16 { Why::UnwrapOneBlock } else { Why::UnwrapRegisters };
    (Ok(plaintext), why)
}

/// RFC 5649, section 4.2; the three checks are those of section 3.
fn plaintext_of(aes: &Aes, ciphertext: &[u8]) -> Result<Vec<u8>, Why> {
    if ciphertext.len() < 16 {
        return Err(Why::UnwrapShort);
    }
    // 240 octets fill thirty registers.
    if ciphertext.len() > 8 + PLAINTEXT_LIMIT {
        return Err(Why::UnwrapLong);
    }
    if ciphertext.len() % 8 != 0 {
        return Err(Why::UnwrapNotRegisters);
    }
    let text = opened(aes, ciphertext);
    let (head, registers) = text.split_at(8);
    if head[..4] != MARK {
        return Err(Why::UnwrapMark);
    }
    let length = u32::from_be_bytes(head[4..].try_into().unwrap()) as usize;
    if length <= registers.len() - 8 {
        return Err(Why::UnwrapLengthLow);
    }
    if length > registers.len() {
        return Err(Why::UnwrapLengthHigh);
    }
    let (plaintext, padding) = registers.split_at(length);
    if padding.iter().any(|&octet| octet != 0) {
        return Err(Why::UnwrapPadding);
    }
    Ok(plaintext.to_vec())
}
