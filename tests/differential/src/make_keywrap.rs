//! Makes keys and octets to be wrapped and unwrapped: at the limits, damaged, and with registers that no damage leads
//! to, which are closed by the rules in keywrap.rs.

use crate::aes::Aes;
use crate::case::Case;
use crate::keywrap::{closed, laid_out, wrap_registers, KEY, PLAINTEXT_LIMIT};
use crate::make::room;
use crate::random::Random;

pub fn case(random: &mut Random) -> Case {
    if random.once_in(2) {
        return wrap(random);
    }
    unwrap(random)
}

fn wrap(random: &mut Random) -> Case {
    let key = random.octets(KEY);
    let n = match random.below(12) {
        0 => 0,
        1 => random.pick(&[241, 242, 247, 248, 249, 256, 300, 496, 4336, 65_535, 65_537]),
        _ => plaintext_length(random),
    };
    let plaintext = random.octets(n);
    Case::Wrap { key: lent_key(random, key), plaintext, room: room(random, n.div_ceil(8) * 8 + 8) }
}

fn unwrap(random: &mut Random) -> Case {
    let key = random.octets(KEY);
    let aes = Aes::new(&key);
    let n = plaintext_length(random);
    let plaintext = random.octets(n);
    let ciphertext = match random.below(10) {
        0..=1 => noise(random),
        2..=4 => closed(&aes, &laid_out(&plaintext)),
        5 => {
            let mut ciphertext = closed(&aes, &laid_out(&plaintext));
            damage(random, &mut ciphertext);
            ciphertext
        }
        6 => by_another_rule(random, &aes, laid_out(&plaintext)),
        _ => {
            let text = misshapen(random, &plaintext);
            closed(&aes, &text)
        }
    };
    Case::Unwrap { key: lent_key(random, key), ciphertext, room: room(random, n) }
}

/// Short ones mostly, because the time of a case goes by the length.
fn plaintext_length(random: &mut Random) -> usize {
    match random.below(8) {
        0 => random.pick(&[1, 7, 8, 9, 15, 16, 17, 232, 233, 239, 240]),
        1 => random.within(1, PLAINTEXT_LIMIT),
        2..=4 => random.within(1, 8),
        _ => random.within(9, 40),
    }
}

/// The key, or one of another length that begins as the key does.
fn lent_key(random: &mut Random, mut key: Vec<u8>) -> Vec<u8> {
    if random.once_in(8) {
        let n = random.pick(&[0, 1, 8, 15, 15, 17, 17, 24, 32, 40, 272, 65_552]);
        key.truncate(n);
        key.extend(random.octets(n - key.len()));
    }
    key
}

fn noise(random: &mut Random) -> Vec<u8> {
    let n = match random.below(4) {
        0 => random.below(17),
        1 => random.within(241, 300),
        2 => 8 * random.below(40),
        _ => random.below(300),
    };
    random.octets(n)
}

/// One thing that goes wrong with a ciphertext.
fn damage(random: &mut Random, ciphertext: &mut Vec<u8>) {
    let n = ciphertext.len();
    let at = random.below(n);
    match random.below(8) {
        0 => drop(ciphertext.remove(at)),
        1 => ciphertext.insert(at, random.octet()),
        2 => ciphertext.truncate(n - 8),
        3 => ciphertext.extend([0; 8]),
        4 => ciphertext.rotate_left(8),
        5 => ciphertext[at] = random.octet(),
        _ => ciphertext[at] ^= 1 << random.below(8),
    }
}

/// What would be laid out for the plaintext, with one thing that RFC 5649, section 3, tells a reader to look at.
fn misshapen(random: &mut Random, plaintext: &[u8]) -> Vec<u8> {
    let mut text = laid_out(plaintext);
    let (n, registers) = (plaintext.len(), text.len() - 8);
    match random.below(9) {
        0 => text[random.below(4)] ^= 1 << random.below(8),
        1 => text[..8].copy_from_slice(&[0xA6; 8]),
        2..=3 => {
            // A length of fewer registers, with zeros behind it.
            let any = random.below(registers - 7);
            let low = random.pick(&[0, registers - 8, any]);
            text[8 + low..].fill(0);
            put_length(&mut text, low);
        }
        4 => put_length(&mut text, registers + random.pick(&[1, 2, 7, 8])),
        5 => {
            let high = [8, 16, 24, 31].map(|bit| n + (1 << bit));
            put_length(&mut text, random.pick(&[high[0], high[1], high[2], high[3], 0xFFFF_FFFF]));
        }
        6..=7 => {
            // Seven octets at most are padding; the last register keeps one.
            let padding = random.within(1, 7);
            let at = text.len() - random.within(1, padding);
            put_length(&mut text, registers - padding);
            let behind = text.len() - padding;
            text[behind..].fill(0);
            text[at] = 1 << random.below(8);
        }
        _ => return laid_out(&random.octets(PLAINTEXT_LIMIT + 1 + n % 8)),
    }
    text
}

pub fn put_length(text: &mut [u8], length: usize) {
    text[4..8].copy_from_slice(&(length as u32).to_be_bytes());
}

/// Two registers by the rule of more, or more by that of two.
fn by_another_rule(random: &mut Random, aes: &Aes, mut text: Vec<u8>) -> Vec<u8> {
    if text.len() == 16 {
        return wrap_registers(aes, &text);
    }
    let at = 8 * random.below(text.len() / 8 - 1);
    let block = aes.encrypt(text[at..at + 16].try_into().unwrap());
    text[at..at + 16].copy_from_slice(&block);
    text
}
