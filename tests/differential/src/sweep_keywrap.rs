//! The key wrap without chance: every length of key, plaintext and ciphertext around its limits, every octet damaged,
//! and every way in which registers can be none that a plaintext gives.

use crate::aes::Aes;
use crate::case::Case;
use crate::compare::Bench;
use crate::keywrap::{closed, laid_out, wrap_registers, KEY, PLAINTEXT_LIMIT};
use crate::make_keywrap::put_length;
use crate::random::Random;
use crate::sweep::{run, Swept};

pub fn all(bench: &mut Bench) -> Swept {
    key_lengths(bench)?;
    plaintext_lengths(bench)?;
    ciphertext_lengths(bench)?;
    damage(bench)?;
    marks(bench)?;
    message_lengths(bench)?;
    padding(bench)?;
    beyond_the_limit(bench)?;
    by_another_rule(bench)
}

/// Octets that are the same in every run.
fn octets(n: usize) -> Vec<u8> {
    Random::new(n as u64).octets(n)
}

fn key() -> Vec<u8> {
    octets(KEY)
}

fn aes() -> Aes {
    Aes::new(&key())
}

fn wrapped(plaintext: &[u8]) -> Vec<u8> {
    closed(&aes(), &laid_out(plaintext))
}

fn unwrap(bench: &mut Bench, ciphertext: Vec<u8>, room: usize) -> Swept {
    run(bench, Case::Unwrap { key: key(), ciphertext, room })
}

/// Every length of key around the right one, with octets that are accepted or not and with room or without: each two
/// refusals meet.
fn key_lengths(bench: &mut Bench) -> Swept {
    for n in 0..=40 {
        let mut key = key();
        key.resize(n, 0x5A);
        for length in [0, 1, 8, 9, 240, 241] {
            let (plaintext, need) = (octets(length), length.div_ceil(8) * 8 + 8);
            for room in [0, need - 1, need] {
                run(bench, Case::Wrap { key: key.clone(), plaintext: plaintext.clone(), room })?;
            }
            let ciphertext = wrapped(&plaintext);
            for room in [0, length.saturating_sub(1), length] {
                run(bench, Case::Unwrap { key: key.clone(), ciphertext: ciphertext.clone(), room })?;
                run(bench, Case::Unwrap { key: key.clone(), ciphertext: octets(need), room })?;
            }
        }
    }
    Ok(())
}

/// Every length of plaintext to behind the limit, wrapped and, up to the limit, unwrapped, with a room that is too
/// small, just large enough, that of the registers, and larger.
fn plaintext_lengths(bench: &mut Bench) -> Swept {
    for n in 0..=300 {
        let plaintext = octets(n);
        let need = n.div_ceil(8) * 8 + 8;
        for room in [0, n, need - 1, need, need + 1] {
            run(bench, Case::Wrap { key: key(), plaintext: plaintext.clone(), room })?;
        }
        if (1..=PLAINTEXT_LIMIT).contains(&n) {
            for room in [n - 1, n, need - 8, need + 8] {
                unwrap(bench, wrapped(&plaintext), room)?;
            }
        }
    }
    Ok(())
}

/// Octets of every length that are no ciphertext, that begin with one, and that one begins with.
fn ciphertext_lengths(bench: &mut Bench) -> Swept {
    for n in 0..=300usize {
        unwrap(bench, octets(n), 300)?;
        unwrap(bench, octets(n), 0)?;
        for ends in [n / 8 * 8, n.div_ceil(8) * 8] {
            let mut ciphertext = wrapped(&octets(ends.max(9) - 8));
            ciphertext.resize(n, 0);
            unwrap(bench, ciphertext, 300)?;
        }
    }
    Ok(())
}

/// Each octet of a ciphertext of every number of registers; of the two shortest, each bit.
fn damage(bench: &mut Bench) -> Swept {
    for registers in 1..=30 {
        let ciphertext = wrapped(&octets(8 * registers - registers % 8));
        for at in 0..ciphertext.len() {
            for bit in if registers <= 2 { 0..8 } else { at % 8..at % 8 + 1 } {
                let mut ciphertext = ciphertext.clone();
                ciphertext[at] ^= 1 << bit;
                unwrap(bench, ciphertext, 256)?;
            }
        }
    }
    Ok(())
}

/// Each bit of the mark, that of RFC 3394, and marks that share octets with the right one.
fn marks(bench: &mut Bench) -> Swept {
    for registers in 1..=30 {
        let text = laid_out(&octets(8 * registers - 3));
        for bit in 0..32 {
            let mut text = text.clone();
            text[bit / 8] ^= 0x80 >> (bit % 8);
            unwrap(bench, closed(&aes(), &text), 256)?;
        }
        for mark in [[0xA6; 4], [0x59; 4], [0x59, 0xA6, 0xA6, 0x59], [0xA6, 0x59, 0xA6, 0x59], [0; 4]] {
            let mut text = text.clone();
            text[..4].copy_from_slice(&mark);
            unwrap(bench, closed(&aes(), &text), 256)?;
        }
        let rfc_3394 = [&[0xA6; 8][..], &text[8..]].concat();
        unwrap(bench, closed(&aes(), &rfc_3394), 256)?;
    }
    Ok(())
}

/// Message lengths around both ends of those that so many registers can have, and with higher octets set; in front of
/// zeros, so that no padding is wrong, and of ones.
fn message_lengths(bench: &mut Bench) -> Swept {
    for registers in 1..=30 {
        let most = 8 * registers;
        let near = [0, 1, most - 8, most - 7, most - 6, most - 1, most, most + 1, most + 8, 240, 248, 255];
        let high = [8, 16, 24, 31].map(|bit| most + (1 << bit));
        for length in near.into_iter().chain(high).chain([0xFFFF_FFFF]) {
            for fill in [0, 1] {
                let mut text = laid_out(&vec![fill; most]);
                put_length(&mut text, length);
                unwrap(bench, closed(&aes(), &text), 256)?;
            }
        }
    }
    Ok(())
}

/// Each octet of the padding, of every length of it, with its highest and its lowest bit.
fn padding(bench: &mut Bench) -> Swept {
    for registers in 1..=30 {
        for padding in 1..=7 {
            let text = laid_out(&octets(8 * registers - padding));
            for at in text.len() - padding..text.len() {
                for octet in [1, 0x80] {
                    let mut text = text.clone();
                    text[at] = octet;
                    unwrap(bench, closed(&aes(), &text), 256)?;
                }
            }
        }
    }
    Ok(())
}

/// What would be right but for the limit, and with the length of the longest that is right.
fn beyond_the_limit(bench: &mut Bench) -> Swept {
    for n in PLAINTEXT_LIMIT + 1..=300 {
        let mut text = laid_out(&octets(n));
        unwrap(bench, closed(&aes(), &text), 512)?;
        put_length(&mut text, PLAINTEXT_LIMIT);
        text[8 + PLAINTEXT_LIMIT..].fill(0);
        unwrap(bench, closed(&aes(), &text), 512)?;
    }
    Ok(())
}

/// One register behind the first wrapped as more are, and two and three by single blocks.
fn by_another_rule(bench: &mut Bench) -> Swept {
    let block = |text: &[u8]| aes().encrypt(text.try_into().unwrap());
    for n in 1..=24 {
        let text = laid_out(&octets(n));
        match n {
            1..=8 => unwrap(bench, wrap_registers(&aes(), &text), 256)?,
            9..=16 => {
                unwrap(bench, [&block(&text[..16])[..], &text[16..]].concat(), 256)?;
                unwrap(bench, [&text[..8], &block(&text[8..])].concat(), 256)?;
            }
            _ => unwrap(bench, [block(&text[..16]), block(&text[16..])].concat(), 256)?,
        }
    }
    Ok(())
}
