//! Random blocks, plaintexts and ciphertexts, given to all three: every octet must be the same.

use crate::openssl::OpenSsl;
use crate::plain::Rust;
use crate::rattle::Rattle;
use crate::{Calls, Refused};

const BLOCKS: usize = 10_000;
const WRAPPED: usize = 4_800;

struct Random(u64);

impl Random {
    fn next(&mut self) -> u64 {
        self.0 = self.0.wrapping_add(0x9E37_79B9_7F4A_7C15);
        let mut z = self.0;
        z = (z ^ (z >> 30)).wrapping_mul(0xBF58_476D_1CE4_E5B9);
        z = (z ^ (z >> 27)).wrapping_mul(0x94D0_49BB_1331_11EB);
        z ^ (z >> 31)
    }
    fn octets<const N: usize>(&mut self) -> [u8; N] {
        std::array::from_fn(|_| self.next() as u8)
    }
}

fn blocks<T: Calls>(t: &mut T, key: &[u8; 16], block: &[u8; 16]) -> [[u8; 16]; 2] {
    let (mut encrypted, mut decrypted) = (*block, *block);
    t.prepare(key);
    t.encrypt(&mut encrypted);
    t.decrypt(&mut decrypted);
    [encrypted, decrypted]
}

/// Wrapped, unwrapped again, and with a bit changed.
fn wrapped<T: Calls>(t: &mut T, key: &[u8; 16], plaintext: &[u8], bit: usize) -> Vec<u8> {
    let (mut out, mut back) = ([0; 300], [0; 300]);
    let n = t.wrap(key, plaintext, &mut out).unwrap();
    assert_eq!(t.unwrap(key, &out[..n], &mut back), Ok(plaintext.len()));
    assert_eq!(back[..plaintext.len()], *plaintext);
    let ciphertext = out[..n].to_vec();
    out[bit / 8 % n] ^= 1 << (bit % 8);
    assert_eq!(t.unwrap(key, &out[..n], &mut back), Err(Refused));
    ciphertext
}

/// Compares one with the proved one; false where it is not on this machine.
fn compared<T: Calls>() -> bool {
    let (mut a, mut r) = (Rattle::new().unwrap(), Random(5649));
    let Some(mut b) = T::new() else {
        return false;
    };
    for _ in 0..BLOCKS {
        let (key, block) = (r.octets(), r.octets());
        assert_eq!(blocks(&mut a, &key, &block), blocks(&mut b, &key, &block));
    }
    for i in 0..WRAPPED {
        let (key, plaintext, bit) = (
            r.octets(),
            &r.octets::<240>()[..1 + i % 240],
            r.next() as usize,
        );
        let octets = wrapped(&mut a, &key, plaintext, bit);
        assert_eq!(octets, wrapped(&mut b, &key, plaintext, bit));
    }
    true
}

pub fn run() {
    assert!(compared::<Rust>());
    let openssl = if compared::<OpenSsl>() {
        "OpenSSL and"
    } else {
        "no OpenSSL here;"
    };
    println!("{openssl} Rust gave the same octets as Rattle: {BLOCKS} blocks both ways, {WRAPPED}");
    println!("plaintexts; as many ciphertexts with a bit changed were refused by all.\n");
}
