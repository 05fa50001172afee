//! Keys, plaintexts, ciphertexts and outputs longer than 32 bits can say, in memory that is only reserved.

use crate::aes::Aes;
use crate::compare::{Bench, Disagreement};
use crate::keywrap::{closed, laid_out};
use crate::lent::{Edge, Memory};
use crate::library::*;

const VAST: usize = 1 << 32;
const KEY: [u8; 16] = [7; 16];

/// Among the low bits of the lengths are those of a right key, plaintext and ciphertext, and of too little room.
pub fn all(bench: &mut Bench) -> Result<(), Disagreement> {
    let mut memory = Memory::new(VAST + 8192);
    let aes = Aes::new(&KEY);
    for more in [0, 1, 8, 16, 24, 240, 248] {
        let n = VAST + more;
        let at = memory.at(n, Edge::High);
        let plaintext = vec![9; more.max(9) - 8];
        let ciphertext = closed(&aes, &laid_out(&plaintext));
        let lent = unsafe { std::slice::from_raw_parts_mut(at, n) };
        lent[..ciphertext.len()].copy_from_slice(&ciphertext);
        too_long(bench, at, n)?;
        room_for_all(bench, (at, n), &plaintext, &ciphertext)?;
    }
    Ok(())
}

fn too_long(bench: &mut Bench, at: *const u8, n: usize) -> Result<(), Disagreement> {
    let mut room = [0u8; 512];
    let (out, out_n) = (room.as_mut_ptr(), room.len());
    let (key, refused) = (KEY.as_ptr(), 1 << 31);

    let answer = unsafe { shawm_wrap(at, n, key, 16, out, out_n) };
    bench.same(|| format!("shawm_wrap, key of {n} octets"), answer, refused | 34)?;
    let answer = unsafe { shawm_unwrap(at, n, at, 16, out, out_n) };
    bench.same(|| format!("shawm_unwrap, key of {n} octets"), answer, refused | 34)?;
    let answer = unsafe { shawm_wrap(key, 16, at, n, out, out_n) };
    bench.same(|| format!("shawm_wrap of {n} octets"), answer, refused | 33)?;
    let answer = unsafe { shawm_unwrap(key, 16, at, n, out, out_n) };
    bench.same(|| format!("shawm_unwrap of {n} octets"), answer, refused | 22)?;

    bench.same(|| "output of refused calls".to_string(), room.iter().all(|&o| o == 0), true)
}

/// An output of `n` octets has room, whatever the low bits of `n` say.
fn room_for_all(
    bench: &mut Bench,
    (at, n): (*mut u8, usize),
    plaintext: &[u8],
    ciphertext: &[u8],
) -> Result<(), Disagreement> {
    let (c, p) = (ciphertext.len(), plaintext.len());
    let out = unsafe { std::slice::from_raw_parts_mut(at, 256) };

    out.fill(0xEE);
    let answer = unsafe { shawm_wrap(KEY.as_ptr(), 16, plaintext.as_ptr(), p, at, n) };
    bench.same(|| format!("shawm_wrap, room {n}"), answer as usize, c)?;
    bench.same(|| format!("shawm_wrap, room {n}"), (&out[..c], out[c]), (ciphertext, 0xEE))?;

    out.fill(0xEE);
    let answer = unsafe { shawm_unwrap(KEY.as_ptr(), 16, ciphertext.as_ptr(), c, at, n) };
    bench.same(|| format!("shawm_unwrap, room {n}"), answer as usize, p)?;
    bench.same(|| format!("shawm_unwrap, room {n}"), (&out[..p], out[p]), (plaintext, 0xEE))
}
