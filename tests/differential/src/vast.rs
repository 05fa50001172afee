//! Stretches longer than 32 bits can say, in memory that is only reserved: no length may be cut down on its way.

use crate::compare::{Bench, Disagreement};
use crate::lent::{Edge, Memory};
use crate::library::*;
use crate::paper;
use crate::vast_keywrap;

const VAST: usize = 1 << 32;

pub fn all(bench: &mut Bench) -> Result<(), Disagreement> {
    let mut memory = Memory::new(VAST + 8192);
    let id = [7u8; 16];
    for more in [0, 1, 2, 3, 4, 6, 8, 16, 19, 22, 1027] {
        let n = VAST + more;
        let at = memory.at(n, Edge::High);
        let lent = unsafe { std::slice::from_raw_parts_mut(at, n) };

        for front in [&[2, 0, 1, 9][..], &[5, 0, 16], &[5, 0, 17], &[1, 0, 5, 0, 0, 2], &[3, 16, 1], &[6, 0, 0], &[22]]
        {
            lent[..front.len()].copy_from_slice(front);
            bench.sort(at, lent)?;
            bench.read(at, lent, 19)?;
        }
        for end in [&[0, 8, 2][..], &[1, 2, 2], &[1, 3, 2], &[0, 4, 3], &[4, 3, 255], &[4, 4, 255], &[0, 0, 0], &[1]] {
            lent[n - end.len()..].copy_from_slice(end);
            bench.tag(at, lent, 19)?;
        }
        // Pages of none and of one entry, if their lengths were cut.
        for front in [[0; 6], [4, 0, 0, 0, 0, 0]] {
            lent[..front.len()].copy_from_slice(&front);
            bench.page(at, lent, 0)?;
        }
        too_long(bench, at, lent, &id)?;
        key_too_long(bench, lent, &id)?;
        room_for_all(bench, at, n, &id)?;
    }
    vast_keywrap::all(bench)
}

/// A field of `n` octets where a field with the low bits of `n` would be accepted.
fn too_long(bench: &mut Bench, at: *const u8, lent: &[u8], id: &[u8; 16]) -> Result<(), Disagreement> {
    let n = lent.len();
    let mut room = [0u8; 5000];
    let (out, out_n) = (room.as_mut_ptr(), room.len());
    let key = id.as_ptr();
    let answer = unsafe { shawm_write_supported_profiles(0, at, n, out, out_n) };
    let expected = refused(paper::write_supported_profiles(0, lent, out_n));
    bench.same(|| format!("shawm_write_supported_profiles of {n} octets"), answer, expected)?;

    let answer = unsafe { shawm_write_tunneled_dtls(key, 16, at, n, out, out_n) };
    let expected = refused(paper::write_tunneled_dtls(id, lent, out_n));
    bench.same(|| format!("shawm_write_tunneled_dtls of {n} octets"), answer, expected)?;

    let answer = unsafe { shawm_write_endpoint_disconnect(at, n, out, out_n) };
    let expected = refused(paper::write_endpoint_disconnect(lent, out_n));
    bench.same(|| format!("shawm_write_endpoint_disconnect of {n} octets"), answer, expected)?;

    bench.same(|| "output of refused calls".to_string(), room.iter().all(|&o| o == 0), true)
}

fn refused(written: paper::Written) -> u32 {
    1 << 31 | written.0.unwrap_err() as u32
}

/// Each field of MediaKeys in its turn, the others of one octet.
fn key_too_long(bench: &mut Bench, lent: &[u8], id: &[u8; 16]) -> Result<(), Disagreement> {
    let n = lent.len();
    let mut room = [0u8; 5000];
    let (out, out_n) = (room.as_mut_ptr(), room.len());
    let (one, key) = ([1u8], id.as_ptr());

    for long in 0..5 {
        let f: [&[u8]; 5] = std::array::from_fn(|i| if i == long { lent } else { &one });
        let answer = unsafe {
            shawm_write_media_keys(
                key,
                16,
                9,
                f[0].as_ptr(),
                f[0].len(),
                f[1].as_ptr(),
                f[1].len(),
                f[2].as_ptr(),
                f[2].len(),
                f[3].as_ptr(),
                f[3].len(),
                f[4].as_ptr(),
                f[4].len(),
                out,
                out_n,
            )
        };
        let expected = refused(paper::write_media_keys(id, 9, f, out_n));
        bench.same(|| format!("shawm_write_media_keys, field {long} of {n} octets"), answer, expected)?;
    }
    bench.same(|| "output of refused calls".to_string(), room.iter().all(|&o| o == 0), true)
}

/// An output of `n` octets has room, whatever the low bits of `n` say.
fn room_for_all(bench: &mut Bench, at: *mut u8, n: usize, id: &[u8; 16]) -> Result<(), Disagreement> {
    let key = id.as_ptr();
    let out = unsafe { std::slice::from_raw_parts_mut(at, 64) };

    out.fill(0xEE);
    bench.same(|| format!("version, room {n}"), unsafe { shawm_write_unsupported_version(3, at, n) }, 4)?;
    bench.same(|| format!("version, room {n}"), &out[..5], &[2, 0, 1, 3, 0xEE])?;

    out.fill(0xEE);
    let answer = unsafe { shawm_write_endpoint_disconnect(key, 16, at, n) };
    bench.same(|| format!("disconnect, room {n}"), answer, 19)?;
    bench.same(|| format!("disconnect, room {n}"), (&out[..3], out[18], out[19]), (&[5, 0, 16], 7, 0xEE))?;

    out.fill(0xEE);
    let answer = unsafe { shawm_write_tunneled_dtls(key, 16, key, 16, at, n) };
    bench.same(|| format!("DTLS, room {n}"), answer, 37)?;
    bench.same(|| format!("DTLS, room {n}"), (&out[..3], out[36], out[37]), (&[4, 0, 34], 7, 0xEE))?;

    out.fill(0xEE);
    let answer = unsafe { shawm_write_supported_profiles(0, key, 16, at, n) };
    bench.same(|| format!("profiles, room {n}"), answer, 22)?;
    bench.same(|| format!("profiles, room {n}"), (&out[..6], out[22]), (&[1, 0, 19, 0, 0, 16], 0xEE))
}
