//! The eight calls of the tables behind one signature each, so that all are called alike and none
//! is inlined into the loops that measure it. `crates/measure` says what the numbers mean.

use crate::table::{Lookup, Received, Refusal, Table};

/// The length of the distributor's block; `measure_block` tells whether it still is.
pub const BLOCK: usize = 5672;
pub const RECORD: usize = 168;

const REFUSED: u64 = 1 << 32;

pub trait Calls: Clone {
    fn first() -> Self;
    fn start(&mut self, list: &[u8], out: &mut [u8]) -> u64;
    fn open(&mut self, identifier: &[u8], endpoint: u32) -> u64;
    fn booth_packet(&self, endpoint: u32, packet: &[u8], out: &mut [u8]) -> u64;
    fn tunnel_octets(&mut self, s: &[u8], more: &mut [u64; 3]) -> u64;
    fn close(&mut self, identifier: &[u8], out: &mut [u8]) -> u64;
    fn end(&mut self) -> u64;
    fn look(&self, endpoint: u32, out: &mut [u8; RECORD]) -> u64;
    fn write_page(&self, out: &mut [u8]) -> u64;
}

extern "C" {
    pub fn measure_start(
        s: &mut [u8; BLOCK],
        l: *const u8,
        ln: usize,
        o: *mut u8,
        on: usize,
    ) -> u64;
    pub fn measure_open(s: &mut [u8; BLOCK], i: *const u8, il: usize, endpoint: u32) -> u64;
    pub fn measure_packet(
        s: &[u8; BLOCK],
        endpoint: u32,
        p: *const u8,
        pn: usize,
        o: *mut u8,
        on: usize,
    ) -> u64;
    pub fn measure_octets(s: &mut [u8; BLOCK], t: *const u8, tn: usize, more: &mut [u64; 3])
        -> u64;
    pub fn measure_close(
        s: &mut [u8; BLOCK],
        i: *const u8,
        il: usize,
        o: *mut u8,
        on: usize,
    ) -> u64;
    pub fn measure_end(s: &mut [u8; BLOCK]) -> u64;
    pub fn measure_block() -> u64;
    pub fn measure_look(s: &[u8; BLOCK], endpoint: u32, out: &mut [u8; RECORD]) -> u64;
    pub fn measure_page(s: &[u8; BLOCK], o: *mut u8, on: usize) -> u64;
}

/// The block of the proved distributor; the first state is a block of zeros.
#[derive(Clone)]
#[repr(align(64))]
pub struct Rattle(pub [u8; BLOCK]);

impl Calls for Rattle {
    fn first() -> Self {
        Rattle([0; BLOCK])
    }
    fn start(&mut self, list: &[u8], out: &mut [u8]) -> u64 {
        unsafe {
            measure_start(
                &mut self.0,
                list.as_ptr(),
                list.len(),
                out.as_mut_ptr(),
                out.len(),
            )
        }
    }
    fn open(&mut self, identifier: &[u8], endpoint: u32) -> u64 {
        unsafe { measure_open(&mut self.0, identifier.as_ptr(), identifier.len(), endpoint) }
    }
    fn booth_packet(&self, endpoint: u32, packet: &[u8], out: &mut [u8]) -> u64 {
        let (o, on) = (out.as_mut_ptr(), out.len());
        unsafe { measure_packet(&self.0, endpoint, packet.as_ptr(), packet.len(), o, on) }
    }
    fn tunnel_octets(&mut self, s: &[u8], more: &mut [u64; 3]) -> u64 {
        unsafe { measure_octets(&mut self.0, s.as_ptr(), s.len(), more) }
    }
    fn close(&mut self, identifier: &[u8], out: &mut [u8]) -> u64 {
        let (o, on) = (out.as_mut_ptr(), out.len());
        unsafe { measure_close(&mut self.0, identifier.as_ptr(), identifier.len(), o, on) }
    }
    fn end(&mut self) -> u64 {
        unsafe { measure_end(&mut self.0) }
    }
    fn look(&self, endpoint: u32, out: &mut [u8; RECORD]) -> u64 {
        unsafe { measure_look(&self.0, endpoint, out) }
    }
    fn write_page(&self, out: &mut [u8]) -> u64 {
        unsafe { measure_page(&self.0, out.as_mut_ptr(), out.len()) }
    }
}

/// An ordinary table.
#[derive(Clone)]
#[repr(align(64))]
pub struct Rust<L>(pub Table<L>);

fn number(answer: Result<usize, Refusal>) -> u64 {
    match answer {
        Ok(n) => n as u64,
        Err(Refusal(n)) => REFUSED + n as u64,
    }
}

impl<L: Lookup> Calls for Rust<L> {
    fn first() -> Self {
        Rust(Table::DOWN)
    }
    #[inline(never)]
    fn start(&mut self, list: &[u8], out: &mut [u8]) -> u64 {
        number(self.0.start(list, out))
    }
    #[inline(never)]
    fn open(&mut self, identifier: &[u8], endpoint: u32) -> u64 {
        number(self.0.open(identifier, endpoint))
    }
    #[inline(never)]
    fn booth_packet(&self, endpoint: u32, packet: &[u8], out: &mut [u8]) -> u64 {
        number(self.0.booth_packet(endpoint, packet, out))
    }
    #[inline(never)]
    fn tunnel_octets(&mut self, s: &[u8], more: &mut [u64; 3]) -> u64 {
        match self.0.tunnel_octets(s) {
            Received::Refused { number, taken } => {
                more[0] = taken as u64;
                REFUSED + number as u64
            }
            Received::MoreNeeded => 0,
            Received::KeysStored { endpoint, taken } => {
                more[0] = 0;
                more[1] = endpoint as u64;
                taken as u64
            }
            Received::Delivery {
                endpoint,
                start,
                end,
                taken,
            } => {
                *more = [65536 + endpoint as u64, start as u64, end as u64];
                taken as u64
            }
            Received::Disconnected { endpoint, taken } => {
                more[0] = 1;
                more[1] = endpoint as u64;
                taken as u64
            }
            Received::Version { version, taken } => {
                more[0] = 2 + version as u64;
                taken as u64
            }
        }
    }
    #[inline(never)]
    fn close(&mut self, identifier: &[u8], out: &mut [u8]) -> u64 {
        number(self.0.close(identifier, out))
    }
    #[inline(never)]
    fn end(&mut self) -> u64 {
        number(self.0.end().map(|()| 0))
    }
    #[inline(never)]
    fn look(&self, endpoint: u32, out: &mut [u8; RECORD]) -> u64 {
        match self.0.look(endpoint) {
            Err(Refusal(n)) => REFUSED + n as u64,
            Ok(record) => {
                let keys = &record.keys;
                out[0] = record.is_keyed() as u8;
                out[1..17].copy_from_slice(&record.identifier);
                out[17..19].copy_from_slice(&keys.profile.to_be_bytes());
                out[19] = keys.mki.length;
                out[20..36].copy_from_slice(&keys.mki.octets);
                out[36] = keys.client_key.length;
                out[37..69].copy_from_slice(&keys.client_key.octets);
                out[69] = keys.server_key.length;
                out[70..102].copy_from_slice(&keys.server_key.octets);
                out[102] = keys.client_salt.length;
                out[103..135].copy_from_slice(&keys.client_salt.octets);
                out[135] = keys.server_salt.length;
                out[136..168].copy_from_slice(&keys.server_salt.octets);
                record.endpoint as u64
            }
        }
    }
    #[inline(never)]
    fn write_page(&self, out: &mut [u8]) -> u64 {
        number(self.0.write_page(out))
    }
}
