//! The stack that each of the exported calls takes: the call runs on a stretch of its own, painted
//! first, and what is no longer paint afterwards was used. The return address is counted.

use crate::calls::{self, Calls, BLOCK, RECORD};
use std::cell::RefCell;

const DEPTH: usize = 8192;
const PAINT: [u8; 2] = [0xA5, 0x5A];

#[repr(align(16))]
struct Stretch([u8; DEPTH]);

thread_local! {
    static STRETCH: RefCell<Stretch> = const { RefCell::new(Stretch([0; DEPTH])) };
    static MOST: RefCell<[usize; 8]> = const { RefCell::new([0; 8]) };
    static TURN: RefCell<usize> = const { RefCell::new(0) };
}

/// The most stack that each call has taken so far.
pub fn most() -> [usize; 8] {
    MOST.with_borrow(|m| *m)
}

/// Calls `f` with up to six arguments in registers. Each paint is used in turn, so that an octet
/// written with the value of one is seen under the other. No register that the call may save holds
/// the paint of the turn, which would not be seen.
fn painted(call: usize, f: *const (), args: [u64; 6]) -> u64 {
    let paint = TURN.with_borrow_mut(|turn| {
        *turn += 1;
        PAINT[*turn % 2]
    });
    STRETCH.with_borrow_mut(|stretch| {
        stretch.0.fill(paint);
        let top = stretch.0.as_mut_ptr_range().end;
        let answer: u64;
        unsafe {
            std::arch::asm!(
                "push rbx",
                "push rbp",
                "xor ebx, ebx",
                "xor ebp, ebp",
                "xor r15d, r15d",
                "mov r12, rsp",
                "mov rsp, r13",
                "call r14",
                "mov rsp, r12",
                "pop rbp",
                "pop rbx",
                in("r13") top,
                in("r14") f,
                in("rdi") args[0],
                in("rsi") args[1],
                in("rdx") args[2],
                in("rcx") args[3],
                in("r8") args[4],
                in("r9") args[5],
                lateout("rax") answer,
                out("r12") _,
                out("r15") _,
                clobber_abi("C"),
            );
        }
        let used = DEPTH - stretch.0.iter().position(|&b| b != paint).unwrap_or(DEPTH);
        assert!(used < DEPTH);
        MOST.with_borrow_mut(|m| m[call] = m[call].max(used));
        answer
    })
}

/// The proved distributor, each call on a painted stack.
#[derive(Clone)]
pub struct Painted(pub [u8; BLOCK]);

impl Calls for Painted {
    fn first() -> Self {
        Painted([0; BLOCK])
    }
    fn start(&mut self, list: &[u8], out: &mut [u8]) -> u64 {
        let f = calls::measure_start as *const ();
        let (o, on) = (out.as_mut_ptr() as u64, out.len() as u64);
        let args = [
            self.0.as_mut_ptr() as u64,
            list.as_ptr() as u64,
            list.len() as u64,
            o,
            on,
            0,
        ];
        painted(0, f, args)
    }
    fn open(&mut self, id: &[u8], endpoint: u32) -> u64 {
        let f = calls::measure_open as *const ();
        let (i, n) = (id.as_ptr() as u64, id.len() as u64);
        painted(
            1,
            f,
            [self.0.as_mut_ptr() as u64, i, n, endpoint as u64, 0, 0],
        )
    }
    fn booth_packet(&self, endpoint: u32, packet: &[u8], out: &mut [u8]) -> u64 {
        let f = calls::measure_packet as *const ();
        let (p, n) = (packet.as_ptr() as u64, packet.len() as u64);
        let (o, on) = (out.as_mut_ptr() as u64, out.len() as u64);
        painted(2, f, [self.0.as_ptr() as u64, endpoint as u64, p, n, o, on])
    }
    fn tunnel_octets(&mut self, s: &[u8], more: &mut [u64; 3]) -> u64 {
        let f = calls::measure_octets as *const ();
        let (p, n) = (s.as_ptr() as u64, s.len() as u64);
        painted(
            3,
            f,
            [
                self.0.as_mut_ptr() as u64,
                p,
                n,
                more.as_mut_ptr() as u64,
                0,
                0,
            ],
        )
    }
    fn close(&mut self, id: &[u8], out: &mut [u8]) -> u64 {
        let f = calls::measure_close as *const ();
        let (i, n) = (id.as_ptr() as u64, id.len() as u64);
        let (o, on) = (out.as_mut_ptr() as u64, out.len() as u64);
        painted(4, f, [self.0.as_mut_ptr() as u64, i, n, o, on, 0])
    }
    fn end(&mut self) -> u64 {
        let f = calls::measure_end as *const ();
        painted(5, f, [self.0.as_mut_ptr() as u64, 0, 0, 0, 0, 0])
    }
    fn look(&self, endpoint: u32, out: &mut [u8; RECORD]) -> u64 {
        let f = calls::measure_look as *const ();
        let o = out.as_mut_ptr() as u64;
        painted(6, f, [self.0.as_ptr() as u64, endpoint as u64, o, 0, 0, 0])
    }
    fn write_page(&self, out: &mut [u8]) -> u64 {
        let f = calls::measure_page as *const ();
        let (o, on) = (out.as_mut_ptr() as u64, out.len() as u64);
        painted(7, f, [self.0.as_ptr() as u64, o, on, 0, 0, 0])
    }
}
