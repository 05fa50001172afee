//! Calls whose registers hold more than the arguments: a number of 16 or 32 bits leaves the rest of its register open,
//! so no answer may go by it. C compilers mostly clear it, so a call from C would not show that.

use std::arch::asm;

/// The answer of a C function that takes three numbers, each in the low bits of its register (System V ABI of x86-64,
/// section 3.2.3).
///
/// # Safety
/// The function takes three whole numbers and answers with one.
pub unsafe fn call(function: *const (), registers: [u64; 3]) -> u64 {
    let answer;
    unsafe {
        asm!(
            "call {}",
            in(reg) function,
            in("rdi") registers[0],
            in("rsi") registers[1],
            in("rdx") registers[2],
            out("rax") answer,
            clobber_abi("C"),
        );
    }
    answer
}
