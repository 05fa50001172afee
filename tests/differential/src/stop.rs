//! Prints the case at hand when the library touches a closed page, or does not return.

use crate::case::Case;
use std::sync::atomic::{AtomicPtr, Ordering};

extern "C" {
    fn signal(number: i32, handler: extern "C" fn(i32)) -> usize;
    fn alarm(seconds: u32) -> u32;
    fn _exit(status: i32) -> !;
}

const SIGILL: i32 = 4;
const SIGTRAP: i32 = 5;
const SIGABRT: i32 = 6;
const SIGBUS: i32 = 7;
const SIGFPE: i32 = 8;
const SIGSEGV: i32 = 11;
const SIGALRM: i32 = 14;

static AT_HAND: AtomicPtr<Case> = AtomicPtr::new(std::ptr::null_mut());

pub fn install() {
    for number in [SIGILL, SIGTRAP, SIGABRT, SIGBUS, SIGFPE, SIGSEGV, SIGALRM] {
        unsafe { signal(number, stopped) };
    }
}

/// While this lives, a stop is the stop of this case.
pub struct During;

pub fn during(case: &Case) -> During {
    AT_HAND.store(case as *const Case as *mut Case, Ordering::Relaxed);
    During
}

impl Drop for During {
    fn drop(&mut self) {
        AT_HAND.store(std::ptr::null_mut(), Ordering::Relaxed);
    }
}

/// Asks for a stop unless it is asked again within the time.
pub fn within_seconds(seconds: u32) {
    unsafe { alarm(seconds) };
}

extern "C" fn stopped(number: i32) {
    let case = AT_HAND.load(Ordering::Relaxed);
    let what = if number == SIGALRM { "does not return" } else { "touches octets that were not lent, or traps" };
    eprintln!("STOPPED by signal {number}: the library {what}");
    match unsafe { case.as_ref() } {
        Some(case) => eprintln!("  the case, for differential replay:\n{case}"),
        None => eprintln!("  outside a case: with a stretch of more than 2^32 octets, or in the rules themselves"),
    }
    unsafe { _exit(1) }
}
