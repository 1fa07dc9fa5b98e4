//! A fault inside a call: say in which case, and end.

use std::ffi::c_int;
use std::fmt::Display;
use std::ptr;
use std::sync::atomic::{AtomicPtr, Ordering};

extern "C" {
    fn signal(number: c_int, handler: extern "C" fn(c_int)) -> usize;
    fn _exit(status: c_int) -> !;
}

/// SIGILL, SIGTRAP, SIGABRT, SIGBUS, SIGFPE, SIGSEGV.
const SIGNALS: [c_int; 6] = [4, 5, 6, 7, 8, 11];

/// The case of the call under way.
static CURRENT: AtomicPtr<&dyn Display> = AtomicPtr::new(ptr::null_mut());

/// From now on a fault prints the case under way and ends with status 1.
pub fn report() {
    for number in SIGNALS {
        // SAFETY: the handler only reads what `during` left, and ends.
        unsafe { signal(number, say_and_end) };
    }
}

/// Makes a call with its case at hand for the report.
pub fn during<T>(case: &dyn Display, call: impl FnOnce() -> T) -> T {
    CURRENT.store(ptr::from_ref(&case).cast_mut().cast(), Ordering::Relaxed);
    let answer = call();
    CURRENT.store(ptr::null_mut(), Ordering::Relaxed);
    answer
}

extern "C" fn say_and_end(number: c_int) {
    // SAFETY: not null only while `during` holds the case. The library
    // neither allocates nor prints, so that both can be done here.
    match unsafe { CURRENT.load(Ordering::Relaxed).as_ref() } {
        Some(case) => println!("signal {number} within the call\n{case}"),
        None => println!("signal {number} outside of any call"),
    }
    // SAFETY: ends the process.
    unsafe { _exit(1) }
}
