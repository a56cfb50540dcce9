//! A call that faults, aborts or does not come back: say which case it was, and count it as failed.

use std::ffi::{c_int, c_void};
use std::fmt::Display;
use std::ptr::null_mut;
use std::sync::atomic::{AtomicPtr, AtomicUsize, Ordering::Relaxed};

/// The case whose calls are under way.
static CASE: AtomicPtr<&dyn Display> = AtomicPtr::new(null_mut());
pub static PASSED: AtomicUsize = AtomicUsize::new(0);
pub static FAILED: AtomicUsize = AtomicUsize::new(0);

/// The C library's structures, as on Linux.
#[repr(C)]
struct Action {
    handler: extern "C" fn(c_int),
    mask: [u64; 16],
    flags: c_int,
    restorer: *const c_void,
}

#[repr(C)]
struct Stack {
    start: *mut u8,
    flags: c_int,
    length: usize,
}

extern "C" {
    fn sigaction(signal: c_int, new: *const Action, old: *mut Action) -> c_int;
    fn sigaltstack(new: *const Stack, old: *mut Stack) -> c_int;
    fn alarm(seconds: u32) -> u32;
    fn _exit(status: c_int) -> !;
}

const SIGNALS: [(c_int, &str); 6] = [
    (4, "an illegal instruction"),
    (6, "an abort"),
    (7, "a bus error"),
    (8, "an arithmetic fault"),
    (11, "a memory fault"),
    (14, "no answer in time"),
];
const ON_OWN_STACK: c_int = 0x0800_0000;
const ONCE: c_int = 0x8000_0000_u32 as c_int;

/// Printing in a handler is safe here, since the signal comes while the engine runs, which holds none
/// of the locks that printing takes.
extern "C" fn report(signal: c_int) {
    let what = SIGNALS.iter().find(|(number, _)| *number == signal).map_or("a signal", |(_, name)| name);
    // SAFETY: null, or a case that stays until its call is over.
    match unsafe { CASE.load(Relaxed).as_ref() } {
        Some(case) => println!("FAILED: {what} in the call for {case}"),
        None => println!("FAILED: {what} outside a case, in the test itself"),
    }
    println!("{} passed, {} failed", PASSED.load(Relaxed), FAILED.load(Relaxed) + 1);
    // SAFETY: nothing is left to be done.
    unsafe { _exit(1) }
}

/// From here on a call that ends in a signal is reported; it has a stack of its own for it, since a
/// call may have used up the other.
pub fn watch() {
    let stack = Box::leak(vec![0u8; 1 << 18].into_boxed_slice());
    let stack = Stack { start: stack.as_mut_ptr(), flags: 0, length: stack.len() };
    let action = Action { handler: report, mask: [0; 16], flags: ON_OWN_STACK | ONCE, restorer: std::ptr::null() };
    // SAFETY: both structures are read before the calls return; the stack is never freed.
    unsafe {
        assert!(sigaltstack(&stack, null_mut()) == 0);
        for (signal, _) in SIGNALS {
            assert!(sigaction(signal, &action, null_mut()) == 0);
        }
    }
}

/// Makes the calls of a case, so that a signal is reported as this case's.
pub fn during<R>(mut case: &dyn Display, calls: impl FnOnce() -> R) -> R {
    CASE.store((&raw mut case).cast(), Relaxed);
    let result = calls();
    CASE.store(null_mut(), Relaxed);
    result
}

/// A time for what follows that is far above what it takes.
pub fn allow(seconds: u32) {
    // SAFETY: it only sets a clock.
    unsafe { alarm(seconds) };
}
