//! The stack that a call needs, measured by stack.c.

use std::ffi::c_void;

extern "C" {
    fn stack_used(call: extern "C" fn(*mut c_void), with: *mut c_void) -> usize;
}

extern "C" fn call<F: FnMut()>(with: *mut c_void) {
    // SAFETY: `with` is the closure that `used` lends for the time of its call.
    unsafe { (*with.cast::<F>())() }
}

/// In a thread of its own, which ends before this returns.
pub fn used<F: FnMut() + Send>(mut run: F) -> usize {
    // SAFETY: as above; the thread is joined.
    let used = unsafe { stack_used(call::<F>, (&raw mut run).cast()) };
    assert_ne!(used, 0, "no thread");
    used
}
