//! Lent things out of every cache.

use std::arch::x86_64::{_mm_clflush, _mm_mfence};

pub fn flush<T>(lent: &[T]) {
    let first = lent.as_ptr().cast::<u8>();
    for line in (0..size_of_val(lent)).step_by(64) {
        // SAFETY: an address within the slice; flushing changes no byte.
        unsafe { _mm_clflush(first.add(line)) };
    }
    // SAFETY: every x86-64 has it.
    unsafe { _mm_mfence() };
}
