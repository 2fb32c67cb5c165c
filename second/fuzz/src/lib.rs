//! What libFuzzer calls: its bytes played to the proved build and to fast, each held against second.

use compare::{Sides, FAST};

/// # Safety
/// libFuzzer lends `size` bytes at `data`.
#[no_mangle]
pub unsafe extern "C" fn LLVMFuzzerTestOneInput(data: *const u8, size: usize) -> i32 {
    let bytes = match size {
        0 => &[],
        // SAFETY: as lent.
        _ => unsafe { std::slice::from_raw_parts(data, size) },
    };
    compare::bytes::play(Sides(&[board::BOARD, FAST]), bytes);
    0
}
