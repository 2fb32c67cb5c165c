//! The proved engine through the C interface of include/slipcoacher.h. A Rust slice is aligned and never null, and lent slices do not
//! overlap, which is all that a call asks of what is lent.

#[cfg(target_arch = "x86_64")]
mod linked;
#[cfg(not(target_arch = "x86_64"))]
#[path = "served.rs"]
mod linked;

use compare::Engine;
pub use linked::{again, create, input_number, kiosk_number, last, layout, list, open, put};

/// The archive of the library.
pub const LIBRARY: &str = env!("SLIP_LIBRARY");

/// The proved engine, to be held against second.
pub const BOARD: Engine = Engine {
    name: "board",
    create,
    open,
    again,
    put,
    last,
};
