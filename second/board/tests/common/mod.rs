//! What the tests share: the proved engine as a side, and how much to do.

// Each test program uses its own part of this.
#![allow(dead_code)]

pub mod c;

use board::BOARD;
use compare::{Delivery, Lent, Met, Sides, FAST};

/// The proved build and the fast program, each held against second.
pub const SIDES: Sides = Sides(&[BOARD, FAST]);

const CALLS: usize = 100_000;

/// How many calls are delivered: SLIP_CALLS, which `make soak` sets.
pub fn calls() -> usize {
    match std::env::var("SLIP_CALLS") {
        Ok(calls) => calls.parse().expect("SLIP_CALLS is a number"),
        Err(_) => CALLS,
    }
}

/// 10 in a soak, else 1: for what grows too fast to follow the calls.
pub fn times() -> usize {
    if calls() > CALLS {
        10
    } else {
        1
    }
}

/// A delivery, and what is lent after so many of its puts.
pub fn delivered(seed: usize, kiosks: usize, puts: usize, met: &mut Met) -> (Delivery, Lent) {
    SIDES.delivered(seed, kiosks, puts, met)
}
