//! The structs of include/slipcoacher.h, field by field, and its numbers.

#![forbid(unsafe_code)]

pub const KIOSKS: usize = 32;
pub const ROUNDS: usize = 16;
pub const TABLE: usize = 1_040;
pub const SENT: usize = 6;
pub const ROOMY: usize = 28_499;
pub const TEXT: usize = 114_196;
/// The room for what is said again that always does.
pub const AGAIN: usize = 98;

pub const FRESH: u8 = 0;
pub const RUNNING: u8 = 1;
pub const SETTLED: u8 = 2;

pub const PROPOSE: u8 = 0;
pub const PREVOTE: u8 = 1;
pub const PRECOMMIT: u8 = 2;

/// What a proposal in `Kiosk::log` says beside 0, that none is heard: one with verdict 0, and one with verdict 1, which
/// every greater number says too.
pub const BAD: u32 = 1;
pub const GOOD: u32 = 2;

/// The places of a round's numbers in `Kiosk::log`.
pub mod heard {
    pub const PREVOTES: usize = 0;
    pub const PRECOMMITS: usize = 1;
    pub const PROPOSAL: usize = 2;
    /// The proposal's valid round plus one.
    pub const VALID: usize = 3;
}

/// The default is the unopened state.
#[repr(C)]
#[derive(Clone, Copy, Default, PartialEq, Eq, Debug)]
pub struct Kiosk {
    pub kiosks: usize,
    pub own: usize,
    pub used: usize,
    pub last: usize,
    pub locked_name: u64,
    pub valid_name: u64,
    pub height: u32,
    pub powers: [u16; KIOSKS],
    pub phase: u8,
    pub settled: u8,
    pub round: u8,
    pub step: u8,
    pub asked_propose: u8,
    pub asked_prevote: u8,
    pub asked_precommit: u8,
    pub backed: u8,
    pub locked_next: u8,
    pub valid_next: u8,
    /// What is heard of each round: the four numbers of `heard`.
    pub log: [[u32; 4]; ROUNDS],
}

#[repr(C)]
#[derive(Clone, Copy, Default, PartialEq, Eq, Debug)]
pub struct Input {
    pub name: u64,
    pub offer: u64,
    pub height: u32,
    pub kind: u8,
    pub sender: u8,
    pub round: u8,
    pub valid: u8,
    pub verdict: u8,
}

#[repr(C)]
#[derive(Clone, Copy, Default, PartialEq, Eq, Debug)]
pub struct Output {
    pub name: u64,
    pub kind: u8,
    pub round: u8,
    pub valid: u8,
}

#[repr(C)]
#[derive(Clone, Copy, Default, PartialEq, Eq, Debug)]
pub struct Reply {
    pub number: u32,
    pub place: usize,
    pub count: usize,
    pub sent: [Output; SENT],
    pub kiosk: Kiosk,
}

#[repr(C)]
#[derive(Clone, Copy, Default, PartialEq, Eq, Debug)]
pub struct Made {
    pub number: u32,
    pub used: usize,
}

#[repr(C)]
#[derive(Clone, Copy, Default, PartialEq, Eq, Debug)]
pub struct Part {
    pub from: usize,
    pub count: usize,
}

#[repr(C)]
#[derive(Clone, Copy, Default, PartialEq, Eq, Debug)]
pub struct Page {
    pub number: u32,
    pub size: usize,
}
