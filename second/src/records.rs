//! The two halves of a record: the input of a call and its outputs, as plain
//! numbers, so that any made-up one can be put.

#[derive(Clone, Copy, PartialEq, Eq, Debug)]
pub struct Input {
    pub kind: u8,
    pub height: u32,
    pub sender: u8,
    pub round: u8,
    /// Valid round plus one.
    pub valid: u8,
    /// 1 good, 0 bad.
    pub verdict: u8,
    pub name: u64,
    /// The sheet that this kiosk would propose now, 0 for none.
    pub offer: u64,
}

#[derive(Clone, Copy, PartialEq, Eq, Debug)]
pub struct Output {
    pub kind: u8,
    pub round: u8,
    /// Valid round plus one; only a proposal carries it.
    pub valid: u8,
    pub name: u64,
}

/// The kinds of input.
pub mod input {
    pub const START: u8 = 1;
    pub const PROPOSAL: u8 = 2;
    pub const PREVOTE: u8 = 3;
    pub const PRECOMMIT: u8 = 4;
    pub const TIMER_PROPOSE: u8 = 5;
    pub const TIMER_PREVOTE: u8 = 6;
    pub const TIMER_PRECOMMIT: u8 = 7;

    pub fn word(kind: u8) -> &'static str {
        match kind {
            START => "start",
            PROPOSAL => "proposal",
            PREVOTE => "prevote",
            PRECOMMIT => "precommit",
            TIMER_PROPOSE => "timer-propose",
            TIMER_PREVOTE => "timer-prevote",
            TIMER_PRECOMMIT => "timer-precommit",
            _ => unreachable!("no accepted input has kind {kind}"),
        }
    }
}

/// The kinds of output.
pub mod output {
    pub const PROPOSAL: u8 = 1;
    pub const PREVOTE: u8 = 2;
    pub const PRECOMMIT: u8 = 3;
    pub const ASK_PROPOSE: u8 = 4;
    pub const ASK_PREVOTE: u8 = 5;
    pub const ASK_PRECOMMIT: u8 = 6;
    pub const SETTLED: u8 = 7;

    pub fn word(kind: u8) -> &'static str {
        match kind {
            PROPOSAL => "proposal",
            PREVOTE => "prevote",
            PRECOMMIT => "precommit",
            ASK_PROPOSE => "ask-propose",
            ASK_PREVOTE => "ask-prevote",
            ASK_PRECOMMIT => "ask-precommit",
            SETTLED => "settled",
            _ => unreachable!("no rule gives an output of kind {kind}"),
        }
    }
}
