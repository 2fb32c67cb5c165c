//! The flat picture of a kiosk's state that goes in and comes out of each call.
//! A caller may make one up: each number may hold whatever its width allows.

/// "1 to 32 kiosks".
pub const SEATS: usize = 32;
/// "Rounds 0 to 15".
pub const ROUNDS: usize = 16;
/// "Power 0 to 1,000 each".
pub const MAX_POWER: u16 = 1_000;
/// "The table is 1,040 64-bit numbers, 65 per round".
pub const TABLE: usize = 65 * ROUNDS;

#[derive(Clone, Copy, PartialEq, Eq, Debug)]
pub enum Phase {
    /// Not started.
    Fresh,
    Running,
    /// Settled, in this round.
    Settled(u8),
}

#[derive(Clone, Copy, PartialEq, Eq, PartialOrd, Ord, Debug)]
pub enum Step {
    Propose,
    Prevote,
    Precommit,
}

/// A sheet held as locked or as valid, with the round it was taken in.
#[derive(Clone, Copy, PartialEq, Eq, Debug)]
pub struct Held {
    /// Round plus one; 0 for 003's -1.
    pub next: u8,
    pub name: u64,
}

/// What is heard of one round; the names are in the table.
#[derive(Clone, Copy, PartialEq, Eq, Debug)]
pub struct Heard {
    /// 0 for none heard, 1 for one with verdict 0; any other for one with
    /// verdict 1, which calls write as 2.
    pub proposal: u32,
    /// The proposal's valid round plus one.
    pub valid: u32,
    /// Bit i: the prevote of seat i is heard.
    pub prevotes: u32,
    /// Bit i: the precommit of seat i is heard.
    pub precommits: u32,
}

#[derive(Clone, PartialEq, Eq, Debug)]
pub struct State {
    /// 0: unopened.
    pub kiosks: usize,
    /// The first `kiosks` of them are the roll.
    pub powers: [u16; SEATS],
    pub own: usize,
    pub height: u32,
    pub phase: Phase,
    pub round: u8,
    pub step: Step,
    /// Timers asked for in the current round; those of prevote and precommit
    /// are also the "first time" of 34 and 47.
    pub asked_propose: bool,
    pub asked_prevote: bool,
    pub asked_precommit: bool,
    /// Rule 36 has fired in the current round.
    pub backed: bool,
    pub locked: Held,
    pub valid: Held,
    pub rounds: [Heard; ROUNDS],
    /// The used length of the journal.
    pub used: usize,
    /// Where the last whole group starts; the used length when there is none.
    pub last: usize,
}

impl State {
    /// "There is one unopened state (0 kiosks), and every failed opening
    /// returns it."
    pub fn unopened() -> State {
        let none = Held { next: 0, name: 0 };
        let silent = Heard {
            proposal: 0,
            valid: 0,
            prevotes: 0,
            precommits: 0,
        };
        State {
            kiosks: 0,
            powers: [0; SEATS],
            own: 0,
            height: 0,
            phase: Phase::Fresh,
            round: 0,
            step: Step::Propose,
            asked_propose: false,
            asked_prevote: false,
            asked_precommit: false,
            backed: false,
            locked: none,
            valid: none,
            rounds: [silent; ROUNDS],
            used: 0,
            last: 0,
        }
    }
}
