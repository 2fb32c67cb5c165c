//! Random inputs for one kiosk over a height, steered by what it has heard.

use crate::inputs::{precommit, prevote, proposal, start, timer};
use crate::random::Random;
use second::{Input, Phase, State, Step};

/// What a delivery is steered to.
#[derive(Clone, Copy, PartialEq)]
pub enum Aim {
    /// Votes mostly for what is proposed in the current round.
    Settle,
    /// Votes mostly for nil, and timers: round after round.
    Drag,
    /// Messages of rounds ahead.
    Jump,
    /// All of it.
    Any,
}

pub const AIMS: [Aim; 4] = [Aim::Settle, Aim::Drag, Aim::Jump, Aim::Any];

const SHEETS: [u64; 3] = [40, 41, 42];

#[derive(Clone)]
pub struct Delivery {
    pub random: Random,
    pub aim: Aim,
    /// The sheet that most who have no proposal vote for, and many propose.
    favourite: u64,
    /// Inputs that were accepted, to be put again.
    pub taken: Vec<Input>,
}

/// A roll, an own number and a height.
pub struct Market {
    pub powers: Vec<u16>,
    pub own: usize,
    pub height: u32,
}

impl Delivery {
    pub fn new(seed: u64, aim: Aim) -> Delivery {
        let mut random = Random(seed);
        Delivery {
            favourite: random.pick(&SHEETS),
            random,
            aim,
            taken: Vec::new(),
        }
    }

    /// Powers of 1, of 1,000, of 0 and these, of a few small ones, or of any.
    pub fn market(&mut self, kiosks: usize) -> Market {
        let random = &mut self.random;
        let style = random.below(5);
        let mut powers: Vec<u16> = (0..kiosks)
            .map(|_| match style {
                0 => 1,
                1 => 1_000,
                2 => random.pick(&[0, 1, 1_000]),
                3 => random.pick(&[1, 2, 3, 10]),
                _ => random.below(1_001) as u16,
            })
            .collect();
        if powers.iter().all(|&power| power == 0) {
            powers[kiosks - 1] = 1;
        }
        Market {
            powers,
            own: random.below(kiosks),
            height: random.pick(&[0, 1, 7, 1_000_003, u32::MAX - 3, u32::MAX]),
        }
    }

    /// The next input for a kiosk in this state.
    pub fn input(&mut self, state: &State, table: &[u64]) -> Input {
        let timers = if self.aim == Aim::Drag { 4 } else { 12 };
        let mut input = if state.phase == Phase::Fresh {
            start(state.height, 0)
        } else if self.random.once_in(timers) {
            self.timer(state)
        } else if self.random.once_in(5) {
            self.proposal(state, table)
        } else {
            self.vote(state, table)
        };
        if self.random.once_in(15) && !self.taken.is_empty() {
            let at = self.random.below(self.taken.len());
            input = self.taken[at];
        }
        if self.random.once_in(12) {
            input = self.spoilt(input);
        }
        input.offer = self.random.pick(&[0, 9, 41]);
        input
    }

    fn other(&mut self, state: &State) -> u8 {
        let sender = self.random.below(state.kiosks);
        if sender == state.own && !self.random.once_in(20) {
            return ((sender + 1) % state.kiosks) as u8;
        }
        sender as u8
    }

    fn round(&mut self, state: &State) -> u8 {
        let now = state.round;
        let ahead = match self.aim {
            Aim::Settle | Aim::Drag => self.random.once_in(30),
            Aim::Jump => self.random.once_in(3),
            Aim::Any => self.random.once_in(6),
        };
        if ahead {
            return (now + 1 + self.random.below(3) as u8).min(15);
        }
        if self.random.once_in(8) {
            return self.random.below(usize::from(now) + 1) as u8;
        }
        now
    }

    /// What a vote of this round could be for.
    fn name(&mut self, table: &[u64], round: u8) -> u64 {
        let proposed = table[65 * usize::from(round)];
        let nil = match self.aim {
            Aim::Settle => self.random.once_in(12),
            Aim::Drag => !self.random.once_in(8),
            Aim::Jump | Aim::Any => self.random.once_in(3),
        };
        if nil {
            0
        } else if proposed != 0 && !self.random.once_in(8) {
            proposed
        } else {
            self.sheet()
        }
    }

    fn sheet(&mut self) -> u64 {
        if self.random.once_in(3) {
            self.random.pick(&SHEETS)
        } else {
            self.favourite
        }
    }

    /// Mostly by a sender not heard yet, and mostly of the type that the kiosk's step waits for.
    fn vote(&mut self, state: &State, table: &[u64]) -> Input {
        let round = self.round(state);
        let (mut sender, name) = (self.other(state), self.name(table, round));
        let heard = &state.rounds[usize::from(round)];
        let early = match self.random.below(4) {
            0 => true,
            1 => false,
            _ => state.step != Step::Precommit,
        };
        let marks = if early {
            heard.prevotes
        } else {
            heard.precommits
        } | 1 << state.own;
        if !self.random.once_in(4) {
            let seats = (0..state.kiosks).map(|step| (usize::from(sender) + step) % state.kiosks);
            let silent = seats.into_iter().find(|seat| marks >> seat & 1 == 0);
            sender = silent.map_or(sender, |seat| seat as u8);
        }
        if early {
            prevote(state.height, sender, round, name)
        } else {
            precommit(state.height, sender, round, name)
        }
    }

    /// By the round's proposer, often with an earlier round's sheet.
    fn proposal(&mut self, state: &State, table: &[u64]) -> Input {
        let round = self.round(state);
        let turn = u64::from(state.height) + u64::from(round);
        let proposer = (turn % state.kiosks as u64) as u8;
        let mut name = self.sheet();
        let mut vr = -1;
        if round > 0 && self.random.once_in(2) {
            vr = self.random.below(usize::from(round)) as i8;
            let voted = table[65 * vr as usize + 1 + self.random.below(state.kiosks)];
            name = if voted == 0 { name } else { voted };
        }
        let verdict = u8::from(!self.random.once_in(6));
        proposal(state.height, proposer, round, name, vr, verdict)
    }

    fn timer(&mut self, state: &State) -> Input {
        let due = match state.step {
            Step::Propose => 5,
            Step::Prevote => 6,
            Step::Precommit => 7,
        };
        let kind = if self.random.once_in(3) { 7 } else { due };
        timer(state.height, kind, state.round)
    }

    /// One number of an input made wrong, or at least another.
    fn spoilt(&mut self, mut input: Input) -> Input {
        let byte = self.random.pick(&[0, 1, 2, 15, 16, 31, 32, 255]);
        match self.random.below(7) {
            0 => input.kind = self.random.pick(&[0, 1, 2, 3, 4, 5, 6, 7, 8, 255]),
            1 => input.height = self.random.number() as u32,
            2 => input.sender = byte,
            3 => input.round = byte,
            4 => input.valid = byte,
            5 => input.verdict = byte,
            _ => input.name = u64::from(byte),
        }
        input
    }
}
