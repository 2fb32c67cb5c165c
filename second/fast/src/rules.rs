//! Algorithm 1 of 003 with the house rules of 01, on seat marks.

use flat::{
    heard, Input, Kiosk, Output, BAD, GOOD, KIOSKS, PRECOMMIT, PREVOTE, PROPOSE, ROUNDS, RUNNING,
    SENT, SETTLED, TABLE,
};

/// Where the votes of a round stand after its first place.
pub const PREVOTES: usize = 1;
pub const PRECOMMITS: usize = 33;

/// The first place of a round: its proposal's name.
pub fn place(round: usize) -> usize {
    65 * round
}

pub fn proposer(kiosk: &Kiosk, round: usize) -> usize {
    ((u64::from(kiosk.height) + round as u64) % kiosk.kiosks as u64) as usize
}

/// What a power must be over: 3P > 2T is P > 2T/3, and 3P > T is P > T/3, both rounded down.
#[derive(Clone, Copy)]
pub struct Weights {
    large: u32,
    some: u32,
}

impl Weights {
    pub fn of(roll: &[u16]) -> Weights {
        let total: u32 = roll.iter().map(|&power| u32::from(power)).sum();
        Weights {
            large: 2 * total / 3,
            some: total / 3,
        }
    }
}

fn power(kiosk: &Kiosk, mut marks: u32) -> u32 {
    let mut sum = 0;
    while marks != 0 {
        sum += u32::from(kiosk.powers[marks.trailing_zeros() as usize]);
        marks &= marks - 1;
    }
    sum
}

/// Whether the marked seats whose name is this one are large; their names first stand at `from`.
fn large_for(
    kiosk: &Kiosk,
    table: &[u64; TABLE],
    large: u32,
    marks: u32,
    from: usize,
    name: u64,
) -> bool {
    if power(kiosk, marks) <= large {
        return false;
    }
    let mut same = 0;
    for (seat, &voted) in table[from..from + KIOSKS].iter().enumerate() {
        same |= u32::from(voted == name) << seat;
    }
    power(kiosk, same & marks) > large
}

#[derive(Clone, Copy)]
pub enum Rule {
    L22,
    /// The valid round plus one.
    L28 {
        valid: u32,
    },
    L34,
    L36,
    L44,
    L47,
    L49 {
        round: usize,
    },
    L55 {
        round: usize,
    },
}

/// The first rule that applies to a running kiosk.
pub fn applies(kiosk: &Kiosk, table: &[u64; TABLE], weights: &Weights) -> Option<Rule> {
    let round = usize::from(kiosk.round);
    let proposal = kiosk.log[round][heard::PROPOSAL];
    let sheet = table[place(round)];
    let prevotes_for = |round: usize, name| {
        let from = place(round) + PREVOTES;
        large_for(
            kiosk,
            table,
            weights.large,
            kiosk.log[round][heard::PREVOTES],
            from,
            name,
        )
    };
    if kiosk.step == PROPOSE {
        if proposal != 0 {
            let valid = kiosk.log[round][heard::VALID];
            if valid == 0 {
                return Some(Rule::L22);
            }
            if prevotes_for(valid as usize - 1, sheet) {
                return Some(Rule::L28 { valid });
            }
        }
    } else {
        let prevote = kiosk.step == PREVOTE;
        if prevote
            && kiosk.asked_prevote == 0
            && power(kiosk, kiosk.log[round][heard::PREVOTES]) > weights.large
        {
            return Some(Rule::L34);
        }
        if kiosk.backed == 0 && proposal >= GOOD && prevotes_for(round, sheet) {
            return Some(Rule::L36);
        }
        if prevote && prevotes_for(round, 0) {
            return Some(Rule::L44);
        }
    }
    if kiosk.asked_precommit == 0
        && power(kiosk, kiosk.log[round][heard::PRECOMMITS]) > weights.large
    {
        return Some(Rule::L47);
    }
    for (round, &[_, marks, proposal, _]) in kiosk.log.iter().enumerate() {
        let from = place(round) + PRECOMMITS;
        if proposal >= GOOD
            && large_for(
                kiosk,
                table,
                weights.large,
                marks,
                from,
                table[place(round)],
            )
        {
            return Some(Rule::L49 { round });
        }
    }
    for round in (round + 1..ROUNDS).rev() {
        let mut senders = kiosk.log[round][heard::PREVOTES] | kiosk.log[round][heard::PRECOMMITS];
        if kiosk.log[round][heard::PROPOSAL] != 0 {
            senders |= 1 << proposer(kiosk, round);
        }
        if power(kiosk, senders) > weights.some {
            return Some(Rule::L55 { round });
        }
    }
    None
}

/// The input's place and one for each output.
const WRITTEN: usize = 1 + SENT;

/// One call under way, with what it wrote over in the table.
pub struct Call<'a> {
    kiosk: &'a mut Kiosk,
    table: &'a mut [u64; TABLE],
    weights: Weights,
    offer: u64,
    pub sent: [Output; SENT],
    pub count: usize,
    over: [(usize, u64); WRITTEN],
    written: usize,
}

impl<'a> Call<'a> {
    pub fn new(
        kiosk: &'a mut Kiosk,
        table: &'a mut [u64; TABLE],
        weights: Weights,
        offer: u64,
    ) -> Call<'a> {
        Call {
            kiosk,
            table,
            weights,
            offer,
            sent: [Output::default(); SENT],
            count: 0,
            over: [(0, 0); WRITTEN],
            written: 0,
        }
    }

    /// Puts an input that is not refused in the log and fires until no rule applies.
    pub fn take(&mut self, input: &Input) {
        let round = usize::from(input.round);
        let mark = 1 << (input.sender & 31);
        let seat = usize::from(input.sender);
        match input.kind {
            1 => {
                self.kiosk.phase = RUNNING;
                self.start_round(0);
            }
            2 => {
                self.kiosk.log[round][heard::PROPOSAL] = BAD + u32::from(input.verdict);
                self.kiosk.log[round][heard::VALID] = input.valid.into();
                self.write(place(round), input.name);
            }
            3 => {
                self.kiosk.log[round][heard::PREVOTES] |= mark;
                self.write(place(round) + PREVOTES + seat, input.name);
            }
            4 => {
                self.kiosk.log[round][heard::PRECOMMITS] |= mark;
                self.write(place(round) + PRECOMMITS + seat, input.name);
            }
            5 => self.prevote(0),
            6 => self.precommit(0),
            _ => self.start_round(self.kiosk.round + 1),
        }
        while let Some(rule) = applies(self.kiosk, self.table, &self.weights) {
            self.fire(rule);
            if self.kiosk.phase == SETTLED {
                break;
            }
        }
    }

    /// State and table as they were.
    pub fn take_back(self, before: &Kiosk) {
        for &(place, name) in self.over[..self.written].iter().rev() {
            self.table[place] = name;
        }
        *self.kiosk = *before;
    }

    fn fire(&mut self, rule: Rule) {
        let round = usize::from(self.kiosk.round);
        let sheet = self.table[place(round)];
        match rule {
            Rule::L22 => {
                let free = self.kiosk.locked_next == 0 || self.kiosk.locked_name == sheet;
                self.prevote_on(free, sheet);
            }
            Rule::L28 { valid } => {
                // Round plus one: no lock is 0.
                let next = u32::from(self.kiosk.locked_next);
                let free = next <= valid || self.kiosk.locked_name == sheet;
                self.prevote_on(free, sheet);
            }
            Rule::L34 => {
                self.kiosk.asked_prevote = 1;
                self.send(5, 0, 0);
            }
            Rule::L36 => {
                let next = self.kiosk.round + 1;
                if self.kiosk.step == PREVOTE {
                    self.kiosk.locked_name = sheet;
                    self.kiosk.locked_next = next;
                    self.precommit(sheet);
                }
                self.kiosk.valid_name = sheet;
                self.kiosk.valid_next = next;
                self.kiosk.backed = 1;
            }
            Rule::L44 => self.precommit(0),
            Rule::L47 => {
                self.kiosk.asked_precommit = 1;
                self.send(6, 0, 0);
            }
            Rule::L49 { round } => {
                self.kiosk.phase = SETTLED;
                self.kiosk.settled = round as u8;
                self.push(Output {
                    kind: 7,
                    round: round as u8,
                    valid: 0,
                    name: self.table[place(round)],
                });
            }
            Rule::L55 { round } => self.start_round(round as u8),
        }
    }

    fn start_round(&mut self, round: u8) {
        debug_assert!(usize::from(round) < ROUNDS);
        self.kiosk.round = round;
        self.kiosk.step = PROPOSE;
        self.kiosk.asked_propose = 0;
        self.kiosk.asked_prevote = 0;
        self.kiosk.asked_precommit = 0;
        self.kiosk.backed = 0;
        let (name, valid) = match self.kiosk.valid_next {
            0 => (self.offer, 0),
            next => (self.kiosk.valid_name, next),
        };
        let at = usize::from(round);
        if name == 0 || proposer(self.kiosk, at) != self.kiosk.own {
            self.kiosk.asked_propose = 1;
            self.send(4, 0, 0);
            return;
        }
        self.kiosk.log[at][heard::PROPOSAL] = GOOD;
        self.kiosk.log[at][heard::VALID] = valid.into();
        self.write(place(at), name);
        self.send(1, valid, name);
    }

    fn prevote_on(&mut self, free: bool, sheet: u64) {
        let good = self.kiosk.log[usize::from(self.kiosk.round)][heard::PROPOSAL] >= GOOD;
        self.prevote(if good && free { sheet } else { 0 });
    }

    fn prevote(&mut self, name: u64) {
        let (round, own) = (usize::from(self.kiosk.round), self.kiosk.own);
        self.kiosk.log[round][heard::PREVOTES] |= 1 << own;
        self.kiosk.step = PREVOTE;
        self.write(place(round) + PREVOTES + own, name);
        self.send(2, 0, name);
    }

    fn precommit(&mut self, name: u64) {
        let (round, own) = (usize::from(self.kiosk.round), self.kiosk.own);
        self.kiosk.log[round][heard::PRECOMMITS] |= 1 << own;
        self.kiosk.step = PRECOMMIT;
        self.write(place(round) + PRECOMMITS + own, name);
        self.send(3, 0, name);
    }

    fn write(&mut self, place: usize, name: u64) {
        self.over[self.written] = (place, self.table[place]);
        self.written += 1;
        self.table[place] = name;
    }

    /// An output of the current round.
    fn send(&mut self, kind: u8, valid: u8, name: u64) {
        self.push(Output {
            kind,
            round: self.kiosk.round,
            valid,
            name,
        });
    }

    fn push(&mut self, output: Output) {
        self.sent[self.count] = output;
        self.count += 1;
    }
}
