//! The clauses of refusal 1, and the numbers 2 to 11 in their order.

use crate::journal;
use crate::rules::{self, place, PRECOMMITS, PREVOTES};
use crate::rules::{proposer, Weights};
use flat::{
    heard, Input, Kiosk, FRESH, KIOSKS, PRECOMMIT, PREVOTE, PROPOSE, ROUNDS, RUNNING, SETTLED,
    TABLE,
};

const MAX_POWER: u16 = 1_000;

pub fn roll_allowed(powers: &[u16]) -> bool {
    (1..=KIOSKS).contains(&powers.len())
        && powers.iter().all(|&power| power <= MAX_POWER)
        && powers.iter().any(|&power| power != 0)
}

/// What the roll weighs where no clause of refusal 1 applies.
pub fn possible(kiosk: &Kiosk, table: &[u64; TABLE], area: usize) -> Option<Weights> {
    let roll = kiosk.powers.get(..kiosk.kiosks)?;
    let flags = kiosk.asked_propose | kiosk.asked_prevote | kiosk.asked_precommit | kiosk.backed;
    let holds = roll_allowed(roll)
        && kiosk.own < roll.len()
        && kiosk.phase <= SETTLED
        && kiosk.step <= PRECOMMIT
        && flags <= 1
        && kiosk.used >= journal::header_length(roll.len())
        && kiosk.used <= area
        && kiosk.last <= kiosk.used
        && usize::from(kiosk.round) < ROUNDS
        && usize::from(kiosk.settled) < if kiosk.phase == SETTLED { ROUNDS } else { 1 }
        && held_allowed(kiosk.locked_next, kiosk.locked_name, kiosk.round)
        && held_allowed(kiosk.valid_next, kiosk.valid_name, kiosk.round)
        && log_allowed(kiosk, table)
        && (kiosk.phase != FRESH || untouched(kiosk, table));
    if !holds {
        return None;
    }
    let weights = Weights::of(roll);
    if kiosk.phase == RUNNING && rules::applies(kiosk, table, &weights).is_some() {
        return None;
    }
    Some(weights)
}

fn held_allowed(next: u8, name: u64, round: u8) -> bool {
    next <= round + 1 && (next == 0) == (name == 0)
}

/// No mark past the roll, and each proposal one that can be.
fn log_allowed(kiosk: &Kiosk, table: &[u64; TABLE]) -> bool {
    let off_roll = u32::MAX.checked_shl(kiosk.kiosks as u32).unwrap_or(0);
    let mut rounds = kiosk.log.iter().enumerate();
    rounds.all(|(round, &[prevotes, precommits, proposal, valid])| {
        (prevotes | precommits) & off_roll == 0
            && (proposal == 0 || valid <= round as u32 && table[place(round)] != 0)
    })
}

fn untouched(kiosk: &Kiosk, table: &[u64; TABLE]) -> bool {
    kiosk.round | kiosk.locked_next | kiosk.valid_next == 0
        && kiosk.log.iter().all(|[heard @ .., _]| *heard == [0; 3])
        && table.iter().fold(0, |all, name| all | name) == 0
}

/// The first of 2 to 11 that applies, 0 for none.
pub fn refused(kiosk: &Kiosk, table: &[u64; TABLE], input: &Input) -> u32 {
    if kiosk.phase == SETTLED {
        return 2;
    }
    if (input.kind == 1) != (kiosk.phase == FRESH) {
        return 3;
    }
    if input.height != kiosk.height {
        return 4;
    }
    if !fields_allowed(kiosk.kiosks, input) {
        return 5;
    }
    let round = usize::from(input.round);
    match input.kind {
        2..=4 => {
            let seat = usize::from(input.sender);
            if seat == kiosk.own {
                return 6;
            }
            let (is_heard, same) = match input.kind {
                2 => {
                    if seat != proposer(kiosk, round) {
                        return 7;
                    }
                    (
                        kiosk.log[round][heard::PROPOSAL] != 0,
                        table[place(round)] == input.name
                            && kiosk.log[round][heard::VALID] == u32::from(input.valid),
                    )
                }
                3 => (
                    kiosk.log[round][heard::PREVOTES] >> seat & 1 == 1,
                    table[place(round) + PREVOTES + seat] == input.name,
                ),
                _ => (
                    kiosk.log[round][heard::PRECOMMITS] >> seat & 1 == 1,
                    table[place(round) + PRECOMMITS + seat] == input.name,
                ),
            };
            match (is_heard, same) {
                (false, _) => 0,
                (true, true) => 8,
                (true, false) => 9,
            }
        }
        5..=7 => refused_timer(kiosk, input.kind, input.round),
        _ => 0,
    }
}

/// 10 and 11 of a timer of kind 5 to 7.
pub fn refused_timer(kiosk: &Kiosk, kind: u8, round: u8) -> u32 {
    let due = match kind {
        5 => kiosk.step == PROPOSE && kiosk.asked_propose == 1,
        6 => kiosk.step == PREVOTE && kiosk.asked_prevote == 1,
        _ => kiosk.asked_precommit == 1,
    };
    if !due || round != kiosk.round {
        10
    } else if kind == 7 && usize::from(round) == ROUNDS - 1 {
        11
    } else {
        0
    }
}

fn fields_allowed(kiosks: usize, input: &Input) -> bool {
    let bare = input.valid | input.verdict == 0;
    let nobody = input.sender == 0 && input.name == 0;
    usize::from(input.sender) < kiosks
        && usize::from(input.round) < ROUNDS
        && match input.kind {
            1 => bare && nobody && input.round == 0,
            2 => input.name != 0 && input.valid <= input.round && input.verdict <= 1,
            3 | 4 => bare,
            5..=7 => bare && nobody,
            _ => false,
        }
}
