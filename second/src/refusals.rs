//! What is refused: the clauses of refusal 1, the numbers 2 to 11 in their
//! order, and the roll and own number of 15.

use crate::journal;
use crate::kiosk::Kiosk;
use crate::messages::Vote;
use crate::records::{input, Input};
use crate::rules;
use crate::state::{Held, Phase, State, Step, MAX_POWER, ROUNDS, SEATS, TABLE};
use crate::weighing;

/// "1 to 32 kiosks; power 0 to 1,000 each, total 1 to 32,000". 32 powers of
/// 1,000 are no more than the greatest total.
pub fn roll_allowed(roll: &[u16]) -> bool {
    (1..=SEATS).contains(&roll.len())
        && roll.iter().all(|&power| power <= MAX_POWER)
        && weighing::total(roll) >= 1
}

/// Refusal 1: the kiosk that a state and table describe, or none where they
/// are impossible for an area of this many bytes.
pub fn possible(state: &State, table: &[u64], area: usize) -> Option<Kiosk> {
    let roll = state.powers.get(..state.kiosks)?;
    let holds = roll_allowed(roll)
        && state.own < roll.len()
        && table.len() == TABLE
        && (journal::header_length(roll.len())..=area).contains(&state.used)
        && state.last <= state.used
        && usize::from(state.round) < ROUNDS
        && settled_round_allowed(state.phase)
        && marks_on_roll(state)
        && held_allowed(state.locked, state.round)
        && held_allowed(state.valid, state.round)
        && proposals_allowed(state, table)
        && (state.phase != Phase::Fresh || untouched(state, table));
    if !holds {
        return None;
    }
    let kiosk = Kiosk::described(state, table);
    rules::applies(&kiosk).is_none().then_some(kiosk)
}

fn settled_round_allowed(phase: Phase) -> bool {
    match phase {
        Phase::Settled(round) => usize::from(round) < ROUNDS,
        Phase::Fresh | Phase::Running => true,
    }
}

/// No "mark for a seat not on the roll".
fn marks_on_roll(state: &State) -> bool {
    state.rounds.iter().all(|heard| {
        let marks = heard.prevotes | heard.precommits;
        (state.kiosks..SEATS).all(|seat| marks & (1 << seat) == 0)
    })
}

/// "Locked or valid round outside -1 to the current round, or -1 without name
/// 0 or the reverse".
fn held_allowed(held: Held, round: u8) -> bool {
    held.next <= round + 1 && (held.next == 0) == (held.name == 0)
}

/// "A heard proposal with name 0 or a valid round ... not below its own"; below
/// -1 cannot be written.
fn proposals_allowed(state: &State, table: &[u64]) -> bool {
    (0u32..)
        .zip(&state.rounds)
        .filter(|(_, heard)| heard.proposal != 0)
        .all(|(round, heard)| heard.valid <= round && table[65 * round as usize] != 0)
}

/// Not started: nothing heard, every table place 0, round 0, nothing held.
fn untouched(state: &State, table: &[u64]) -> bool {
    let silent = state
        .rounds
        .iter()
        .all(|heard| heard.proposal == 0 && heard.prevotes == 0 && heard.precommits == 0);
    silent
        && table.iter().all(|&name| name == 0)
        && state.round == 0
        && state.locked.next == 0
        && state.valid.next == 0
}

/// Refusals 2 to 11, "checked in this order; the first that applies is given".
pub fn refused(kiosk: &Kiosk, input: &Input) -> Option<u8> {
    let started = kiosk.phase != Phase::Fresh;
    let message = (input::PROPOSAL..=input::PRECOMMIT).contains(&input.kind);
    if matches!(kiosk.phase, Phase::Settled(_)) {
        Some(2)
    } else if (input.kind == input::START) == started {
        Some(3)
    } else if input.height != kiosk.height {
        Some(4)
    } else if !fields_allowed(kiosk, input) {
        Some(5)
    } else if message && usize::from(input.sender) == kiosk.own {
        Some(6)
    } else if input.kind == input::PROPOSAL
        && usize::from(input.sender) != kiosk.proposer(input.round)
    {
        Some(7)
    } else if let Some(same) = heard_same(kiosk, input) {
        Some(if same { 8 } else { 9 })
    } else if !timer_due(kiosk, input) {
        Some(10)
    } else if input.kind == input::TIMER_PRECOMMIT && usize::from(input.round) == ROUNDS - 1 {
        Some(11)
    } else {
        None
    }
}

/// The fields that each kind may carry, under "Inputs and outputs".
fn fields_allowed(kiosk: &Kiosk, input: &Input) -> bool {
    let bare = input.valid == 0 && input.verdict == 0;
    let nobody = input.sender == 0 && input.name == 0;
    usize::from(input.sender) < kiosk.roll.len()
        && usize::from(input.round) < ROUNDS
        && match input.kind {
            input::START => bare && nobody && input.round == 0,
            input::PROPOSAL => input.name != 0 && input.valid <= input.round && input.verdict <= 1,
            input::PREVOTE | input::PRECOMMIT => bare,
            input::TIMER_PROPOSE | input::TIMER_PREVOTE | input::TIMER_PRECOMMIT => bare && nobody,
            _ => false,
        }
}

/// Refusals 8 and 9: whether what is heard in the input's place is the same,
/// none where nothing is. Another verdict makes a proposal no other.
fn heard_same(kiosk: &Kiosk, input: &Input) -> Option<bool> {
    let sender = usize::from(input.sender);
    match input.kind {
        input::PROPOSAL => {
            let heard = kiosk.log.proposal(input.round)?;
            Some(heard.name == input.name && heard.valid == input.valid.checked_sub(1))
        }
        input::PREVOTE => {
            let heard = kiosk.log.vote(Vote::Prevote, input.round, sender)?;
            Some(heard == input.name)
        }
        input::PRECOMMIT => {
            let heard = kiosk.log.vote(Vote::Precommit, input.round, sender)?;
            Some(heard == input.name)
        }
        _ => None,
    }
}

/// What refusal 10 asks of a timer: "5 needs step propose, 6 step prevote, 7
/// none". True for what is no timer.
fn timer_due(kiosk: &Kiosk, input: &Input) -> bool {
    let current = input.round == kiosk.round;
    match input.kind {
        input::TIMER_PROPOSE => {
            current && kiosk.step == Step::Propose && kiosk.asked.contains(&Step::Propose)
        }
        input::TIMER_PREVOTE => {
            current && kiosk.step == Step::Prevote && kiosk.asked.contains(&Step::Prevote)
        }
        input::TIMER_PRECOMMIT => current && kiosk.asked.contains(&Step::Precommit),
        _ => true,
    }
}
