//! A kiosk as 003 keeps it, with its log as sets of messages, and the way
//! between that and the lent state and table.

use crate::messages::{Log, Proposal, Vote};
use crate::state::{Held, Phase, State, Step, ROUNDS};
use crate::weighing;
use std::collections::BTreeSet;

/// A sheet held as locked or valid: the pairs of lines 6 to 9, where -1 and
/// nil always go together.
#[derive(Clone, Copy, PartialEq, Eq, Debug)]
pub struct Sheet {
    pub round: u8,
    pub name: u64,
}

#[derive(Clone, PartialEq, Eq, Debug)]
pub struct Kiosk {
    pub roll: Vec<u16>,
    pub own: usize,
    pub height: u32,
    pub phase: Phase,
    pub round: u8,
    pub step: Step,
    /// The timers asked for in the current round, named by their steps.
    pub asked: BTreeSet<Step>,
    /// Rule 36 has fired in the current round.
    pub backed: bool,
    pub locked: Option<Sheet>,
    pub valid: Option<Sheet>,
    pub log: Log,
}

impl Kiosk {
    /// "Proposer of (h, r): kiosk (h + r) mod n".
    pub fn proposer(&self, round: u8) -> usize {
        let turn = u64::from(self.height) + u64::from(round);
        (turn % self.roll.len() as u64) as usize
    }

    pub fn large(&self, senders: &BTreeSet<usize>) -> bool {
        let power = weighing::power(&self.roll, senders);
        weighing::large(power, weighing::total(&self.roll))
    }

    pub fn some(&self, senders: &BTreeSet<usize>) -> bool {
        let power = weighing::power(&self.roll, senders);
        weighing::some(power, weighing::total(&self.roll))
    }

    /// The kiosk that a state and its table describe; only heard places count.
    /// The state must be one that the clauses of refusal 1 let through.
    pub fn described(state: &State, table: &[u64]) -> Kiosk {
        let mut log = Log::default();
        for (round, heard) in (0u8..).zip(&state.rounds) {
            if heard.proposal != 0 {
                let proposal = Proposal {
                    name: table[proposal_place(round)],
                    valid: heard.valid.checked_sub(1).map(below_its_own),
                    heard: heard.proposal,
                };
                log.keep_proposal(round, proposal);
            }
            for seat in 0..state.kiosks {
                for (vote, marks) in [
                    (Vote::Prevote, heard.prevotes),
                    (Vote::Precommit, heard.precommits),
                ] {
                    if marks & (1 << seat) != 0 {
                        log.keep_vote(vote, round, seat, table[vote_place(vote, round, seat)]);
                    }
                }
            }
        }
        let asked = [
            (Step::Propose, state.asked_propose),
            (Step::Prevote, state.asked_prevote),
            (Step::Precommit, state.asked_precommit),
        ];
        Kiosk {
            roll: state.powers[..state.kiosks].to_vec(),
            own: state.own,
            height: state.height,
            phase: state.phase,
            round: state.round,
            step: state.step,
            asked: asked.iter().filter(|a| a.1).map(|a| a.0).collect(),
            backed: state.backed,
            locked: sheet(state.locked),
            valid: sheet(state.valid),
            log,
        }
    }

    /// Writes into a state and table what became of the kiosk they describe.
    /// Of the log only messages that are not in `before` are written, so what
    /// unheard places hold stays.
    pub fn write_back(&self, before: &Kiosk, state: &mut State, table: &mut [u64]) {
        state.phase = self.phase;
        state.round = self.round;
        state.step = self.step;
        state.asked_propose = self.asked.contains(&Step::Propose);
        state.asked_prevote = self.asked.contains(&Step::Prevote);
        state.asked_precommit = self.asked.contains(&Step::Precommit);
        state.backed = self.backed;
        state.locked = held(self.locked);
        state.valid = held(self.valid);
        for (&round, &proposal) in &self.log.proposals {
            if before.log.proposal(round) != Some(proposal) {
                let heard = &mut state.rounds[usize::from(round)];
                heard.proposal = proposal.heard;
                heard.valid = proposal.valid.map_or(0, |vr| u32::from(vr) + 1);
                table[proposal_place(round)] = proposal.name;
            }
        }
        for (&(vote, round), said) in &self.log.votes {
            for (&seat, &name) in said {
                if before.log.vote(vote, round, seat) != Some(name) {
                    let heard = &mut state.rounds[usize::from(round)];
                    match vote {
                        Vote::Prevote => heard.prevotes |= 1 << seat,
                        Vote::Precommit => heard.precommits |= 1 << seat,
                    }
                    table[vote_place(vote, round, seat)] = name;
                }
            }
        }
    }
}

/// "65 per round: the proposal's name, 32 prevotes, 32 precommits".
fn proposal_place(round: u8) -> usize {
    debug_assert!(usize::from(round) < ROUNDS);
    65 * usize::from(round)
}

fn vote_place(vote: Vote, round: u8, seat: usize) -> usize {
    let first = match vote {
        Vote::Prevote => 1,
        Vote::Precommit => 33,
    };
    proposal_place(round) + first + seat
}

/// The valid round of a proposal that refusal 1 lets through.
fn below_its_own(vr: u32) -> u8 {
    u8::try_from(vr).expect("a valid round below its proposal's")
}

fn sheet(held: Held) -> Option<Sheet> {
    let round = held.next.checked_sub(1)?;
    Some(Sheet {
        round,
        name: held.name,
    })
}

fn held(sheet: Option<Sheet>) -> Held {
    match sheet {
        None => Held { next: 0, name: 0 },
        Some(sheet) => Held {
            next: sheet.round + 1,
            name: sheet.name,
        },
    }
}
