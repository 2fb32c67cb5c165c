//! Algorithm 1 of 003 with the house rules of 01. Each rule has its `upon` part
//! here as a function of what is heard, and its `do` part in `fire`.

use crate::kiosk::{Kiosk, Sheet};
use crate::messages::{Proposal, Vote, HEARD_BAD, HEARD_GOOD, NIL};
use crate::records::{input, output, Input, Output};
use crate::state::{Phase, Step};

/// A rule that applies, with what its `upon` part found. Numbers are 003's lines.
#[derive(Clone, Copy, PartialEq, Eq, Debug)]
pub enum Rule {
    L22 { proposal: Proposal },
    L28 { proposal: Proposal, vr: u8 },
    L34,
    L36 { proposal: Proposal },
    L44,
    L47,
    L49 { round: u8, proposal: Proposal },
    L55 { round: u8 },
}

impl Rule {
    pub fn line(self) -> u8 {
        match self {
            Rule::L22 { .. } => 22,
            Rule::L28 { .. } => 28,
            Rule::L34 => 34,
            Rule::L36 { .. } => 36,
            Rule::L44 => 44,
            Rule::L47 => 47,
            Rule::L49 { .. } => 49,
            Rule::L55 { .. } => 55,
        }
    }
}

/// "The first rule that applies", in firing order; none before start or after
/// settling.
pub fn applies(kiosk: &Kiosk) -> Option<Rule> {
    if kiosk.phase != Phase::Running {
        return None;
    }
    upon_22(kiosk)
        .or_else(|| upon_28(kiosk))
        .or_else(|| upon_34(kiosk))
        .or_else(|| upon_36(kiosk))
        .or_else(|| upon_44(kiosk))
        .or_else(|| upon_47(kiosk))
        .or_else(|| upon_49(kiosk))
        .or_else(|| upon_55(kiosk))
}

/// A proposal of this round with valid round -1, at step propose.
fn upon_22(kiosk: &Kiosk) -> Option<Rule> {
    let proposal = kiosk.log.proposal(kiosk.round)?;
    let holds = kiosk.step == Step::Propose && proposal.valid.is_none();
    holds.then_some(Rule::L22 { proposal })
}

/// A proposal of this round with a valid round, and large prevotes for it in
/// that round, at step propose.
fn upon_28(kiosk: &Kiosk) -> Option<Rule> {
    let proposal = kiosk.log.proposal(kiosk.round)?;
    let vr = proposal.valid?;
    let holds = kiosk.step == Step::Propose
        && vr < kiosk.round
        && kiosk.large(&kiosk.log.voters_for(Vote::Prevote, vr, proposal.name));
    holds.then_some(Rule::L28 { proposal, vr })
}

/// Large prevotes for anything in this round, at step prevote, for the first time.
fn upon_34(kiosk: &Kiosk) -> Option<Rule> {
    let first_time = !kiosk.asked.contains(&Step::Prevote);
    let holds = first_time
        && kiosk.step == Step::Prevote
        && kiosk.large(&kiosk.log.voters(Vote::Prevote, kiosk.round));
    holds.then_some(Rule::L34)
}

/// A good proposal of this round and large prevotes for it, from step prevote
/// on, for the first time.
fn upon_36(kiosk: &Kiosk) -> Option<Rule> {
    let (round, log) = (kiosk.round, &kiosk.log);
    let proposal = log.proposal(round)?;
    let first_time = !kiosk.backed;
    let holds = first_time
        && kiosk.step >= Step::Prevote
        && proposal.good()
        && kiosk.large(&log.voters_for(Vote::Prevote, round, proposal.name));
    holds.then_some(Rule::L36 { proposal })
}

/// Large prevotes for nil in this round, at step prevote.
fn upon_44(kiosk: &Kiosk) -> Option<Rule> {
    let holds = kiosk.step == Step::Prevote
        && kiosk.large(&kiosk.log.voters_for(Vote::Prevote, kiosk.round, NIL));
    holds.then_some(Rule::L44)
}

/// Large precommits for anything in this round, for the first time.
fn upon_47(kiosk: &Kiosk) -> Option<Rule> {
    let first_time = !kiosk.asked.contains(&Step::Precommit);
    let holds = first_time && kiosk.large(&kiosk.log.voters(Vote::Precommit, kiosk.round));
    holds.then_some(Rule::L47)
}

/// "49 applies only where the proposal's verdict is 1 (line 50). It looks at
/// every round, lowest first."
fn upon_49(kiosk: &Kiosk) -> Option<Rule> {
    let log = &kiosk.log;
    for (&round, &proposal) in &log.proposals {
        let precommitters = log.voters_for(Vote::Precommit, round, proposal.name);
        if proposal.good() && kiosk.large(&precommitters) {
            return Some(Rule::L49 { round, proposal });
        }
    }
    None
}

/// "55 goes to the highest round with some power."
fn upon_55(kiosk: &Kiosk) -> Option<Rule> {
    for &round in kiosk.log.rounds_after(kiosk.round).iter().rev() {
        let senders = kiosk.log.senders(round, kiosk.proposer(round));
        if kiosk.some(&senders) {
            return Some(Rule::L55 { round });
        }
    }
    None
}

/// What a call did: its outputs, and the lines of the rules that fired.
pub struct Done {
    pub outputs: Vec<Output>,
    pub fired: Vec<u8>,
}

/// Puts an input that is not refused in the log and fires until no rule applies.
pub fn take(kiosk: &mut Kiosk, input: &Input) -> Done {
    let mut call = Call {
        kiosk,
        offer: input.offer,
        outputs: Vec::new(),
    };
    call.hear(input);
    let mut fired = Vec::new();
    while let Some(rule) = applies(call.kiosk) {
        call.fire(rule);
        fired.push(rule.line());
        debug_assert!(fired.len() < 1_000);
    }
    Done {
        outputs: call.outputs,
        fired,
    }
}

/// One call under way: the offer serves every round that the call enters.
struct Call<'a> {
    kiosk: &'a mut Kiosk,
    offer: u64,
    outputs: Vec<Output>,
}

impl Call<'_> {
    fn hear(&mut self, input: &Input) {
        let sender = usize::from(input.sender);
        let log = &mut self.kiosk.log;
        match input.kind {
            input::START => {
                self.kiosk.phase = Phase::Running;
                self.start_round(0);
            }
            input::PROPOSAL => {
                let proposal = Proposal {
                    name: input.name,
                    valid: input.valid.checked_sub(1),
                    heard: match input.verdict {
                        1 => HEARD_GOOD,
                        _ => HEARD_BAD,
                    },
                };
                log.keep_proposal(input.round, proposal);
            }
            input::PREVOTE => log.keep_vote(Vote::Prevote, input.round, sender, input.name),
            input::PRECOMMIT => log.keep_vote(Vote::Precommit, input.round, sender, input.name),
            // Lines 57 to 67; their conditions are refusal 10.
            input::TIMER_PROPOSE => self.prevote(NIL),
            input::TIMER_PREVOTE => self.precommit(NIL),
            input::TIMER_PRECOMMIT => self.start_round(self.kiosk.round + 1),
            kind => unreachable!("an input of kind {kind} is refused"),
        }
    }

    fn fire(&mut self, rule: Rule) {
        match rule {
            // Lines 23 to 27.
            Rule::L22 { proposal } => {
                let locked = self.kiosk.locked;
                let free = locked.is_none_or(|lock| lock.name == proposal.name);
                self.prevote(if proposal.good() && free {
                    proposal.name
                } else {
                    NIL
                });
            }
            // Lines 29 to 33; no lock is lockedRound -1, which is below any vr.
            Rule::L28 { proposal, vr } => {
                let locked = self.kiosk.locked;
                let free = locked.is_none_or(|lock| lock.round <= vr || lock.name == proposal.name);
                self.prevote(if proposal.good() && free {
                    proposal.name
                } else {
                    NIL
                });
            }
            // Line 35.
            Rule::L34 => self.ask(Step::Prevote),
            // Lines 37 to 43; 42 and 43 stand outside line 37's `if`.
            Rule::L36 { proposal } => {
                let sheet = Sheet {
                    round: self.kiosk.round,
                    name: proposal.name,
                };
                if self.kiosk.step == Step::Prevote {
                    self.kiosk.locked = Some(sheet);
                    self.precommit(proposal.name);
                }
                self.kiosk.valid = Some(sheet);
                self.kiosk.backed = true;
            }
            // Lines 45 and 46.
            Rule::L44 => self.precommit(NIL),
            // Line 48.
            Rule::L47 => self.ask(Step::Precommit),
            // Line 51; 52 to 54 "belong to the next journal".
            Rule::L49 { round, proposal } => {
                self.kiosk.phase = Phase::Settled(round);
                self.outputs.push(Output {
                    kind: output::SETTLED,
                    round,
                    valid: 0,
                    name: proposal.name,
                });
            }
            // Line 56.
            Rule::L55 { round } => self.start_round(round),
        }
    }

    /// Lines 11 to 21. "For the first time" begins again with the round; the
    /// lock and the valid sheet stay.
    fn start_round(&mut self, round: u8) {
        self.kiosk.round = round;
        self.kiosk.step = Step::Propose;
        self.kiosk.asked.clear();
        self.kiosk.backed = false;
        if self.kiosk.proposer(round) != self.kiosk.own {
            self.ask(Step::Propose);
        } else if let Some(sheet) = self.kiosk.valid {
            self.propose(sheet.name, Some(sheet.round));
        } else if self.offer != 0 {
            self.propose(self.offer, None);
        } else {
            // "A proposer with no valid sheet and offer 0 asks for the propose
            // timer, as others do."
            self.ask(Step::Propose);
        }
    }

    /// Own messages go in the own log at once, over anything held there.
    fn propose(&mut self, name: u64, valid: Option<u8>) {
        let round = self.kiosk.round;
        let proposal = Proposal {
            name,
            valid,
            heard: HEARD_GOOD,
        };
        self.kiosk.log.keep_proposal(round, proposal);
        self.outputs.push(Output {
            kind: output::PROPOSAL,
            round,
            valid: valid.map_or(0, |vr| vr + 1),
            name,
        });
    }

    fn prevote(&mut self, name: u64) {
        self.vote(Vote::Prevote, output::PREVOTE, name);
        self.kiosk.step = Step::Prevote;
    }

    fn precommit(&mut self, name: u64) {
        self.vote(Vote::Precommit, output::PRECOMMIT, name);
        self.kiosk.step = Step::Precommit;
    }

    fn vote(&mut self, vote: Vote, kind: u8, name: u64) {
        let (round, own) = (self.kiosk.round, self.kiosk.own);
        self.kiosk.log.keep_vote(vote, round, own, name);
        self.outputs.push(Output {
            kind,
            round,
            valid: 0,
            name,
        });
    }

    fn ask(&mut self, timer: Step) {
        self.kiosk.asked.insert(timer);
        self.outputs.push(Output {
            kind: match timer {
                Step::Propose => output::ASK_PROPOSE,
                Step::Prevote => output::ASK_PREVOTE,
                Step::Precommit => output::ASK_PRECOMMIT,
            },
            round: self.kiosk.round,
            valid: 0,
            name: 0,
        });
    }
}

/// Choices between rounds that no put can meet: a state in which either rule
/// already applies is refused.
#[cfg(test)]
mod tests {
    use super::*;
    use crate::messages::Log;
    use std::collections::BTreeSet;

    fn kiosk() -> Kiosk {
        Kiosk {
            roll: vec![1; 4],
            own: 0,
            height: 1,
            phase: Phase::Running,
            round: 3,
            step: Step::Propose,
            asked: BTreeSet::from([Step::Propose]),
            backed: false,
            locked: None,
            valid: None,
            log: Log::default(),
        }
    }

    #[test]
    fn line_49_takes_the_lowest_round() {
        let mut kiosk = kiosk();
        for round in [5, 2, 9] {
            let proposal = Proposal {
                name: 50 + u64::from(round),
                valid: None,
                heard: if round == 2 { HEARD_BAD } else { HEARD_GOOD },
            };
            kiosk.log.keep_proposal(round, proposal);
            for sender in 1..4 {
                kiosk
                    .log
                    .keep_vote(Vote::Precommit, round, sender, proposal.name);
            }
        }
        let rule = applies(&kiosk).unwrap();
        assert!(matches!(rule, Rule::L49 { round: 5, .. }));
    }

    #[test]
    fn line_55_takes_the_highest_round() {
        let mut kiosk = kiosk();
        for (sender, round) in [(1, 5), (2, 5), (1, 9), (3, 9), (2, 12)] {
            kiosk.log.keep_vote(Vote::Prevote, round, sender, NIL);
        }
        assert_eq!(applies(&kiosk), Some(Rule::L55 { round: 9 }));
    }

    #[test]
    fn no_rule_before_start_or_after_settling() {
        let mut kiosk = kiosk();
        for sender in 1..4 {
            kiosk.log.keep_vote(Vote::Prevote, 9, sender, NIL);
        }
        assert!(applies(&kiosk).is_some());
        for phase in [Phase::Fresh, Phase::Settled(3)] {
            kiosk.phase = phase;
            assert_eq!(applies(&kiosk), None);
        }
    }
}
