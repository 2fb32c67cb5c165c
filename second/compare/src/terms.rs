//! Between second's state and the flat one of the header.

use flat::Kiosk;
use second::{Heard, Held, Phase, State, Step};

pub fn flat_state(state: &State) -> Kiosk {
    let (phase, settled) = match state.phase {
        Phase::Fresh => (flat::FRESH, 0),
        Phase::Running => (flat::RUNNING, 0),
        Phase::Settled(round) => (flat::SETTLED, round),
    };
    Kiosk {
        kiosks: state.kiosks,
        own: state.own,
        used: state.used,
        last: state.last,
        locked_name: state.locked.name,
        valid_name: state.valid.name,
        height: state.height,
        powers: state.powers,
        phase,
        settled,
        round: state.round,
        step: match state.step {
            Step::Propose => flat::PROPOSE,
            Step::Prevote => flat::PREVOTE,
            Step::Precommit => flat::PRECOMMIT,
        },
        asked_propose: state.asked_propose.into(),
        asked_prevote: state.asked_prevote.into(),
        asked_precommit: state.asked_precommit.into(),
        backed: state.backed.into(),
        locked_next: state.locked.next,
        valid_next: state.valid.next,
        log: state.rounds.map(|heard| {
            [
                heard.prevotes,
                heard.precommits,
                heard.proposal,
                heard.valid,
            ]
        }),
    }
}

/// None where a number is one that second's state cannot hold: refusal 1.
pub fn state(kiosk: &Kiosk) -> Option<State> {
    Some(State {
        kiosks: kiosk.kiosks,
        powers: kiosk.powers,
        own: kiosk.own,
        height: kiosk.height,
        phase: match (kiosk.phase, kiosk.settled) {
            (flat::FRESH, 0) => Phase::Fresh,
            (flat::RUNNING, 0) => Phase::Running,
            (flat::SETTLED, round) => Phase::Settled(round),
            _ => return None,
        },
        round: kiosk.round,
        step: match kiosk.step {
            flat::PROPOSE => Step::Propose,
            flat::PREVOTE => Step::Prevote,
            flat::PRECOMMIT => Step::Precommit,
            _ => return None,
        },
        asked_propose: yes(kiosk.asked_propose)?,
        asked_prevote: yes(kiosk.asked_prevote)?,
        asked_precommit: yes(kiosk.asked_precommit)?,
        backed: yes(kiosk.backed)?,
        locked: Held {
            next: kiosk.locked_next,
            name: kiosk.locked_name,
        },
        valid: Held {
            next: kiosk.valid_next,
            name: kiosk.valid_name,
        },
        rounds: kiosk
            .log
            .map(|[prevotes, precommits, proposal, valid]| Heard {
                proposal,
                valid,
                prevotes,
                precommits,
            }),
        used: kiosk.used,
        last: kiosk.last,
    })
}

fn yes(number: u8) -> Option<bool> {
    match number {
        0 => Some(false),
        1 => Some(true),
        _ => None,
    }
}

pub fn flat_input(input: &second::Input) -> flat::Input {
    flat::Input {
        name: input.name,
        offer: input.offer,
        height: input.height,
        kind: input.kind,
        sender: input.sender,
        round: input.round,
        valid: input.valid,
        verdict: input.verdict,
    }
}

pub fn flat_output(output: &second::Output) -> flat::Output {
    flat::Output {
        name: output.name,
        kind: output.kind,
        round: output.round,
        valid: output.valid,
    }
}

/// Second's reply, its state in flat terms.
pub fn flat_reply(reply: &second::Reply) -> flat::Reply {
    let mut sent = [flat::Output::default(); flat::SENT];
    for (place, output) in sent.iter_mut().zip(&reply.outputs) {
        *place = flat_output(output);
    }
    flat::Reply {
        number: reply.number.into(),
        place: reply.place,
        count: reply.outputs.len(),
        sent,
        kiosk: flat_state(&reply.state),
    }
}
