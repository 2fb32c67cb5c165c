//! Numbers, states and replies in the words of crates/rules/proofs/Whole.antt and crates/examples/specs/Flat.antt.

use flat::{heard, Kiosk, Output, Reply, TABLE};
use second::Input;

/// A list, in brackets where it is not empty.
pub fn list(words: impl IntoIterator<Item = String>) -> String {
    let items: String = words.into_iter().map(|word| word + " ∷ ").collect();
    match items.is_empty() {
        true => "[]".to_string(),
        false => format!("({items}[])"),
    }
}

pub fn numbers<T: ToString>(all: &[T]) -> String {
    list(all.iter().map(T::to_string))
}

/// The places that do not hold 0.
fn spots<T: Copy + Into<u64>>(all: &[T]) -> String {
    let held = all.iter().map(|&number| number.into()).enumerate();
    list(
        held.filter(|&(_, number)| number != 0)
            .map(|(place, number): (usize, u64)| format!("at {place} {number}")),
    )
}

pub fn table(names: &[u64]) -> String {
    match names.len() {
        TABLE => format!("(table {})", spots(names)),
        length => format!("(spread 0 {length} {})", spots(names)),
    }
}

pub fn input(input: &Input) -> String {
    let Input {
        kind,
        height,
        sender,
        round,
        valid,
        verdict,
        name,
        offer,
    } = input;
    format!("(input {kind} {sender} {round} {valid} {verdict} {name} {offer} {height})")
}

fn output(output: &Output) -> String {
    let Output {
        name,
        kind,
        round,
        valid,
    } = output;
    format!("out {kind} {round} {valid} {name}")
}

/// The powers up to the last that is not 0; the words fill up with 0.
fn roll(kiosk: &Kiosk) -> String {
    let given = kiosk.powers.iter().rposition(|&power| power != 0);
    let powers = numbers(&kiosk.powers[..given.map_or(0, |last| last + 1)]);
    format!(
        "(roll {} {powers} {} {})",
        kiosk.kiosks, kiosk.own, kiosk.height
    )
}

pub fn kiosk(kiosk: &Kiosk) -> String {
    let by_round = |place: usize| spots(&kiosk.log.map(|heard| heard[place]));
    format!(
        "(kiosk {} {} {} {} {} {} {} {} {} (held {} {}) (held {} {}) (log {} {} {} {}) {} {})",
        roll(kiosk),
        kiosk.phase,
        kiosk.settled,
        kiosk.round,
        kiosk.step,
        kiosk.asked_propose,
        kiosk.asked_prevote,
        kiosk.asked_precommit,
        kiosk.backed,
        kiosk.locked_next,
        kiosk.locked_name,
        kiosk.valid_next,
        kiosk.valid_name,
        by_round(heard::PREVOTES),
        by_round(heard::PRECOMMITS),
        by_round(heard::PROPOSAL),
        by_round(heard::VALID),
        kiosk.used,
        kiosk.last
    )
}

pub fn reply(reply: &Reply) -> String {
    let outputs = list(reply.sent[..reply.count].iter().map(output));
    let state = kiosk(&reply.kiosk);
    format!("(reply {} {} {outputs} {state})", reply.number, reply.place)
}
