//! Calls with their whole replies, as second gives them, written for the prover to compute from the definitions and
//! compare. Each rule, refusal and boundary of 01 is met from both sides: by states that calls left, and by made-up ones.

mod creating;
mod fields;
mod file;
mod groups;
mod heights;
mod locking;
mod opening;
mod order;
mod possible;
mod prevoting;
mod refusing;
mod resting;
mod rounds;
mod scene;
mod settling;
mod teller;
mod words;

use teller::Teller;

/// The whole file crates/examples/proofs/Told.antt, but for its layout.
pub fn text() -> String {
    let mut tell = Teller::default();
    heights::tell(&mut tell);
    prevoting::tell(&mut tell);
    locking::tell(&mut tell);
    settling::tell(&mut tell);
    rounds::tell(&mut tell);
    refusing::tell(&mut tell);
    fields::tell(&mut tell);
    order::tell(&mut tell);
    possible::tell(&mut tell);
    resting::tell(&mut tell);
    opening::tell(&mut tell);
    creating::tell(&mut tell);
    tell.file.text()
}
