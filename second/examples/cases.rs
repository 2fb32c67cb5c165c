//! The journals that the lister's stored cases read, written to a folder, and the
//! text that this program lists each as, on standard output.
//! `cargo run --release --example cases -- FOLDER > STDOUT`

use second::*;
use std::io::Write;
use std::path::Path;

fn input(kind: u8, sender: u8, round: u8, name: u64) -> Input {
    let verdict = u8::from(kind == 2);
    Input {
        kind,
        height: 1,
        sender,
        round,
        valid: 0,
        verdict,
        name,
        offer: 9,
    }
}

/// A journal of some powers and an own number, after some inputs, up to its used length.
fn journal(powers: &[u16], own: usize, inputs: &[Input]) -> Vec<u8> {
    let mut area = vec![0; roomy(powers.len())];
    let made = create(powers, own, 1, &mut area);
    let mut table = vec![0; TABLE];
    let mut state = open(&area, made.used, &mut table).state;
    for input in inputs {
        let reply = put(&state, input, &mut table, &mut area);
        assert_eq!(reply.number, 0, "{input:?}");
        state = reply.state;
    }
    area.truncate(state.used);
    area
}

/// 01's four kiosks: round 0 up to its precommit timer, then a proposal of round 1.
fn four() -> Vec<u8> {
    let calls = [
        (1, 0, 0, 0),
        (2, 1, 0, 50),
        (3, 1, 0, 50),
        (3, 2, 0, 50),
        (4, 1, 0, 0),
        (4, 2, 0, 0),
        (7, 0, 0, 0),
        (2, 2, 1, 60),
    ];
    let inputs: Vec<Input> = calls
        .map(|(kind, sender, round, name)| input(kind, sender, round, name))
        .to_vec();
    journal(&[1; 4], 0, &inputs)
}

/// Every place heard, every timer, settled with the last byte: as long as a journal can be.
fn fullest() -> Vec<u8> {
    let mut inputs = vec![input(1, 0, 0, 0)];
    // Kiosk (h + r) mod 32 proposes; the own number is the one whose turn no round is.
    let own = 0;
    let others = 1..32;
    for round in 0..16 {
        let sheet = 50 + u64::from(round);
        inputs.push(input(5, 0, round, 0));
        inputs.push(input(2, 1 + round, round, sheet));
        inputs.extend(
            others
                .clone()
                .map(|sender| input(3, sender, round, 100 + u64::from(sender))),
        );
        inputs.push(input(6, 0, round, 0));
        // Of round 0, 21 for the sheet; the 22nd, which makes them large, is last.
        for sender in others.clone().filter(|&sender| round != 0 || sender != 31) {
            let name = if round == 0 && sender < 22 { sheet } else { 0 };
            inputs.push(input(4, sender, round, name));
        }
        if round < 15 {
            inputs.push(input(7, 0, round, 0));
        }
    }
    inputs.push(input(4, 31, 0, 50));
    let bytes = journal(&[1; 32], own, &inputs);
    assert_eq!(bytes.len(), 28_499);
    bytes
}

fn main() {
    let folder = std::env::args().nth(1).expect("a folder");
    let one = journal(&[1], 0, &[input(1, 0, 0, 0)]);
    let four = four();
    let full = fullest();
    let changed = |at: usize, byte: u8| {
        let mut bytes = four.clone();
        bytes[at] = byte;
        bytes
    };
    let more = |bytes: &[u8]| [bytes, &[24]].concat();
    let cases: Vec<(&str, Vec<u8>)> = vec![
        ("empty", vec![]),
        ("count-33", vec![33]),
        ("four", four.clone()),
        ("cut-in-powers", four[..8].to_vec()),
        ("cut-in-own-section", four[..14].to_vec()),
        ("cut-in-input", four[..15 + 24].to_vec()),
        ("cut-in-outputs", four[..15 + 37].to_vec()),
        ("bad-power", changed(2, 4)),
        ("bad-section", changed(9, 6)),
        ("bad-zero", changed(15 + 6, 1)),
        ("bad-output", changed(15 + 26, 5)),
        ("settled", one.clone()),
        ("settled-and-more", more(&one)),
        ("fullest", full.clone()),
        ("fullest-and-more", more(&full)),
    ];
    let mut out = std::io::stdout().lock();
    for (name, bytes) in cases {
        std::fs::write(Path::new(&folder).join(name), &bytes).expect("a folder to write to");
        writeln!(out, "{name}").expect("standard output");
        out.write_all(&listing(&bytes)).expect("standard output");
    }
}
