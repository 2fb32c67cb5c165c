//! Inputs in few words.

use second::Input;

pub fn start(height: u32, offer: u64) -> Input {
    Input {
        kind: 1,
        height,
        sender: 0,
        round: 0,
        valid: 0,
        verdict: 0,
        name: 0,
        offer,
    }
}

/// `vr` is the valid round, -1 for none.
pub fn proposal(height: u32, sender: u8, round: u8, name: u64, vr: i8, verdict: u8) -> Input {
    Input {
        kind: 2,
        sender,
        round,
        valid: (vr + 1) as u8,
        verdict,
        name,
        ..start(height, 0)
    }
}

pub fn prevote(height: u32, sender: u8, round: u8, name: u64) -> Input {
    Input {
        kind: 3,
        sender,
        round,
        name,
        ..start(height, 0)
    }
}

pub fn precommit(height: u32, sender: u8, round: u8, name: u64) -> Input {
    Input {
        kind: 4,
        ..prevote(height, sender, round, name)
    }
}

/// The timer of propose, prevote or precommit: kind 5, 6 or 7.
pub fn timer(height: u32, kind: u8, round: u8) -> Input {
    Input {
        kind,
        round,
        ..start(height, 0)
    }
}
