//! A kiosk's state, table and area as a call finds them: driven there by calls, or made up number by number.

use crate::inputs;
use crate::terms::{flat_state, state};
use flat::{heard, Kiosk, BAD, GOOD, KIOSKS, TABLE};
use second::Input;

#[derive(Clone)]
pub struct Scene {
    pub kiosk: Kiosk,
    pub table: Vec<u64>,
    /// What the area begins with; the teller fills up the rest.
    pub written: Vec<u8>,
    /// The area's length; none: what the call's group needs, and a few bytes more.
    pub area: Option<usize>,
}

/// A seat's vote.
pub type Vote = (usize, u64);

/// A state that no header came with: not started, with the used length of its header.
pub fn fresh(powers: &[u16], own: usize, height: u32) -> Scene {
    let used = 7 + 2 * powers.len();
    let mut all = [0; KIOSKS];
    all[..powers.len()].copy_from_slice(powers);
    Scene {
        kiosk: Kiosk {
            kiosks: powers.len(),
            own,
            height,
            powers: all,
            used,
            last: used,
            ..Kiosk::default()
        },
        table: vec![0; TABLE],
        written: Vec::new(),
        area: None,
    }
}

/// A running kiosk at step propose of round 0 that has asked for the propose timer, its last group some bytes long.
pub fn running(powers: &[u16], own: usize, height: u32) -> Scene {
    let mut scene = fresh(powers, own, height);
    scene.kiosk.phase = flat::RUNNING;
    scene.kiosk.asked_propose = 1;
    scene.kiosk.last = 6;
    scene
}

/// 01's four kiosks of power 1, height 1, own number 0. Round 0 is kiosk 1's turn, and round 3 the own one.
pub fn four() -> Scene {
    running(&[1; 4], 0, 1)
}

/// Total 12: 8 is not large and 9 is, 4 is not some and 5 is. Round 0 is kiosk 3's turn, and round 3 the own one.
pub fn uneven() -> Scene {
    running(&[5, 1, 4, 2], 2, 1_000_003)
}

/// Total 3: 2 is not large and 3 is, 1 is not some and 2 is. Round 0 is kiosk 2's turn, and round 2 the own one.
pub fn three() -> Scene {
    running(&[1; 3], 1, 2)
}

/// Total 10: 6 is not large and 7 is, 3 is not some and 4 is; seats 1 and 4 have power 0. Round 0 is kiosk 3's turn, and
/// round 1 the own one.
pub fn seven() -> Scene {
    running(&[2, 0, 1, 3, 0, 1, 3], 4, u32::MAX)
}

/// Total 10, of which kiosk 2 has 7: it is large alone. Round 0 is kiosk 1's turn.
pub fn heavy() -> Scene {
    running(&[1, 1, 7, 1], 0, 1)
}

/// The greatest total: 21 kiosks are not large and 22 are, 10 are not some and 11 are. Round 0 is kiosk 15's turn, and
/// round 15 the own one.
pub fn wide() -> Scene {
    running(&[1_000; KIOSKS], 30, u32::MAX - 16)
}

/// A name with eight different bytes, and the greatest one.
pub const LONG: u64 = 0xf1e2_d3c4_b5a6_9788;
pub const MOST: u64 = u64::MAX;

impl Scene {
    /// A kiosk that has created and opened its journal.
    pub fn opened(powers: &[u16], own: usize, height: u32) -> Scene {
        let mut written = vec![0; 7 + 2 * powers.len()];
        let made = second::create(powers, own, height, &mut written);
        let mut table = vec![0; TABLE];
        let reply = second::open(&written, made.used, &mut table);
        assert_eq!((made.number, reply.number), (0, 0));
        Scene {
            kiosk: flat_state(&reply.state),
            table,
            written,
            area: None,
        }
    }

    /// After an input that is accepted.
    pub fn after(mut self, input: Input) -> Scene {
        let state = state(&self.kiosk).expect("a state that calls left");
        self.written.truncate(state.used);
        self.written.resize(state.used + 98, 0);
        let reply = second::put(&state, &input, &mut self.table, &mut self.written);
        assert_eq!(reply.number, 0, "{input:?}");
        self.written.truncate(reply.state.used);
        self.kiosk = flat_state(&reply.state);
        self
    }

    pub fn with(mut self, change: impl FnOnce(&mut Kiosk)) -> Scene {
        change(&mut self.kiosk);
        self
    }

    pub fn named(mut self, place: usize, name: u64) -> Scene {
        self.table[place] = name;
        self
    }

    pub fn area(mut self, area: usize) -> Scene {
        self.area = Some(area);
        self
    }

    pub fn round(self, round: u8) -> Scene {
        self.with(|k| k.round = round)
    }

    pub fn at_prevote(self) -> Scene {
        self.with(|k| k.step = flat::PREVOTE)
    }

    pub fn at_precommit(self) -> Scene {
        self.with(|k| k.step = flat::PRECOMMIT)
    }

    /// The marks of the timers of propose, prevote and precommit, and of rule 36.
    pub fn marks(self, propose: u8, prevote: u8, precommit: u8, backed: u8) -> Scene {
        self.with(|k| {
            k.asked_propose = propose;
            k.asked_prevote = prevote;
            k.asked_precommit = precommit;
            k.backed = backed;
        })
    }

    pub fn locked(self, round: u8, name: u64) -> Scene {
        self.with(|k| (k.locked_next, k.locked_name) = (round + 1, name))
    }

    pub fn valid(self, round: u8, name: u64) -> Scene {
        self.with(|k| (k.valid_next, k.valid_name) = (round + 1, name))
    }

    /// A proposal with verdict 1; `vr` is its valid round, -1 for none.
    pub fn good(self, round: usize, name: u64, vr: i8) -> Scene {
        self.proposed(round, name, vr, GOOD)
    }

    pub fn bad(self, round: usize, name: u64, vr: i8) -> Scene {
        self.proposed(round, name, vr, BAD)
    }

    /// `proposal` is what the log has of it: 1 for a bad one, any greater number for a good one.
    pub fn proposed(self, round: usize, name: u64, vr: i8, proposal: u32) -> Scene {
        self.named(65 * round, name).with(|k| {
            k.log[round][heard::PROPOSAL] = proposal;
            k.log[round][heard::VALID] = (vr + 1) as u32;
        })
    }

    pub fn prevotes(mut self, round: usize, votes: &[Vote]) -> Scene {
        for &(seat, name) in votes {
            self.kiosk.log[round][heard::PREVOTES] |= 1 << seat;
            self.table[65 * round + 1 + seat] = name;
        }
        self
    }

    pub fn precommits(mut self, round: usize, votes: &[Vote]) -> Scene {
        for &(seat, name) in votes {
            self.kiosk.log[round][heard::PRECOMMITS] |= 1 << seat;
            self.table[65 * round + 33 + seat] = name;
        }
        self
    }

    /// Inputs of its height, with 01's offer.
    fn input(&self, kind: u8, sender: u8, round: u8, name: u64) -> Input {
        Input {
            kind,
            sender,
            round,
            name,
            ..inputs::start(self.kiosk.height, 9)
        }
    }

    pub fn start(&self) -> Input {
        self.input(1, 0, 0, 0)
    }

    /// By the round's proposer; `vr` is its valid round, -1 for none.
    pub fn proposal(&self, round: u8, name: u64, vr: i8, verdict: u8) -> Input {
        let turn = u64::from(self.kiosk.height) + u64::from(round);
        let proposer = turn % self.kiosk.kiosks as u64;
        Input {
            valid: (vr + 1) as u8,
            verdict,
            ..self.input(2, proposer as u8, round, name)
        }
    }

    pub fn prevote(&self, sender: u8, round: u8, name: u64) -> Input {
        self.input(3, sender, round, name)
    }

    pub fn precommit(&self, sender: u8, round: u8, name: u64) -> Input {
        self.input(4, sender, round, name)
    }

    /// The timer of propose, prevote or precommit: kind 5, 6 or 7.
    pub fn timer(&self, kind: u8, round: u8) -> Input {
        self.input(kind, 0, round, 0)
    }
}

pub fn offering(offer: u64, input: Input) -> Input {
    Input { offer, ..input }
}
