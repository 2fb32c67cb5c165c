//! What the tests share: inputs and outputs in few words, and a bench that checks
//! 01's promises at every call.

// Each test program uses its own part of this.
#![allow(dead_code)]

pub mod market;

pub use compare::calls::JUNK;
pub use compare::inputs::*;
use second::*;

pub const NIL: u64 = 0;

pub fn out(kind: u8, round: u8, name: u64) -> Output {
    Output {
        kind,
        round,
        valid: 0,
        name,
    }
}

pub const PROPOSAL: u8 = 1;
pub const PREVOTE: u8 = 2;
pub const PRECOMMIT: u8 = 3;
pub const ASK_PROPOSE: u8 = 4;
pub const ASK_PREVOTE: u8 = 5;
pub const ASK_PRECOMMIT: u8 = 6;
pub const SETTLED: u8 = 7;

/// A kiosk's lent things, with the state of the last call.
#[derive(Clone)]
pub struct Bench {
    pub state: State,
    pub table: Vec<u64>,
    pub journal: Vec<u8>,
}

impl Bench {
    /// A kiosk that has created and opened its journal in a roomy area.
    pub fn new(powers: &[u16], own: usize, height: u32) -> Bench {
        Bench::with_area(powers, own, height, roomy(powers.len()))
    }

    pub fn with_area(powers: &[u16], own: usize, height: u32, area: usize) -> Bench {
        let mut journal = vec![JUNK; area];
        let created = create(powers, own, height, &mut journal);
        assert_eq!(created.number, 0);
        assert_eq!(created.used, 7 + 2 * powers.len());
        assert!(journal[created.used..].iter().all(|&b| b == JUNK));
        let mut table = vec![u64::MAX; TABLE];
        let reply = open(&journal, created.used, &mut table);
        assert_eq!((reply.number, reply.place), (0, 0));
        assert!(table.iter().all(|&name| name == 0));
        Bench {
            state: reply.state,
            table,
            journal,
        }
    }

    /// Four kiosks of power 1, height 1, own number 0: 01's examples.
    pub fn four() -> Bench {
        Bench::new(&[1; 4], 0, 1)
    }

    /// Puts an input and checks what 01 promises of every call.
    pub fn put(&mut self, input: &Input) -> Reply {
        self.put_traced(input).0
    }

    pub fn put_traced(&mut self, input: &Input) -> (Reply, Vec<u8>) {
        let before = self.clone();
        let (reply, fired) = put_traced(&self.state, input, &mut self.table, &mut self.journal);
        assert_eq!(reply.place, 0);
        if reply.number != 0 {
            assert_eq!(reply.state, before.state);
            assert!(self.table == before.table, "a refusal changed the table");
            assert!(
                self.journal == before.journal,
                "a refusal changed the journal"
            );
            assert!(reply.outputs.is_empty() && fired.is_empty());
            return (reply, fired);
        }
        assert!(reply.outputs.len() <= 6);
        let used = before.state.used;
        let group = group(input, &reply.outputs);
        let end = used + group.len();
        assert_eq!((reply.state.last, reply.state.used), (used, end));
        assert!(self.journal[..used] == before.journal[..used]);
        assert_eq!(self.journal[used..end], group);
        assert!(self.journal[end..] == before.journal[end..]);
        assert_eq!(last(&reply.state, &self.journal), group);
        self.state = reply.state.clone();
        (reply, fired)
    }

    /// Puts an input that must be accepted, and gives its outputs.
    pub fn outputs(&mut self, input: &Input) -> Vec<Output> {
        let reply = self.put(input);
        assert_eq!(reply.number, 0, "{input:?}");
        reply.outputs
    }

    /// Puts an input that must be refused, and gives the number.
    pub fn refused(&mut self, input: &Input) -> u8 {
        let reply = self.put(input);
        assert_ne!(reply.number, 0, "{input:?}");
        reply.number
    }

    /// What the used bytes give when they are opened.
    pub fn reopened(&self) -> (Reply, Vec<u64>) {
        let mut table = vec![7; TABLE];
        let reply = open(&self.journal, self.state.used, &mut table);
        (reply, table)
    }

    /// "What is written opens again as the state and table that the calls left."
    pub fn check_reopens(&self) {
        let (reply, table) = self.reopened();
        assert_eq!((reply.number, reply.place), (0, 0));
        assert_eq!(reply.state, self.state);
        assert!(table == self.table);
    }

    /// "Places not heard hold 0", and no rule applies: a put of another height
    /// would otherwise be refused with 1.
    pub fn check_rest(&mut self) {
        for (r, heard) in self.state.rounds.iter().enumerate() {
            let names = &self.table[65 * r..65 * (r + 1)];
            assert!(heard.proposal <= 2);
            assert!(heard.proposal != 0 || (names[0] == 0 && heard.valid == 0));
            for seat in 0..SEATS {
                assert!(heard.prevotes & (1 << seat) != 0 || names[1 + seat] == 0);
                assert!(heard.precommits & (1 << seat) != 0 || names[33 + seat] == 0);
            }
        }
        let expected = match self.state.phase {
            Phase::Fresh => 3,
            Phase::Running => 4,
            Phase::Settled(_) => 2,
        };
        let elsewhere = timer(self.state.height.wrapping_add(1), 5, 0);
        assert_eq!(self.refused(&elsewhere), expected);
    }
}

/// The bytes of a group, written out from 01's words alone.
pub fn group(input: &Input, outputs: &[Output]) -> Vec<u8> {
    let mut bytes = vec![
        24,
        input.kind,
        input.sender,
        input.round,
        input.valid,
        input.verdict,
        0,
        0,
        0,
    ];
    bytes.extend_from_slice(&input.name.to_le_bytes());
    bytes.extend_from_slice(&input.offer.to_le_bytes());
    bytes.push(outputs.len() as u8);
    for output in outputs {
        bytes.extend_from_slice(&[output.kind, output.round, output.valid, 0]);
        bytes.extend_from_slice(&output.name.to_le_bytes());
    }
    bytes
}
