//! A rule-keeping kiosk: its journal on a real file, the node that runs on it, and what its driver remembers of it.

use crate::checks::{self, Broken};
use crate::node::{Node, Running};
use crate::story::Story;
use crate::words::{
    entered, settled_in, Again, Answer, Input, Kind, Listing, Message, Output, Record,
};
use std::fs::File;
use std::path::{Path, PathBuf};

pub struct Kiosk {
    pub seat: usize,
    pub journal: PathBuf,
    node: Node,
    running: Option<Running>,
    /// The records whose answers were read, and after a cut those that the journal lists.
    pub records: Vec<Record>,
    /// The length of the file up to which answers were read: no cut goes below.
    pub durable: u64,
    /// How long the file can become, while the partition is full.
    limit: Option<u64>,
    /// Calls accepted since the beginning, those whose answer a cut took too.
    pub accepted: usize,
    /// How often it had power: a timer of an earlier time does not ring.
    pub life: usize,
    ticks: usize,
}

/// What waking finds: bytes kept, bytes that the cut had left, and what the node says again.
pub struct Woken {
    pub kept: u64,
    pub read: u64,
    pub again: Again,
}

/// The length of a group: 26 + 12k.
pub fn group_length(outputs: &[Output]) -> u64 {
    26 + 12 * outputs.len() as u64
}

/// The length of the header: 7 + 2n.
pub fn header_length(story: &Story) -> u64 {
    7 + 2 * story.kiosks() as u64
}

impl Kiosk {
    /// Creates the journal, after a first time whose power cut left `torn` bytes of the header.
    pub fn create(
        node: &Node,
        story: &Story,
        seat: usize,
        folder: &Path,
        torn: Option<u64>,
    ) -> Result<Kiosk, Broken> {
        let journal = folder.join(format!("kiosk-{seat}.journal"));
        let expected = format!("created {}", header_length(story));
        let create = || -> Result<(), Broken> {
            let answer = node.create(&journal, seat, story.height, &story.powers)?;
            checks::answered("create", &answer, &expected)
        };
        create()?;
        if let Some(left) = torn {
            cut(&journal, left)?;
            checks::answered("list", node.list(&journal)?.trim_end(), "refused 13")?;
            create()?;
        }
        let mut kiosk = Kiosk {
            seat,
            node: node.clone(),
            running: None,
            records: Vec::new(),
            durable: header_length(story),
            limit: None,
            accepted: 0,
            life: 0,
            ticks: 0,
            journal,
        };
        kiosk.run()?;
        Ok(kiosk)
    }

    /// Runs the node, which says first what is to be said again.
    fn run(&mut self) -> Result<Again, Broken> {
        let (running, again) = self.node.run(&self.journal)?;
        checks::said_again(self.seat, &std::fs::read(&self.journal)?, &again)?;
        running.limit(self.limit)?;
        self.running = Some(running);
        self.life += 1;
        Ok(again)
    }

    pub fn awake(&self) -> bool {
        self.running.is_some()
    }

    /// One input. What is accepted is in the file when its answer is read; the caller then keeps it, or cuts the power.
    pub fn put(&mut self, input: Input, offer: u64) -> Result<Answer, Broken> {
        let running = self
            .running
            .as_mut()
            .expect("only a kiosk with power is asked");
        let answer = running.put(&input.line(offer))?;
        let length = std::fs::metadata(&self.journal)?.len();
        match &answer {
            Answer::Accepted(outputs) => {
                self.accepted += 1;
                checks::written(self.seat, self.durable + group_length(outputs), length)?;
            }
            Answer::Refused(_) => checks::written(self.seat, self.durable, length)?,
        }
        Ok(answer)
    }

    /// The answer of an accepted call was read: its bytes stay.
    pub fn keep(&mut self, record: Record) {
        self.durable += group_length(&record.outputs);
        self.records.push(record);
    }

    /// kill -9, and so many bytes past the durable ones are left.
    pub fn lose_power(&mut self, left: u64) -> Result<(), Broken> {
        if let Some(running) = self.running.take() {
            running.kill()?;
        }
        cut(&self.journal, self.durable + left).map_err(Broken::from)
    }

    /// Power again: the journal is listed as the cut left it, then the node runs on it.
    pub fn wake(&mut self) -> Result<Woken, Broken> {
        let listing = self.listing()?;
        checks::remembered(self.seat, self.durable, &self.records, &listing)?;
        self.durable = listing.kept;
        self.records = listing.records;
        let again = self.run()?;
        let length = std::fs::metadata(&self.journal)?.len();
        checks::written(self.seat, self.durable, length)?;
        Ok(Woken {
            kept: listing.kept,
            read: listing.read,
            again,
        })
    }

    /// Its partition is full but for so many bytes; None makes room again.
    pub fn limit(&mut self, room: Option<u64>) -> Result<(), Broken> {
        self.limit = room.map(|room| self.durable + room);
        match &self.running {
            Some(running) => running.limit(self.limit).map_err(Broken::from),
            None => Ok(()),
        }
    }

    pub fn full(&self) -> bool {
        self.limit.is_some()
    }

    /// The end of the height: the node ends, and its journal is listed.
    pub fn close(&mut self) -> Result<String, Broken> {
        if let Some(running) = self.running.take() {
            running.end()?;
        }
        self.node.list(&self.journal).map_err(Broken::from)
    }

    fn listing(&self) -> Result<Listing, Broken> {
        let text = self.node.list(&self.journal)?;
        checks::lists(self.seat, &text, &std::fs::read(&self.journal)?)
    }

    pub fn started(&self) -> bool {
        !self.records.is_empty()
    }

    pub fn settled(&self) -> Option<(u8, u64)> {
        settled_in(&self.records)
    }

    /// The round that it entered last.
    pub fn round(&self) -> Option<u8> {
        self.records
            .iter()
            .rev()
            .find_map(|record| entered(&record.outputs))
    }

    /// What it says again on its slow tick, from its journal. Running: its own messages of its round, the proposal that it heard
    /// there, and its own of one earlier round, each in its turn. Settled: the proposal and the precommits that settled it.
    pub fn again(&mut self) -> Vec<Message> {
        self.ticks += 1;
        let Some(round) = self.round() else {
            return Vec::new();
        };
        let earlier = (self.ticks % (usize::from(round) + 1)) as u8;
        let settled = self.settled();
        let wanted = |message: &Message| match settled {
            Some((round, name)) => {
                message.round == round && message.name == name && message.kind != Kind::Prevote
            }
            None if message.sender == self.seat => {
                message.round == round || message.round == earlier
            }
            None => message.round == round && message.kind == Kind::Proposal,
        };
        self.held().into_iter().filter(wanted).collect()
    }

    /// The messages of its journal, heard and said.
    fn held(&self) -> Vec<Message> {
        let mut held = Vec::new();
        for record in &self.records {
            if let Input::Hear(message, _) = record.input {
                held.push(message);
            }
            held.extend(
                record
                    .outputs
                    .iter()
                    .filter_map(|output| output.message(self.seat)),
            );
        }
        held
    }
}

/// What a power cut leaves of a file.
fn cut(journal: &Path, length: u64) -> std::io::Result<()> {
    File::options().write(true).open(journal)?.set_len(length)
}

#[cfg(test)]
mod tests {
    use super::*;
    use crate::words::Timer;

    /// A kiosk without power whose journal lists these calls.
    fn kiosk(calls: &str) -> Kiosk {
        let text = format!("height 1 kiosk 0 of 4 power 4\n{calls}end 0 of 0\n");
        Kiosk {
            seat: 0,
            journal: PathBuf::new(),
            node: Node::new("none").expect("a command"),
            running: None,
            records: Listing::read(&text).expect("a listing").records,
            durable: 0,
            limit: None,
            accepted: 0,
            life: 0,
            ticks: 0,
        }
    }

    const ROUND_0: &str = "1 start 0 0 0 -1 0 9\nout ask-propose 0 0 -1\n\
                           2 proposal 1 0 50 -1 1 9\nout prevote 0 50 -1\n\
                           3 prevote 1 0 50 -1 0 9\n4 prevote 2 0 0 -1 0 9\nout ask-prevote 0 0 -1\n";
    const ROUND_1: &str = "5 timer-prevote 0 0 0 -1 0 9\nout precommit 0 0 -1\n\
                           6 precommit 1 0 0 -1 0 9\n7 precommit 2 0 0 -1 0 9\nout ask-precommit 0 0 -1\n\
                           8 timer-precommit 0 0 0 -1 0 9\nout ask-propose 1 0 -1\n";

    fn said(kiosk: &mut Kiosk) -> Vec<String> {
        kiosk.again().iter().map(Message::to_string).collect()
    }

    #[test]
    fn on_its_tick_it_says_its_round_again_and_the_proposal_that_it_heard() {
        assert!(said(&mut kiosk("")).is_empty());
        let expected = [
            "proposal of 1, round 0, sheet 50",
            "prevote of 0, round 0, sheet 50",
        ];
        assert_eq!(said(&mut kiosk(ROUND_0)), expected);
    }

    /// In round 1 it has said nothing yet; of round 0 its own messages come in their turn.
    #[test]
    fn earlier_rounds_come_in_their_turn() {
        let mut later = kiosk(&format!("{ROUND_0}{ROUND_1}"));
        let turns = [said(&mut later), said(&mut later)];
        let own = [
            "prevote of 0, round 0, sheet 50",
            "precommit of 0, round 0, nil",
        ];
        assert_eq!(turns, [vec![], own.map(String::from).to_vec()]);
    }

    #[test]
    fn once_settled_it_says_what_settled_it() {
        let settling =
            "5 prevote 3 0 50 -1 0 9\nout precommit 0 50 -1\n6 precommit 1 0 50 -1 0 9\n\
                        7 precommit 2 0 50 -1 0 9\nout ask-precommit 0 0 -1\nout settled 0 50 -1\n";
        let mut settled = kiosk(&format!("{ROUND_0}{settling}"));
        assert_eq!(settled.settled(), Some((0, 50)));
        let expected = [
            "proposal of 1, round 0, sheet 50",
            "precommit of 0, round 0, sheet 50",
            "precommit of 1, round 0, sheet 50",
            "precommit of 2, round 0, sheet 50",
        ];
        assert_eq!(said(&mut settled), expected);
    }

    #[test]
    fn lengths_are_those_of_the_layout() {
        assert_eq!(group_length(&[]), 26);
        assert_eq!(group_length(&[Output::Ask(Timer::Propose, 0); 6]), 98);
        assert_eq!(header_length(&Story::told("plain").expect("named")), 15);
    }
}
