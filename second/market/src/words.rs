//! Messages, inputs and outputs, read and written in the lister's words, and said in sentences.

use std::fmt;

/// What kiosks say to each other.
#[derive(Clone, Copy, PartialEq, Eq, PartialOrd, Ord, Debug)]
pub enum Kind {
    Proposal,
    Prevote,
    Precommit,
}

/// The three timers.
#[derive(Clone, Copy, PartialEq, Eq, PartialOrd, Ord, Debug)]
pub enum Timer {
    Propose,
    Prevote,
    Precommit,
}

/// A message with its verified sender. Name 0 is nil; valid is -1 or a round, and -1 in a vote.
#[derive(Clone, Copy, PartialEq, Eq, PartialOrd, Ord, Debug)]
pub struct Message {
    pub kind: Kind,
    pub sender: usize,
    pub round: u8,
    pub name: u64,
    pub valid: i16,
}

/// One input, without the offer that every input carries.
#[derive(Clone, Copy, PartialEq, Eq, Debug)]
pub enum Input {
    Start,
    /// A message, and whether its sheet is judged good; votes carry no verdict.
    Hear(Message, bool),
    Ring(Timer, u8),
}

#[derive(Clone, Copy, PartialEq, Eq, Debug)]
pub enum Output {
    /// Kind, round, name, valid round.
    Say(Kind, u8, u64, i16),
    Ask(Timer, u8),
    /// Round and name.
    Settled(u8, u64),
}

/// What a node answers to an input.
#[derive(Clone, PartialEq, Eq, Debug)]
pub enum Answer {
    Accepted(Vec<Output>),
    Refused(u8),
}

/// What a run says first: messages to send again, and timers to start again.
#[derive(Clone, Default, PartialEq, Eq, Debug)]
pub struct Again {
    pub messages: Vec<Output>,
    pub timers: Vec<Output>,
}

/// A whole record of a journal: the input, its offer, the outputs.
#[derive(Clone, PartialEq, Eq, Debug)]
pub struct Record {
    pub input: Input,
    pub offer: u64,
    pub outputs: Vec<Output>,
}

/// A listing read back.
#[derive(Clone, PartialEq, Eq, Debug)]
pub struct Listing {
    pub records: Vec<Record>,
    /// Bytes kept and bytes read, of the last line.
    pub kept: u64,
    pub read: u64,
}

impl Kind {
    pub const ALL: [Kind; 3] = [Kind::Proposal, Kind::Prevote, Kind::Precommit];

    pub fn word(self) -> &'static str {
        match self {
            Kind::Proposal => "proposal",
            Kind::Prevote => "prevote",
            Kind::Precommit => "precommit",
        }
    }
}

impl Timer {
    pub const ALL: [Timer; 3] = [Timer::Propose, Timer::Prevote, Timer::Precommit];

    pub fn word(self) -> &'static str {
        match self {
            Timer::Propose => "propose",
            Timer::Prevote => "prevote",
            Timer::Precommit => "precommit",
        }
    }
}

impl Input {
    /// The line that a node reads.
    pub fn line(&self, offer: u64) -> String {
        match *self {
            Input::Start => format!("start 0 0 0 -1 0 {offer}"),
            Input::Ring(timer, round) => format!("timer-{} 0 {round} 0 -1 0 {offer}", timer.word()),
            Input::Hear(m, good) => {
                let verdict = u8::from(good && m.kind == Kind::Proposal);
                let (word, sender, round, name, valid) =
                    (m.kind.word(), m.sender, m.round, m.name, m.valid);
                format!("{word} {sender} {round} {name} {valid} {verdict} {offer}")
            }
        }
    }

    /// Reads the words of a call line after its place, and gives the offer too.
    pub fn read(words: &[&str]) -> Option<(Input, u64)> {
        let &[kind, sender, round, name, valid, verdict, offer] = words else {
            return None;
        };
        let (round, offer) = (round.parse().ok()?, offer.parse().ok()?);
        let timer = |word: &str| Timer::ALL.into_iter().find(|timer| timer.word() == word);
        let input = match kind.strip_prefix("timer-") {
            Some(word) => Input::Ring(timer(word)?, round),
            None if kind == "start" => Input::Start,
            None => Input::Hear(
                Message {
                    kind: kind_of(kind)?,
                    sender: sender.parse().ok()?,
                    round,
                    name: name.parse().ok()?,
                    valid: valid.parse().ok()?,
                },
                verdict == "1",
            ),
        };
        Some((input, offer))
    }
}

fn kind_of(word: &str) -> Option<Kind> {
    Kind::ALL.into_iter().find(|kind| kind.word() == word)
}

impl Output {
    /// Reads `out KIND ROUND NAME VALID`.
    pub fn read(line: &str) -> Option<Output> {
        let words: Vec<&str> = line.split(' ').collect();
        let &["out", kind, round, name, valid] = words.as_slice() else {
            return None;
        };
        let (round, name, valid) = (round.parse().ok()?, name.parse().ok()?, valid.parse().ok()?);
        if let Some(word) = kind.strip_prefix("ask-") {
            let timer = Timer::ALL.into_iter().find(|timer| timer.word() == word)?;
            return Some(Output::Ask(timer, round));
        }
        match kind {
            "settled" => Some(Output::Settled(round, name)),
            _ => Some(Output::Say(kind_of(kind)?, round, name, valid)),
        }
    }

    /// The message that goes on the air, from this kiosk.
    pub fn message(&self, sender: usize) -> Option<Message> {
        match *self {
            Output::Say(kind, round, name, valid) => Some(Message {
                kind,
                sender,
                round,
                name,
                valid,
            }),
            _ => None,
        }
    }
}

impl Listing {
    /// Reads the text of `node list`; what it cannot read it gives back as the error.
    pub fn read(text: &str) -> Result<Listing, String> {
        let mut listing = Listing {
            records: Vec::new(),
            kept: 0,
            read: 0,
        };
        let mut ended = false;
        for line in text.lines().skip(1) {
            let bad = || format!("this line of the listing is not in its words: {line}");
            let words: Vec<&str> = line.split(' ').collect();
            match words[0] {
                _ if ended => return Err(bad()),
                "out" => {
                    let output = Output::read(line).ok_or_else(bad)?;
                    listing
                        .records
                        .last_mut()
                        .ok_or_else(bad)?
                        .outputs
                        .push(output);
                }
                "end" if words.len() == 4 => {
                    listing.kept = words[1].parse().map_err(|_| bad())?;
                    listing.read = words[3].parse().map_err(|_| bad())?;
                    ended = true;
                }
                _ => {
                    let (input, offer) = Input::read(&words[1..]).ok_or_else(bad)?;
                    listing.records.push(Record {
                        input,
                        offer,
                        outputs: Vec::new(),
                    });
                }
            }
        }
        if ended {
            Ok(listing)
        } else {
            Err(format!("it does not list: {}", text.trim_end()))
        }
    }

    /// Round and sheet, if the journal says that its kiosk settled.
    pub fn settled(&self) -> Option<(u8, u64)> {
        settled_in(&self.records)
    }
}

/// Round and sheet of the settling output, if there is one.
pub fn settled_in(records: &[Record]) -> Option<(u8, u64)> {
    records
        .iter()
        .flat_map(|record| &record.outputs)
        .find_map(|output| match *output {
            Output::Settled(round, name) => Some((round, name)),
            _ => None,
        })
}

/// A sheet's name, or nil.
pub struct Sheet(pub u64);

impl fmt::Display for Sheet {
    fn fmt(&self, f: &mut fmt::Formatter) -> fmt::Result {
        match self.0 {
            0 => write!(f, "nil"),
            name => write!(f, "sheet {name}"),
        }
    }
}

impl fmt::Display for Message {
    fn fmt(&self, f: &mut fmt::Formatter) -> fmt::Result {
        write!(
            f,
            "{} of {}, round {}, {}",
            self.kind.word(),
            self.sender,
            self.round,
            Sheet(self.name)
        )?;
        if self.valid >= 0 {
            write!(f, ", valid in round {}", self.valid)?;
        }
        Ok(())
    }
}

/// What goes on after the kiosk's name.
impl fmt::Display for Input {
    fn fmt(&self, f: &mut fmt::Formatter) -> fmt::Result {
        match self {
            Input::Start => write!(f, " starts"),
            Input::Ring(timer, round) => {
                write!(f, "'s {} timer rings, round {round}", timer.word())
            }
            Input::Hear(message, good) if message.kind == Kind::Proposal => {
                write!(
                    f,
                    " hears {message}, and judges it {}",
                    if *good { "good" } else { "bad" }
                )
            }
            Input::Hear(message, _) => write!(f, " hears {message}"),
        }
    }
}

impl fmt::Display for Output {
    fn fmt(&self, f: &mut fmt::Formatter) -> fmt::Result {
        match self {
            Output::Say(kind, _, name, valid) => {
                write!(f, "says {} for {}", kind.word(), Sheet(*name))?;
                if *valid >= 0 {
                    write!(f, " valid in round {valid}")?;
                }
                Ok(())
            }
            Output::Ask(timer, _) => write!(f, "asks for the {} timer", timer.word()),
            Output::Settled(round, name) => write!(f, "SETTLES {} of round {round}", Sheet(*name)),
        }
    }
}

impl fmt::Display for Answer {
    fn fmt(&self, f: &mut fmt::Formatter) -> fmt::Result {
        let outputs = match self {
            Answer::Refused(number) => return write!(f, "refused {number}, {}", why(*number)),
            Answer::Accepted(outputs) => outputs,
        };
        write!(f, "accepted")?;
        if let Some(round) = entered(outputs).filter(|&round| round > 0) {
            write!(f, ", enters round {round}")?;
        }
        outputs
            .iter()
            .try_for_each(|output| write!(f, ", {output}"))
    }
}

/// The round that a call with these outputs entered: each entering proposes or asks for the propose timer.
pub fn entered(outputs: &[Output]) -> Option<u8> {
    outputs.iter().find_map(|output| match *output {
        Output::Say(Kind::Proposal, round, ..) | Output::Ask(Timer::Propose, round) => Some(round),
        _ => None,
    })
}

/// 01's table of refusals, in a few words.
pub fn why(number: u8) -> &'static str {
    match number {
        1 => "impossible",
        2 => "already settled",
        3 => "not started, or started twice",
        4 => "other height",
        5 => "a field outside the rules",
        6 => "its own number",
        7 => "not from that round's proposer",
        8 => "heard already",
        9 => "heard otherwise",
        10 => "timer no longer current",
        11 => "no round after 15",
        12 => "no room",
        13 => "header not complete",
        14 => "damage",
        15 => "roll or own number",
        _ => "no such refusal",
    }
}

#[cfg(test)]
mod tests {
    use super::*;

    /// 01's whole listing is read, and each of its call lines is written again.
    #[test]
    fn a_listing_is_read_and_its_lines_are_written_again() {
        let text = "height 1 kiosk 0 of 4 power 4\n1 start 0 0 0 -1 0 9\nout ask-propose 0 0 -1\n\
                    2 proposal 1 0 50 -1 1 9\nout prevote 0 50 -1\n3 timer-prevote 0 0 0 -1 0 9\n\
                    out precommit 0 0 -1\nend 141 of 150\n";
        let listing = Listing::read(text).unwrap();
        assert_eq!((listing.kept, listing.read), (141, 150));
        for (record, line) in listing
            .records
            .iter()
            .zip(["start 0 0 0 -1 0 9", "proposal 1 0 50 -1 1 9"])
        {
            assert_eq!(record.input.line(record.offer), line);
        }
        assert_eq!(listing.records[2].input, Input::Ring(Timer::Prevote, 0));
        assert_eq!(
            listing.records[1].outputs,
            [Output::Say(Kind::Prevote, 0, 50, -1)]
        );
    }

    #[test]
    fn what_is_no_listing_is_said() {
        assert!(Listing::read("refused 13\n")
            .unwrap_err()
            .contains("refused 13"));
        assert!(Listing::read("height 1 kiosk 0 of 4 power 4\nout prevote 0 50 -1\n").is_err());
        assert!(
            Listing::read("height 1 kiosk 0 of 4 power 4\n1 shout 0 0 0 -1 0 9\nend 1 of 1\n")
                .is_err()
        );
    }

    #[test]
    fn sentences_are_in_the_words_of_the_request() {
        let message = Message {
            kind: Kind::Prevote,
            sender: 1,
            round: 0,
            name: 9,
            valid: -1,
        };
        assert_eq!(
            Input::Hear(message, false).to_string(),
            " hears prevote of 1, round 0, sheet 9"
        );
        let answer = Answer::Accepted(vec![Output::Say(Kind::Precommit, 0, 0, -1)]);
        assert_eq!(answer.to_string(), "accepted, says precommit for nil");
        assert_eq!(Answer::Refused(9).to_string(), "refused 9, heard otherwise");
    }
}
