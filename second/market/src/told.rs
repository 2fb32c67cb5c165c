//! What happened in a height: one line an event.

use crate::radio::Letter;
use crate::story::Time;
use crate::words::{Answer, Input, Kind, Output, Sheet};
use std::fmt;

/// One event, at one kiosk.
#[derive(Clone, PartialEq, Eq, Debug)]
pub struct Moment {
    pub at: Time,
    pub kiosk: usize,
    pub what: What,
}

#[derive(Clone, PartialEq, Eq, Debug)]
pub enum What {
    /// A call and its answer; with the letter that brought its message.
    Call {
        input: Input,
        letter: Option<Letter>,
        answer: Answer,
    },
    /// The power goes in the middle of a call: so many bytes of its group are left.
    Torn {
        input: Input,
        letter: Option<Letter>,
        left: u64,
        of: u64,
    },
    /// The power goes between two calls.
    Cut,
    /// The power went while the journal was created.
    TornHeader {
        left: u64,
        of: u64,
    },
    Wakes {
        kept: u64,
        read: u64,
        round: Option<u8>,
        /// What its node says again.
        again: Vec<Output>,
    },
    Full(u64),
    Room,
    /// A letter comes while there is no power.
    Missed(Letter),
    /// The radio loses a letter.
    Lost(Letter),
    /// On its slow tick the kiosk says so many messages again.
    Again(usize),
    /// A rule-breaker says these sheets, each to its own hearers.
    Lies {
        kind: Kind,
        round: u8,
        faces: Vec<(u64, Vec<usize>)>,
    },
}

/// A time as `12.40`.
pub struct Clock(pub Time);

impl fmt::Display for Clock {
    fn fmt(&self, f: &mut fmt::Formatter) -> fmt::Result {
        f.pad(&format!("{}.{:02}", self.0 / 100, self.0 % 100))
    }
}

impl Moment {
    /// What a brief telling has: whoever says or settles something, refusals that tell of trouble, and power and room.
    pub fn in_brief(&self) -> bool {
        match &self.what {
            What::Call {
                answer: Answer::Accepted(outputs),
                ..
            } => !outputs.is_empty(),
            What::Call {
                answer: Answer::Refused(number),
                ..
            } => !matches!(number, 2 | 3 | 8 | 9 | 10),
            What::Missed(_) | What::Lost(_) | What::Again(_) => false,
            _ => true,
        }
    }
}

impl fmt::Display for Moment {
    fn fmt(&self, f: &mut fmt::Formatter) -> fmt::Result {
        write!(f, "{:>7} kiosk {}{}", Clock(self.at), self.kiosk, self.what)
    }
}

/// What goes on after the kiosk's name.
impl fmt::Display for What {
    fn fmt(&self, f: &mut fmt::Formatter) -> fmt::Result {
        match self {
            What::Call { input, answer, .. } => write!(f, "{input}: {answer}"),
            What::Torn {
                input, left, of, ..
            } => {
                write!(f, "{input}, and LOSES POWER in the middle of the call: {left} of the group's {of} bytes are in the file")
            }
            What::Cut => write!(f, " LOSES POWER"),
            What::TornHeader { left, of } => {
                write!(f, " LOSES POWER while its journal is created: {left} of the header's {of} bytes are in the file; created again")
            }
            What::Wakes {
                kept,
                read,
                round,
                again,
            } => {
                write!(
                    f,
                    " has power again and opens its journal: {kept} of {read} bytes kept, "
                )?;
                match round {
                    Some(round) => write!(f, "in round {round}")?,
                    None => write!(f, "not started")?,
                }
                if again.is_empty() {
                    return write!(f, "; nothing is to be said again");
                }
                let said = |output: &Output| match output {
                    Output::Say(_, of, ..) if Some(*of) != *round => {
                        format!("{output} in round {of}")
                    }
                    _ => output.to_string(),
                };
                let said: Vec<String> = again.iter().map(said).collect();
                write!(f, "; again it {}", said.join(", "))
            }
            What::Full(room) => write!(f, "'s partition is FULL but for {room} bytes"),
            What::Room => write!(f, "'s partition has room again"),
            What::Missed(letter) => write!(f, " has no power and misses {}", letter.message),
            What::Lost(letter) => {
                write!(f, " does not hear {}: the radio loses it", letter.message)
            }
            What::Again(1) => write!(f, " says 1 message again"),
            What::Again(count) => write!(f, " says {count} messages again"),
            What::Lies { kind, round, faces } => {
                let face = |(name, to): &(u64, Vec<usize>)| {
                    let to: Vec<String> = to.iter().map(usize::to_string).collect();
                    format!("{} to {}", Sheet(*name), to.join(" "))
                };
                let faces: Vec<String> = faces.iter().map(face).collect();
                write!(
                    f,
                    " BREAKS THE RULES: says {}, round {round}, {}",
                    kind.word(),
                    faces.join(", and ")
                )
            }
        }
    }
}
