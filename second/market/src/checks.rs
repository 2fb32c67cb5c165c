//! What must hold of every height. Each check says what it found, in a line.

use crate::words::{Again, Listing, Message, Output, Record};
use std::collections::BTreeSet;
use std::fmt;
use std::io;

/// A check that does not hold, or a node that does not do its work.
#[derive(Debug, PartialEq, Eq)]
pub struct Broken(pub String);

impl fmt::Display for Broken {
    fn fmt(&self, f: &mut fmt::Formatter) -> fmt::Result {
        f.write_str(&self.0)
    }
}

impl From<io::Error> for Broken {
    fn from(error: io::Error) -> Broken {
        Broken(error.to_string())
    }
}

fn hold(holds: bool, otherwise: impl FnOnce() -> String) -> Result<(), Broken> {
    if holds {
        Ok(())
    } else {
        Err(Broken(otherwise()))
    }
}

/// No two rule-keeping kiosks settle different sheets. Given is who settled what.
pub fn one_sheet(settled: &[(usize, u64)]) -> Result<(), Broken> {
    let Some(&(first, sheet)) = settled.first() else {
        return Ok(());
    };
    match settled.iter().find(|(_, other)| *other != sheet) {
        None => Ok(()),
        Some((kiosk, other)) => Err(Broken(format!(
            "kiosk {first} settles sheet {sheet} and kiosk {kiosk} settles sheet {other}"
        ))),
    }
}

/// A journal lists, and in the same words as the second program lists its bytes.
pub fn lists(kiosk: usize, text: &str, bytes: &[u8]) -> Result<Listing, Broken> {
    let listing = Listing::read(text)
        .map_err(|why| Broken(format!("the journal of kiosk {kiosk}: {why}")))?;
    let same = text.as_bytes() == second::listing(bytes);
    hold(same, || {
        format!("the journal of kiosk {kiosk} is listed otherwise by the second program")
    })?;
    Ok(listing)
}

/// After the last run the file has no byte that is not kept.
pub fn all_kept(kiosk: usize, listing: &Listing) -> Result<(), Broken> {
    let (kept, read) = (listing.kept, listing.read);
    hold(kept == read, || {
        format!("the journal of kiosk {kiosk} keeps {kept} of its {read} bytes after the last run")
    })
}

/// Every message that rule-keeping kiosks put on the air is an output of its sender's journal.
pub fn in_journals(air: &BTreeSet<Message>, journals: &[(usize, Listing)]) -> Result<(), Broken> {
    let mut written = BTreeSet::new();
    for (kiosk, listing) in journals {
        let outputs = listing.records.iter().flat_map(|record| &record.outputs);
        written.extend(outputs.filter_map(|output| output.message(*kiosk)));
    }
    match air.difference(&written).next() {
        None => Ok(()),
        Some(message) => Err(Broken(format!(
            "on the air, and in no record of its sender: {message}"
        ))),
    }
}

/// Whatever was answered is listed, in that order, and nothing else.
pub fn answers_listed(kiosk: usize, records: &[Record], listing: &Listing) -> Result<(), Broken> {
    let same = records == listing.records;
    hold(same, || {
        format!("the journal of kiosk {kiosk} lists other records than its node answered")
    })
}

/// After a cut: every byte whose answer was read is kept, and every record answered is listed first.
pub fn remembered(
    kiosk: usize,
    durable: u64,
    records: &[Record],
    listing: &Listing,
) -> Result<(), Broken> {
    let kept = listing.kept;
    hold(kept >= durable, || {
        format!("kiosk {kiosk} keeps {kept} bytes after a cut, and had answered for {durable}")
    })?;
    let same = listing.records.starts_with(records);
    hold(same, || {
        format!("kiosk {kiosk} has forgotten a record that its node had answered")
    })
}

/// What a run says first is what the second program says of the journal's bytes.
pub fn said_again(kiosk: usize, bytes: &[u8], again: &Again) -> Result<(), Broken> {
    let said = [list(&again.messages), list(&again.timers)].concat();
    let mut area = vec![0; said.len()];
    let reply = second::say_again(bytes, bytes.len(), &mut [0; second::TABLE], &mut area);
    hold(reply.number == 0 && area == said, || {
        format!("kiosk {kiosk} says again otherwise than the second program: {again:?}")
    })
}

/// A count, and 12 bytes for each output.
fn list(outputs: &[Output]) -> Vec<u8> {
    let mut bytes = vec![outputs.len() as u8];
    for output in outputs {
        let (kind, round, valid, name) = match *output {
            Output::Say(kind, round, name, valid) => {
                (1 + kind as u8, round, (valid + 1) as u8, name)
            }
            Output::Ask(timer, round) => (4 + timer as u8, round, 0, 0),
            Output::Settled(round, name) => (7, round, 0, name),
        };
        bytes.extend([kind, round, valid, 0]);
        bytes.extend(name.to_le_bytes());
    }
    bytes
}

/// When an answer is read, the file has the bytes of what was accepted, and no others.
pub fn written(kiosk: usize, expected: u64, length: u64) -> Result<(), Broken> {
    hold(length == expected, || {
        format!("the file of kiosk {kiosk} has {length} bytes where its answers make {expected}")
    })
}

/// A command says what it must.
pub fn answered(command: &str, answer: &str, expected: &str) -> Result<(), Broken> {
    hold(answer == expected, || {
        format!("node {command} says `{answer}` where it must say `{expected}`")
    })
}

#[cfg(test)]
mod tests {
    use super::*;
    use crate::words::{Kind, Timer};

    const JOURNAL: &str =
        "height 1 kiosk 0 of 4 power 4\n1 start 0 0 0 -1 0 9\nout ask-propose 0 0 -1\n\
                           2 proposal 1 0 50 -1 1 9\nout prevote 0 50 -1\nend 91 of 91\n";

    fn listing() -> Listing {
        Listing::read(JOURNAL).unwrap()
    }

    fn prevote(sender: usize, name: u64) -> Message {
        Message {
            kind: Kind::Prevote,
            sender,
            round: 0,
            name,
            valid: -1,
        }
    }

    #[test]
    fn a_made_up_disagreement_is_found() {
        assert_eq!(one_sheet(&[]), Ok(()));
        assert_eq!(one_sheet(&[(0, 50), (2, 50), (3, 50)]), Ok(()));
        let broken = one_sheet(&[(0, 50), (2, 50), (3, 60)]).unwrap_err();
        assert_eq!(
            broken.0,
            "kiosk 0 settles sheet 50 and kiosk 3 settles sheet 60"
        );
    }

    #[test]
    fn a_message_that_no_journal_has_is_found() {
        let journals = [(0, listing())];
        assert_eq!(
            in_journals(&BTreeSet::from([prevote(0, 50)]), &journals),
            Ok(())
        );
        for (sender, name) in [(0, 60), (0, 0), (2, 50)] {
            let broken = in_journals(
                &BTreeSet::from([prevote(0, 50), prevote(sender, name)]),
                &journals,
            )
            .unwrap_err();
            assert!(
                broken.0.contains(&format!("prevote of {sender}")),
                "{broken}"
            );
        }
    }

    /// A message that was heard, and not said, does not make it the hearer's.
    #[test]
    fn what_a_journal_heard_it_has_not_said() {
        let heard = Message {
            kind: Kind::Proposal,
            sender: 0,
            round: 0,
            name: 50,
            valid: -1,
        };
        assert!(in_journals(&BTreeSet::from([heard]), &[(0, listing())]).is_err());
    }

    #[test]
    fn bytes_not_kept_are_found() {
        assert_eq!(all_kept(0, &listing()), Ok(()));
        let torn = Listing::read(&JOURNAL.replace("91 of 91", "91 of 99")).unwrap();
        assert!(all_kept(0, &torn).is_err());
    }

    #[test]
    fn a_journal_that_does_not_list_is_found() {
        assert!(lists(0, "refused 14 at 15\n", b"")
            .unwrap_err()
            .0
            .contains("refused 14 at 15"));
        assert!(lists(0, JOURNAL, b"").unwrap_err().0.contains("otherwise"));
        let mut journal = [0; 15];
        second::create(&[1, 1, 1, 1], 0, 1, &mut journal);
        let text = String::from_utf8(second::listing(&journal)).unwrap();
        assert!(lists(0, &text, &journal).is_ok());
    }

    #[test]
    fn a_forgotten_record_is_found() {
        let records = listing().records;
        assert_eq!(remembered(0, 91, &records, &listing()), Ok(()));
        assert_eq!(remembered(0, 53, &records[..1], &listing()), Ok(()));
        assert!(remembered(0, 92, &records, &listing()).is_err());
        let mut fewer = listing();
        fewer.records.pop();
        assert!(remembered(0, 91, &records, &fewer).is_err());
        assert!(answers_listed(0, &records, &fewer).is_err());
        assert!(answers_listed(0, &records[..1], &listing()).is_err());
    }

    /// The journal of a kiosk that heard these: kind, round and name, from kiosk 1.
    fn journal(heard: &[(u8, u8, u64)]) -> Vec<u8> {
        let (mut bytes, mut table) = (vec![0; second::roomy(4)], [0; second::TABLE]);
        let used = second::create(&[1, 1, 1, 1], 0, 1, &mut bytes).used;
        let mut state = second::open(&bytes, used, &mut table).state;
        for &(kind, round, name) in heard {
            let input = second::Input {
                kind,
                height: 1,
                sender: u8::from(kind > 1),
                round,
                valid: 0,
                verdict: u8::from(kind == 2),
                name,
                offer: 9,
            };
            let reply = second::put(&state, &input, &mut table, &mut bytes);
            assert_eq!(reply.number, 0);
            state = reply.state;
        }
        bytes.truncate(state.used);
        bytes
    }

    #[test]
    fn saying_other_things_again_is_found() {
        let said = |bytes: &[u8], messages: &[Output], timers: &[Output]| {
            let again = Again {
                messages: messages.to_vec(),
                timers: timers.to_vec(),
            };
            said_again(0, bytes, &again).is_ok()
        };
        let prevote = Output::Say(Kind::Prevote, 0, 50, -1);
        let ask = Output::Ask(Timer::Propose, 0);
        let (fresh, started) = (journal(&[]), journal(&[(1, 0, 0)]));
        let prevoted = journal(&[(1, 0, 0), (2, 0, 50)]);
        assert!(said(&fresh, &[], &[]) && !said(&fresh, &[prevote], &[]));
        assert!(said(&started, &[], &[ask]) && !said(&started, &[], &[]));
        assert!(said(&prevoted, &[prevote], &[]) && !said(&prevoted, &[prevote], &[ask]));
        assert!(!said(&prevoted, &[prevote, prevote], &[]) && !said(&prevoted, &[], &[prevote]));
    }

    #[test]
    fn bytes_that_no_answer_makes_are_found() {
        assert_eq!(written(0, 91, 91), Ok(()));
        assert!(written(0, 91, 90).is_err() && written(0, 91, 92).is_err());
        assert!(answered("create", "refused 12", "created 15").is_err());
    }
}
