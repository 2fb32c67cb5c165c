//! Rule-breakers: no process, only what they say, and to whom.

use crate::story::{Story, Style, Time};
use crate::words::{Kind, Message};
use compare::Random;

/// One thing said to some kiosks and another to the rest, after a while. Each face is a message and who hears it.
#[derive(Clone, PartialEq, Eq, Debug)]
pub struct Lie {
    pub after: Time,
    pub kind: Kind,
    pub round: u8,
    pub faces: Vec<(Message, Vec<usize>)>,
}

/// What a babbler says in a round.
const BABBLE: usize = 5;

/// What a rule-breaker says in a round that rule-keeping kiosks have entered. `proposed` is what the air has as its proposal.
pub fn lies(
    story: &Story,
    seat: usize,
    style: Style,
    round: u8,
    proposed: Option<u64>,
    random: &mut Random,
) -> Vec<Lie> {
    match style {
        Style::Silent => Vec::new(),
        Style::TwoSheets => two_faces(story, seat, round, proposed, &[Kind::Proposal]),
        Style::TwoFaced => two_faces(story, seat, round, proposed, &Kind::ALL),
        Style::Babbler => (0..BABBLE).map(|_| babble(story, seat, random)).collect(),
    }
}

fn keepers(story: &Story) -> Vec<usize> {
    (0..story.kiosks())
        .filter(|&seat| story.breakers[seat].is_none())
        .collect()
}

/// Every second rule-keeping kiosk is told the one story, the rest the other; all rule-breakers tell the same two.
fn two_faces(
    story: &Story,
    seat: usize,
    round: u8,
    proposed: Option<u64>,
    kinds: &[Kind],
) -> Vec<Lie> {
    let turn = story.proposer(round);
    let own = story
        .first_name
        .wrapping_add(50 + 2 * u64::from(round))
        .max(1);
    let faces = match story.breakers[turn] {
        Some(_) => [own, own.wrapping_add(1).max(1)],
        None => [proposed.unwrap_or(0), 0],
    };
    let mut lies = Vec::new();
    for (&kind, after) in kinds.iter().zip([0, 60, 150]) {
        if kind == Kind::Proposal && seat != turn {
            continue;
        }
        let told = faces.into_iter().enumerate().map(|(face, name)| {
            let to: Vec<usize> = keepers(story).into_iter().skip(face).step_by(2).collect();
            (
                Message {
                    kind,
                    sender: seat,
                    round,
                    name,
                    valid: -1,
                },
                to,
            )
        });
        let faces = told.filter(|(_, to)| !to.is_empty()).collect();
        lies.push(Lie {
            after,
            kind,
            round,
            faces,
        });
    }
    lies
}

/// Anything of any round to one kiosk.
fn babble(story: &Story, seat: usize, random: &mut Random) -> Lie {
    let kind = random.pick(&Kind::ALL);
    let round = if random.once_in(2) {
        0
    } else {
        random.below(16) as u8
    };
    let sheet = story.first_name.wrapping_add(random.below(4) as u64).max(1);
    let name = if kind != Kind::Proposal && random.once_in(3) {
        0
    } else {
        sheet
    };
    let valid = if kind == Kind::Proposal && round > 0 {
        random.below(usize::from(round) + 1) as i16 - 1
    } else {
        -1
    };
    let message = Message {
        kind,
        sender: seat,
        round,
        name,
        valid,
    };
    let faces = vec![(message, vec![random.pick(&keepers(story))])];
    Lie {
        after: random.below(400) as Time,
        kind,
        round,
        faces,
    }
}

#[cfg(test)]
mod tests {
    use super::*;
    use crate::story::stream;

    #[test]
    fn a_two_faced_proposer_says_two_sheets_and_backs_both() {
        let story = Story::told("left-behind").unwrap();
        let lies = lies(&story, 1, Style::TwoFaced, 0, None, &mut stream(1, 1));
        assert_eq!(
            lies.iter().map(|lie| lie.kind).collect::<Vec<_>>(),
            Kind::ALL
        );
        for lie in lies {
            let [(one, some), (other, rest)] = lie.faces.as_slice() else {
                panic!("two faces")
            };
            assert_ne!(one.name, other.name);
            assert_eq!(
                (some.as_slice(), rest.as_slice()),
                ([0, 3].as_slice(), [2].as_slice())
            );
        }
    }

    #[test]
    fn out_of_turn_it_proposes_nothing_and_votes_two_ways() {
        let story = Story::told("left-behind").unwrap();
        let lies = lies(&story, 1, Style::TwoFaced, 1, Some(102), &mut stream(1, 1));
        let said: Vec<(Kind, u64)> = lies
            .iter()
            .flat_map(|lie| {
                lie.faces
                    .iter()
                    .map(|(message, _)| (lie.kind, message.name))
            })
            .collect();
        assert_eq!(
            said,
            [
                (Kind::Prevote, 102),
                (Kind::Prevote, 0),
                (Kind::Precommit, 102),
                (Kind::Precommit, 0)
            ]
        );
    }
}
