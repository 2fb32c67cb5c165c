//! A height as text: what it is made of, its events, who settled what, what was counted and checked.

use crate::height::Played;
use crate::story::{Radio, Story, Style};
use crate::told::Clock;
use std::fmt::Write;

pub fn transcript(played: &Played) -> String {
    let story = &played.story;
    let mut text = format!("{}\n", story.title);
    for line in setting(story) {
        let _ = writeln!(text, "{line}");
    }
    if story.brief {
        text.push_str("told in brief: calls that say nothing, letters lost or missed, and the refusals 2, 3, 8, 9 and 10 are only counted\n");
    }
    text.push('\n');
    let told = played
        .moments
        .iter()
        .filter(|moment| !story.brief || moment.in_brief());
    for moment in told {
        let _ = writeln!(text, "{moment}");
    }
    text.push('\n');
    for line in outcome(played) {
        let _ = writeln!(text, "{line}");
    }
    let _ = writeln!(text, "\n{}", played.counts);
    for check in checked(played) {
        let _ = writeln!(text, "checked: {check}");
    }
    text
}

/// What the height is made of.
pub fn setting(story: &Story) -> Vec<String> {
    let powers = match story.powers.iter().all(|&power| power == story.powers[0]) {
        true => format!("each of power {}", story.powers[0]),
        false => format!(
            "of power {}",
            story
                .powers
                .iter()
                .map(u16::to_string)
                .collect::<Vec<_>>()
                .join(" ")
        ),
    };
    let first = format!(
        "seed {}, height {}, {} kiosks, {powers}",
        story.seed,
        story.height,
        story.kiosks()
    );
    vec![first, breakers(story), radio(&story.radio)]
}

fn breakers(story: &Story) -> String {
    let styles = (0..)
        .zip(&story.breakers)
        .filter_map(|(seat, style)| style.map(|style| (seat, style)));
    let named: Vec<String> = styles
        .map(|(seat, style): (usize, Style)| format!("{seat} {}", manner(style)))
        .collect();
    if named.is_empty() {
        return "every kiosk keeps the rules".into();
    }
    let share = if story.promised() {
        "below a third"
    } else {
        "A THIRD OR MORE: two sheets are possible"
    };
    format!(
        "rule-breakers hold {} of {}, {share}: {}",
        story.broken_power(),
        story.total(),
        named.join(", ")
    )
}

pub fn manner(style: Style) -> &'static str {
    match style {
        Style::Silent => "silent",
        Style::TwoFaced => "two-faced",
        Style::TwoSheets => "proposes two sheets",
        Style::Babbler => "says anything",
    }
}

fn radio(radio: &Radio) -> String {
    let parts = [
        (radio.loses, "loses"),
        (radio.repeats, "brings twice"),
        (radio.delays, "delays for seconds"),
    ];
    let said: Vec<String> = parts
        .iter()
        .filter(|(times, _)| *times > 0)
        .map(|(times, what)| format!("{what} one letter in {times}"))
        .collect();
    match said.is_empty() {
        true => "the radio brings every letter once, in some order".into(),
        false => format!("the radio {}", said.join(", ")),
    }
}

/// Who settled what, and when the height ended.
pub fn outcome(played: &Played) -> Vec<String> {
    let mut lines = Vec::new();
    for (seat, settled) in played.settled.iter().enumerate() {
        lines.push(match (played.story.breakers[seat], settled) {
            (Some(_), _) => continue,
            (None, Some((round, name))) => {
                format!("kiosk {seat} settled sheet {name} of round {round}")
            }
            (None, None) => format!("kiosk {seat} has not settled"),
        });
    }
    if let Some(why) = &played.disagreement {
        lines.push(format!(
            "DISAGREEMENT: {why}; rule-breakers hold a third or more, and 01 promises nothing then"
        ));
    }
    lines.push(format!("ended at {}", Clock(played.ended)));
    lines
}

/// The checks that passed.
pub fn checked(played: &Played) -> Vec<String> {
    let journals = played.listings.iter().flatten().count();
    let mut checks = Vec::new();
    if played.disagreement.is_none() {
        checks.push("no two rule-keeping kiosks settled different sheets".into());
    }
    checks.push(format!("each of the {journals} journals lists, keeps all its bytes, and has what its node answered and nothing else"));
    checks.push(format!(
        "each of the {} messages on the air is in its sender's journal",
        played.counts.messages
    ));
    checks
}
