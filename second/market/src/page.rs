//! A page of a height: one file, no script, no font and no picture from elsewhere.

use crate::drawing;
use crate::height::Played;
use crate::pen::escaped;
use crate::told::Clock;
use crate::transcript::{checked, manner, outcome, setting};
use std::fmt::Write;

pub fn page(played: &Played) -> String {
    let title = escaped(&played.story.title);
    let mut text = format!(
        "<!DOCTYPE html>\n<html lang=\"en\">\n<head>\n<meta charset=\"utf-8\">\n\
         <meta name=\"viewport\" content=\"width=device-width, initial-scale=1\">\n<title>{title}</title>\n<style>\n{}</style>\n</head>\n<body>\n<main>\n",
        include_str!("page.css")
    );
    let _ = write!(
        text,
        "<h1>{title}</h1>\n<p class=\"lead\">{}</p>\n",
        escaped(&summary(played))
    );
    let made_of: Vec<String> = setting(&played.story)
        .iter()
        .map(|line| format!("{}.", escaped(&sentence(line))))
        .collect();
    let _ = writeln!(text, "<p class=\"soft\">{}</p>", made_of.join(" "));
    figures(played, &mut text);
    drawing::figure(played, &mut text);
    let _ = write!(text, "<h2>What was checked</h2>\n<ul class=\"checks\">\n");
    for check in checked(played) {
        let _ = writeln!(text, "<li>{}.</li>", escaped(&sentence(&check)));
    }
    text.push_str("</ul>\n");
    events(played, &mut text);
    journals(played, &mut text);
    text.push_str("</main>\n</body>\n</html>\n");
    text
}

fn sentence(text: &str) -> String {
    let mut letters = text.chars();
    letters.next().map_or(String::new(), |first| {
        first.to_uppercase().collect::<String>() + letters.as_str()
    })
}

/// What came of the height, in one or two sentences.
pub fn summary(played: &Played) -> String {
    let keepers: Vec<usize> = (0..played.story.kiosks())
        .filter(|&seat| played.story.breakers[seat].is_none())
        .collect();
    let settled: Vec<(usize, u8, u64)> = keepers
        .iter()
        .filter_map(|&seat| played.settled[seat].map(|(round, name)| (seat, round, name)))
        .collect();
    let mut text = match (settled.first(), &played.disagreement) {
        (_, Some(why)) => format!("Disagreement: {why}. Rule-breakers hold a third of the power or more, and one sheet is not promised then."),
        (None, None) => format!("None of the {} rule-keeping kiosks settled.", keepers.len()),
        (Some((_, round, name)), None) if settled.len() == keepers.len() => {
            let who = if keepers.len() == 1 { "The one rule-keeping kiosk".into() } else { format!("All {} rule-keeping kiosks", keepers.len()) };
            format!("{who} settled sheet {name} of round {round}, within {} seconds.", Clock(played.ended))
        }
        (Some((_, round, name)), None) => {
            format!("{} of {} rule-keeping kiosks settled sheet {name} of round {round}, and no kiosk settled another.", settled.len(), keepers.len())
        }
    };
    let cuts = played.counts.cuts_between + played.counts.cuts_in_calls;
    match cuts {
        0 => (),
        1 => text.push_str(" One lost its power, and went on from its journal."),
        _ => text.push_str(&format!(
            " Power went {cuts} times, and the kiosks went on from their journals."
        )),
    }
    text
}

fn figures(played: &Played, text: &mut String) {
    let counts = &played.counts;
    let figures = [
        (played.story.kiosks() as u64, "kiosk", "kiosks"),
        (counts.kiosks_settled, "settled", "settled"),
        (counts.messages, "message said", "messages said"),
        (counts.letters, "letter on the air", "letters on the air"),
        (counts.lost, "letter lost", "letters lost"),
        (counts.calls, "call", "calls"),
        (counts.refusals(), "refused", "refused"),
        (
            counts.cuts_between + counts.cuts_in_calls,
            "power cut",
            "power cuts",
        ),
        (counts.full, "full partition", "full partitions"),
        (
            counts.lies,
            "letter of rule-breakers",
            "letters of rule-breakers",
        ),
    ];
    text.push_str("<ul class=\"figures\">\n");
    for (number, one, many) in figures.into_iter().filter(|(number, ..)| *number > 0) {
        let what = if number == 1 { one } else { many };
        let _ = writeln!(text, "<li><b>{number}</b><span>{what}</span></li>");
    }
    text.push_str("</ul>\n");
}

fn events(played: &Played, text: &mut String) {
    let _ = write!(text, "<h2>What happened</h2>\n<details>\n<summary>Every event <span class=\"soft\">({})</span></summary>\n<pre>", played.moments.len());
    for moment in &played.moments {
        let _ = writeln!(text, "{}", escaped(&moment.to_string()));
    }
    text.push_str("</pre>\n</details>\n");
}

fn journals(played: &Played, text: &mut String) {
    text.push_str("<h2>The journals</h2>\n<p class=\"soft\">As <code>node list</code> prints them: each call, and below it what it sent.</p>\n");
    let mut outcomes = outcome(played).into_iter();
    for (seat, listing) in played.listings.iter().enumerate() {
        match (listing, played.story.breakers[seat]) {
            (Some(listing), _) => {
                let end = outcomes.next().unwrap_or_default();
                let end = end
                    .strip_prefix(&format!("kiosk {seat} "))
                    .unwrap_or(&end)
                    .to_string();
                let _ = write!(
                    text,
                    "<details>\n<summary>Kiosk {seat} <span class=\"soft\">{}</span></summary>\n<pre>{}</pre>\n</details>\n",
                    escaped(&end),
                    escaped(listing)
                );
            }
            (None, Some(style)) => {
                let _ = writeln!(text, "<p class=\"soft\">Kiosk {seat} breaks the rules ({}), and has no journal here.</p>", manner(style));
            }
            (None, None) => (),
        }
    }
}
