//! The height as a drawing: kiosks as rows, time to the right, messages as arrows.

use crate::height::Played;
use crate::page::summary;
use crate::pen::{escaped, Pen};
use crate::radio::Letter;
use crate::story::Time;
use crate::told::{Clock, Moment, What};
use crate::transcript::manner;
use crate::words::{entered, Answer, Input, Kind, Output};

/// Where things stand.
struct Sheet {
    /// Pixels for a second.
    scale: f64,
    row: f64,
    end: Time,
    kiosks: usize,
}

const TOP: f64 = 34.0;
const NAMES: f64 = 156.0;
const LEFT: f64 = 18.0;
/// Room behind the last event for its words.
const RIGHT: f64 = 130.0;
/// With more kiosks the rows are low and have fewer words.
const ROOMY: usize = 8;

impl Sheet {
    fn of(played: &Played) -> Sheet {
        let kiosks = played.story.kiosks();
        let last = played.moments.last().map_or(0, |moment| moment.at);
        let end = last.max(played.ended).max(50);
        let seconds = end as f64 / 100.0;
        let width = (seconds * 105.0).clamp(965.0, 8_000.0);
        Sheet {
            scale: width / seconds,
            row: if kiosks > ROOMY { 46.0 } else { 84.0 },
            end,
            kiosks,
        }
    }

    fn crowded(&self) -> bool {
        self.kiosks > ROOMY
    }

    fn x(&self, at: Time) -> f64 {
        LEFT + at as f64 / 100.0 * self.scale
    }

    fn y(&self, kiosk: usize) -> f64 {
        TOP + self.row * (kiosk as f64 + 0.5)
    }

    /// Half the height of what is filled of a row.
    fn band(&self) -> f64 {
        self.row * 0.36
    }

    fn x_end(&self) -> f64 {
        self.x(self.end) + RIGHT - 10.0
    }

    fn width(&self) -> f64 {
        self.x(self.end) + RIGHT
    }

    fn height(&self) -> f64 {
        TOP + self.row * self.kiosks as f64 + 8.0
    }

    /// A part of a kiosk's row.
    fn fill(&self, pen: &mut Pen, class: &str, kiosk: usize, from: Time, to: f64) {
        let (x, band) = (self.x(from), self.band());
        pen.rect(
            class,
            x,
            self.y(kiosk) - band,
            (to - x).max(2.0),
            2.0 * band,
        );
    }
}

/// The figure with its legend.
pub fn figure(played: &Played, text: &mut String) {
    let sheet = Sheet::of(played);
    let mut pen = Pen(text);
    pen.raw("<h2>The height</h2>\n<figure>");
    pen.raw("<div class=\"scroll\" tabindex=\"0\" role=\"group\" aria-label=\"The drawing, which scrolls to the right\">");
    names(played, &sheet, &mut pen);
    begin(played, &sheet, &mut pen);
    axis(&sheet, &mut pen);
    for seat in 0..sheet.kiosks {
        lane(played, &sheet, seat, &mut pen);
    }
    for moment in &played.moments {
        arrow(&sheet, moment, &mut pen);
    }
    for moment in &played.moments {
        mark(&sheet, moment, &mut pen);
    }
    pen.raw("</svg>\n</div>\n<figcaption>");
    pen.raw(include_str!("legend.html").trim_end());
    pen.raw("</figcaption>\n</figure>");
}

fn size(width: f64, height: f64) -> String {
    format!("width=\"{width:.0}\" height=\"{height:.0}\" viewBox=\"0 0 {width:.0} {height:.0}\"")
}

fn names(played: &Played, sheet: &Sheet, pen: &mut Pen) {
    let size = size(NAMES, sheet.height());
    pen.raw(&format!(
        "<svg class=\"names\" {size} role=\"img\" aria-label=\"The kiosks\">"
    ));
    for seat in 0..sheet.kiosks {
        let (y, style) = (sheet.y(seat), played.story.breakers[seat]);
        if style.is_some() {
            pen.rect("broken", 0.0, y - sheet.row / 2.0, NAMES, sheet.row);
        }
        pen.raw(&format!("<g id=\"kiosk-{seat}\">"));
        pen.words("name", 14.0, y - 1.0, &format!("Kiosk {seat}"));
        let (power, manner) = (
            played.story.powers[seat],
            style.map_or("keeps the rules", manner),
        );
        pen.words("small", 14.0, y + 14.0, &format!("power {power}, {manner}"));
        pen.raw("</g>");
    }
    pen.raw("</svg>");
}

/// The drawing's beginning: its title and words for those who do not see it, arrow heads, and stripes.
fn begin(played: &Played, sheet: &Sheet, pen: &mut Pen) {
    let crowd = if sheet.crowded() {
        " class=\"crowd\""
    } else {
        ""
    };
    let size = size(sheet.width(), sheet.height());
    let (title, words) = (escaped(&played.story.title), escaped(&summary(played)));
    pen.raw(&format!(
        "<svg{crowd} {size} role=\"img\" aria-labelledby=\"drawing-title drawing-words\">\n\
         <title id=\"drawing-title\">{title}</title>\n<desc id=\"drawing-words\">Each kiosk is a row and time goes \
         to the right. Arrows are messages. {words} The events and the journals below say the same in words.</desc>\n<defs>"
    ));
    for word in Kind::ALL.map(Kind::word) {
        pen.raw(&format!(
            "<marker id=\"head-{word}\" viewBox=\"0 0 8 8\" refX=\"7\" refY=\"4\" markerWidth=\"8\" markerHeight=\"8\" \
             markerUnits=\"userSpaceOnUse\" orient=\"auto\"><path class=\"{word} head\" d=\"M0 0 L8 4 L0 8 Z\"/></marker>"
        ));
    }
    pen.raw(
        "<pattern id=\"stripes\" width=\"8\" height=\"8\" patternUnits=\"userSpaceOnUse\" \
         patternTransform=\"rotate(45)\"><line class=\"offstripe\" x1=\"0\" y1=\"0\" x2=\"0\" y2=\"8\"/></pattern>\n</defs>",
    );
}

/// Seconds along the top, as far apart as their words need.
fn axis(sheet: &Sheet, pen: &mut Pen) {
    let steps: [Time; 10] = [10, 20, 50, 100, 200, 500, 1_000, 2_000, 5_000, 10_000];
    let wide = |step: &Time| *step as f64 / 100.0 * sheet.scale >= 70.0;
    let step = steps.into_iter().find(wide).unwrap_or(20_000);
    for at in (0..=sheet.end).step_by(step as usize) {
        let x = sheet.x(at);
        pen.line("axis", (x, TOP - 8.0), (x, sheet.height()));
        pen.words("small middle", x, 20.0, &format!("{} s", Clock(at)));
    }
}

/// The row of a kiosk: its rounds, where it has no power or no room, and the line once it has settled.
fn lane(played: &Played, sheet: &Sheet, seat: usize, pen: &mut Pen) {
    let (y, x_end) = (sheet.y(seat), sheet.x_end());
    let x_of = |end: Option<Time>| end.map_or(x_end, |end| sheet.x(end));
    if played.story.breakers[seat].is_some() {
        sheet.fill(pen, "broken", seat, 0, x_end);
    }
    let mine = |moment: &&Moment| moment.kiosk == seat;
    let own: Vec<&Moment> = played.moments.iter().filter(mine).collect();
    let rounds = rounds(&own);
    for (place, &(from, round)) in rounds.iter().enumerate() {
        let to = x_of(rounds.get(place + 1).map(|next| next.0));
        let class = if round % 2 == 0 { "even" } else { "odd" };
        sheet.fill(pen, class, seat, from, to);
        if !sheet.crowded() || round > 0 {
            let low = y + sheet.band() - 4.0;
            pen.words("small", sheet.x(from) + 4.0, low, &format!("round {round}"));
        }
    }
    for (from, to) in spans(
        &own,
        |what| matches!(what, What::Full(_)),
        |what| matches!(what, What::Room),
    ) {
        sheet.fill(pen, "fullband", seat, from, x_of(to));
    }
    pen.line("lane", (sheet.x(0), y), (x_end, y));
    let goes = |what: &What| matches!(what, What::Cut | What::Torn { .. });
    for (from, to) in spans(&own, goes, |what| matches!(what, What::Wakes { .. })) {
        sheet.fill(pen, "off", seat, from, x_of(to));
        sheet.fill(pen, "stripes", seat, from, x_of(to));
    }
    if let Some(from) = own.iter().find(|moment| settles(&moment.what)) {
        pen.line("done", (sheet.x(from.at), y), (x_end, y));
    }
}

/// When a kiosk entered which round, as its outputs say, or its journal after a cut.
fn rounds(own: &[&Moment]) -> Vec<(Time, u8)> {
    let mut rounds: Vec<(Time, u8)> = Vec::new();
    for moment in own {
        let round = match &moment.what {
            What::Call {
                answer: Answer::Accepted(outputs),
                ..
            } => entered(outputs),
            What::Wakes { round, .. } => *round,
            _ => None,
        };
        let last = rounds.last().map(|&(_, round)| round);
        if let Some(round) = round.filter(|&round| last != Some(round)) {
            rounds.push((moment.at, round));
        }
    }
    rounds
}

/// From each beginning to the end that follows it, if one does.
fn spans(
    own: &[&Moment],
    begins: impl Fn(&What) -> bool,
    ends: impl Fn(&What) -> bool,
) -> Vec<(Time, Option<Time>)> {
    let mut spans: Vec<(Time, Option<Time>)> = Vec::new();
    for moment in own {
        let open = spans.last_mut().filter(|span| span.1.is_none());
        match open {
            _ if begins(&moment.what) => spans.push((moment.at, None)),
            Some(span) if ends(&moment.what) => span.1 = Some(moment.at),
            _ => (),
        }
    }
    spans
}

fn settles(what: &What) -> bool {
    let settled = |output: &Output| matches!(output, Output::Settled(..));
    match what {
        What::Call {
            answer: Answer::Accepted(outputs),
            ..
        } => outputs.iter().any(settled),
        _ => false,
    }
}

/// A letter, from where it was put on the air to where it came, or a part of the way if it was lost.
fn arrow(sheet: &Sheet, moment: &Moment, pen: &mut Pen) {
    let (letter, class): (&Letter, &str) = match &moment.what {
        What::Call {
            letter: Some(letter),
            answer: Answer::Accepted(outputs),
            ..
        } if !outputs.is_empty() => (letter, "letter telling"),
        What::Call {
            letter: Some(letter),
            ..
        }
        | What::Torn {
            letter: Some(letter),
            ..
        } => (letter, "letter"),
        What::Missed(letter) | What::Lost(letter) => (letter, "letter lost"),
        _ => return,
    };
    let lost = matches!(moment.what, What::Lost(_));
    let from = (sheet.x(letter.sent), sheet.y(letter.by));
    let comes = if lost { letter.sent + 30 } else { moment.at };
    let whole = (sheet.x(comes) - from.0, sheet.y(letter.to) - from.1);
    let part = if lost { 0.6 } else { 1.0 - 6.0 / whole.1.abs() };
    let to = (from.0 + whole.0 * part, from.1 + whole.1 * part);
    let word = letter.message.kind.word();
    let again = if letter.again { " again" } else { "" };
    let nil = if letter.message.name == 0 { " nil" } else { "" };
    let head = if lost {
        String::new()
    } else {
        format!(" marker-end=\"url(#head-{word})\"")
    };
    let title = moment.to_string();
    pen.group(&format!("{class}{again}{nil}"), title.trim_start(), |pen| {
        pen.ended_line(word, from, to, &head);
        if lost && !letter.again {
            pen.cross("refused", to.0, to.1, 3.0);
        }
    });
}

/// What stands on a kiosk's own line: what it says, refuses, loses, settles.
fn mark(sheet: &Sheet, moment: &Moment, pen: &mut Pen) {
    if matches!(
        moment.what,
        What::Room | What::Missed(_) | What::Lost(_) | What::Again(_)
    ) {
        return;
    }
    let (x, y) = (sheet.x(moment.at), sheet.y(moment.kiosk));
    let words = |pen: &mut Pen, class: &str, right: f64, down: f64, words: &str| {
        if !sheet.crowded() {
            pen.words(class, x + right, y + down, words);
        }
    };
    let cut = |pen: &mut Pen, said: &str| {
        bolt(x, y, pen);
        words(pen, "bolt-text", 11.0, 20.0, said);
    };
    let title = moment.to_string();
    pen.group("", title.trim_start(), |pen| match &moment.what {
        What::Call { input, answer, .. } => called(x, y, input, answer, sheet, pen),
        What::Torn { left, of, .. } => {
            cut(pen, &format!("power cut: {left} of {of} bytes left"));
        }
        What::Cut => cut(pen, "power cut"),
        What::TornHeader { left, of } => {
            cut(pen, &format!("cut in creating: {left} of {of} bytes left"));
        }
        What::Wakes {
            kept, read, again, ..
        } => {
            pen.path("wake", x, y - 6.0, "l6 12 h-12 Z");
            words(
                pen,
                "small",
                9.0,
                -8.0,
                &format!("keeps {kept} of {read} bytes"),
            );
            outputs(x + 14.0, y, again, pen);
        }
        What::Full(room) => {
            let up = -sheet.band() - 2.0;
            words(
                pen,
                "full-text",
                4.0,
                up,
                &format!("partition full but for {room} bytes"),
            );
        }
        What::Lies { kind, .. } => said(x, y, *kind, pen),
        What::Room | What::Missed(_) | What::Lost(_) | What::Again(_) => (),
    });
}

fn called(x: f64, y: f64, input: &Input, answer: &Answer, sheet: &Sheet, pen: &mut Pen) {
    if matches!(input, Input::Ring(..)) {
        pen.disc("ring", x, y - 15.0, 5.0);
        pen.path("ring", x, y - 18.0, "v3 h2.5");
    }
    match answer {
        Answer::Accepted(said) => outputs(x, y, said, pen),
        Answer::Refused(2 | 3 | 8 | 10) => pen.cross("refused", x, y, 3.5),
        Answer::Refused(number) => {
            pen.cross("refused loud", x, y, 5.0);
            if !sheet.crowded() {
                pen.words("loud middle", x, y + 18.0, &number.to_string());
            }
        }
    }
}

/// What is said, one beside the other, and the flag of what is settled.
fn outputs(x: f64, y: f64, outputs: &[Output], pen: &mut Pen) {
    let mut place = x;
    for output in outputs {
        match output {
            Output::Ask(..) => (),
            Output::Say(kind, ..) => {
                said(place, y, *kind, pen);
                place += 9.0;
            }
            Output::Settled(_, name) => {
                pen.path("flag", x, y - 9.0, "l9 9 l-9 9 l-9 -9 Z");
                pen.words("settled", x + 13.0, y - 8.0, &format!("sheet {name}"));
            }
        }
    }
}

/// A square for a proposal, a disc for a prevote, a triangle for a precommit.
fn said(x: f64, y: f64, kind: Kind, pen: &mut Pen) {
    let class = format!("{} said", kind.word());
    match kind {
        Kind::Proposal => pen.rect(&class, x - 5.5, y - 5.5, 11.0, 11.0),
        Kind::Prevote => pen.disc(&class, x, y, 5.5),
        Kind::Precommit => pen.path(&class, x, y - 7.0, "l6.5 11.5 h-13 Z"),
    }
}

fn bolt(x: f64, y: f64, pen: &mut Pen) {
    pen.path(
        "bolt",
        x + 2.0,
        y - 14.0,
        "l-9 15 h6 l-4 12 l12 -17 h-6 l5 -10 Z",
    );
}
