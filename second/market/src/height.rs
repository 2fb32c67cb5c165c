//! One height: events in simulated time, one after the other, each answered before the next.

use crate::breaker::{self, Lie};
use crate::checks::{self, Broken};
use crate::counts::Counts;
use crate::kiosk::{group_length, header_length, Kiosk};
use crate::node::Node;
use crate::radio::Letter;
use crate::story::{chance, stream, Story, Time, When};
use crate::told::{Moment, What};
use crate::words::{entered, Answer, Input, Kind, Listing, Message, Output, Record, Timer};
use compare::Random;
use std::collections::{BTreeMap, BTreeSet};
use std::path::Path;

/// A height that was played, and found right.
pub struct Played {
    pub story: Story,
    pub moments: Vec<Moment>,
    pub counts: Counts,
    /// By seat: round and sheet.
    pub settled: Vec<Option<(u8, u64)>>,
    /// By seat: the listing of a rule-keeping kiosk's journal.
    pub listings: Vec<Option<String>>,
    /// Two sheets were settled, where rule-breakers hold a third and more.
    pub disagreement: Option<String>,
    pub ended: Time,
}

enum Event {
    Start(usize),
    Arrive(Letter),
    Ring {
        kiosk: usize,
        life: usize,
        timer: Timer,
        round: u8,
    },
    Tick(usize),
    Plot {
        breaker: usize,
        round: u8,
    },
    Lie {
        breaker: usize,
        lie: Lie,
    },
    Cut(usize),
    Wake(usize),
    Full(usize),
    Room(usize),
}

/// Every kiosk says things again about so often.
const TICK: Time = 400;
/// What was refused for room is tried again after so long.
const ANOTHER_TRY: Time = 200;
/// A height has ended when each kiosk has said things again so often and nothing was accepted, and nothing else is to come.
const VAIN_TICKS: usize = 3;
const VAIN_TICKS_IF_LOSSY: usize = 8;

struct Height<'a> {
    story: &'a Story,
    kiosks: BTreeMap<usize, Kiosk>,
    queue: BTreeMap<(Time, u64), Event>,
    queued: u64,
    now: Time,
    /// Ticks since a call was accepted.
    vain_ticks: usize,
    /// Draws for the radio, for timers and ticks, for what a cut leaves, and for babblers.
    air_draws: Random,
    clock_draws: Random,
    cut_draws: Random,
    lie_draws: Random,
    /// Messages of rule-keeping kiosks that were on the air.
    air: BTreeSet<Message>,
    /// The proposals that rule-breakers know of, by round.
    proposed: BTreeMap<u8, u64>,
    plotted: BTreeSet<u8>,
    cuts_left: Vec<bool>,
    moments: Vec<Moment>,
    counts: Counts,
}

/// A height that was not played to its end, or not found right, and what happened until then.
pub struct Failed {
    pub broken: Broken,
    pub moments: Vec<Moment>,
}

/// Plays a height in this folder, which is empty.
pub fn play(story: &Story, node: &Node, folder: &Path) -> Result<Played, Failed> {
    let mut height = Height::new(story);
    match height.run(node, folder) {
        Ok(found) => Ok(height.played(found)),
        Err(broken) => Err(Failed {
            broken,
            moments: height.moments,
        }),
    }
}

impl<'a> Height<'a> {
    fn new(story: &'a Story) -> Height<'a> {
        Height {
            story,
            kiosks: BTreeMap::new(),
            queue: BTreeMap::new(),
            queued: 0,
            now: 0,
            vain_ticks: 0,
            air_draws: stream(story.seed, 2),
            clock_draws: stream(story.seed, 3),
            cut_draws: stream(story.seed, 4),
            lie_draws: stream(story.seed, 5),
            air: BTreeSet::new(),
            proposed: BTreeMap::new(),
            plotted: BTreeSet::new(),
            cuts_left: vec![true; story.cuts.len()],
            moments: Vec::new(),
            counts: Counts {
                heights: 1,
                ..Counts::default()
            },
        }
    }

    fn run(&mut self, node: &Node, folder: &Path) -> Result<Found, Broken> {
        self.begin(node, folder)?;
        while !self.over() {
            let Some(((at, _), event)) = self.queue.pop_first() else {
                break;
            };
            self.now = at;
            self.happen(event)?;
        }
        self.end()
    }

    fn begin(&mut self, node: &Node, folder: &Path) -> Result<(), Broken> {
        for seat in 0..self.story.kiosks() {
            if self.story.breakers[seat].is_none() {
                self.found(node, seat, folder)?;
            }
        }
        self.counts.heights_with_breakers = u64::from(self.story.broken_power() > 0);
        for (at, cut) in self.story.cuts.iter().enumerate() {
            if let When::At(time) = cut.when {
                self.queue_at(time, Event::Cut(at));
            }
        }
        for (at, full) in self.story.fulls.iter().enumerate() {
            self.queue_at(full.from, Event::Full(at));
        }
        self.notice(0);
        Ok(())
    }

    /// A rule-keeping kiosk comes to the market.
    fn found(&mut self, node: &Node, seat: usize, folder: &Path) -> Result<(), Broken> {
        let of = header_length(self.story);
        let torn = (self.story.torn_header == Some(seat))
            .then(|| self.cut_draws.below(of as usize) as u64);
        self.kiosks
            .insert(seat, Kiosk::create(node, self.story, seat, folder, torn)?);
        if let Some(left) = torn {
            self.counts.headers_torn += 1;
            self.tell(seat, What::TornHeader { left, of });
        }
        let (start, tick) = (
            self.clock_draws.below(self.story.started_by as usize) as Time,
            self.clock_draws.below(100) as Time,
        );
        self.queue_at(start, Event::Start(seat));
        self.queue_at(TICK + tick, Event::Tick(seat));
        Ok(())
    }

    fn queue_at(&mut self, at: Time, event: Event) {
        self.queued += 1;
        self.queue.insert((at, self.queued), event);
    }

    fn tell(&mut self, kiosk: usize, what: What) {
        self.moments.push(Moment {
            at: self.now,
            kiosk,
            what,
        });
    }

    fn kiosk(&mut self, seat: usize) -> &mut Kiosk {
        self.kiosks
            .get_mut(&seat)
            .expect("only rule-keeping kiosks have events")
    }

    fn over(&self) -> bool {
        let all = self
            .kiosks
            .values()
            .all(|kiosk| kiosk.awake() && kiosk.settled().is_some());
        let patience = if self.story.radio.loses > 0 {
            VAIN_TICKS_IF_LOSSY
        } else {
            VAIN_TICKS
        };
        let idle = |event: &Event| {
            matches!(
                event,
                Event::Tick(_) | Event::Arrive(Letter { again: true, .. })
            )
        };
        all || self.vain_ticks > patience * self.kiosks.len() && self.queue.values().all(idle)
    }

    fn happen(&mut self, event: Event) -> Result<(), Broken> {
        match event {
            Event::Start(seat) if self.kiosk(seat).awake() && !self.kiosk(seat).started() => {
                self.put(seat, Input::Start, None)
            }
            Event::Start(_) => Ok(()),
            Event::Arrive(letter) => self.arrive(letter),
            Event::Ring {
                kiosk,
                life,
                timer,
                round,
            } => {
                let to = self.kiosk(kiosk);
                let there = to.awake() && to.life == life && to.settled().is_none();
                if there {
                    self.put(kiosk, Input::Ring(timer, round), None)
                } else {
                    Ok(())
                }
            }
            Event::Tick(seat) => {
                self.tick(seat);
                Ok(())
            }
            Event::Plot { breaker, round } => {
                self.plot(breaker, round);
                Ok(())
            }
            Event::Lie { breaker, lie } => {
                self.lie(breaker, lie);
                Ok(())
            }
            Event::Cut(at) => self.cut_between(at),
            Event::Wake(seat) => self.wake(seat),
            Event::Full(at) => {
                let full = self.story.fulls[at];
                self.counts.full += 1;
                self.tell(full.kiosk, What::Full(full.room));
                self.queue_at(self.now + full.lasts, Event::Room(full.kiosk));
                self.kiosk(full.kiosk).limit(Some(full.room))
            }
            Event::Room(seat) => {
                self.vain_ticks = 0;
                self.tell(seat, What::Room);
                self.kiosk(seat).limit(None)
            }
        }
    }

    fn arrive(&mut self, letter: Letter) -> Result<(), Broken> {
        if !self.kiosk(letter.to).awake() {
            self.counts.missed += 1;
            self.tell(letter.to, What::Missed(letter));
            return Ok(());
        }
        let good = letter.message.kind == Kind::Proposal
            && self.story.judges_good(letter.to, letter.message.name);
        self.put(letter.to, Input::Hear(letter.message, good), Some(letter))
    }

    /// One call: its answer is read, or the power goes before that.
    fn put(&mut self, seat: usize, input: Input, letter: Option<Letter>) -> Result<(), Broken> {
        let offer = self.story.offer(seat, self.now);
        let answer = self.kiosk(seat).put(input, offer)?;
        self.counts.calls += 1;
        let outputs = match &answer {
            Answer::Refused(number) => {
                self.counts.refused[usize::from(*number).min(15)] += 1;
                let again = match input {
                    Input::Start => Some(Event::Start(seat)),
                    Input::Ring(timer, round) => Some(Event::Ring {
                        kiosk: seat,
                        life: self.kiosk(seat).life,
                        timer,
                        round,
                    }),
                    Input::Hear(..) => None,
                };
                if let Some(event) = again.filter(|_| *number == 12) {
                    self.queue_at(self.now + ANOTHER_TRY, event);
                }
                Vec::new()
            }
            Answer::Accepted(outputs) => {
                self.counts.accepted += 1;
                self.vain_ticks = 0;
                if let Some(lasts) = self.cut_due(seat, outputs) {
                    return self.cut_in_call(seat, input, letter, outputs, lasts);
                }
                self.kiosk(seat).keep(Record {
                    input,
                    offer,
                    outputs: outputs.clone(),
                });
                outputs.clone()
            }
        };
        self.tell(
            seat,
            What::Call {
                input,
                letter,
                answer,
            },
        );
        self.act_on(seat, &outputs, false);
        Ok(())
    }

    /// Sends what is said, and sets the timers that are asked for.
    fn act_on(&mut self, seat: usize, outputs: &[Output], again: bool) {
        for output in outputs {
            match *output {
                Output::Ask(timer, round) => self.set_timer(seat, timer, round),
                Output::Settled(..) => (),
                Output::Say(..) => {
                    let message = output.message(seat).expect("said");
                    self.broadcast(seat, message, again);
                }
            }
        }
        if let Some(round) = entered(outputs) {
            self.notice(round);
        }
    }

    fn set_timer(&mut self, seat: usize, timer: Timer, round: u8) {
        let base = if timer == Timer::Propose { 300 } else { 200 };
        let mut wait = base + 100 * Time::from(round);
        if chance(&mut self.clock_draws, self.story.late) {
            self.counts.late_timers += 1;
            wait *= 2 + self.clock_draws.below(4) as Time;
        }
        let life = self.kiosk(seat).life;
        self.queue_at(
            self.now + wait,
            Event::Ring {
                kiosk: seat,
                life,
                timer,
                round,
            },
        );
    }

    fn broadcast(&mut self, by: usize, message: Message, again: bool) {
        if self.kiosks.contains_key(&message.sender) {
            self.air.insert(message);
        }
        if message.kind == Kind::Proposal {
            self.proposed.entry(message.round).or_insert(message.name);
        }
        // A settled kiosk is told nothing again: its height has ended.
        let hears = |kiosk: &&Kiosk| {
            kiosk.seat != by
                && kiosk.seat != message.sender
                && !(again && kiosk.settled().is_some())
        };
        let hearers: Vec<usize> = self
            .kiosks
            .values()
            .filter(hears)
            .map(|kiosk| kiosk.seat)
            .collect();
        for to in hearers {
            self.send(Letter {
                message,
                by,
                to,
                sent: self.now,
                again,
            });
        }
    }

    fn send(&mut self, letter: Letter) {
        let ways = self.story.radio.carry(&mut self.air_draws);
        self.counts.letters += 1;
        self.counts.repeated += u64::from(ways.len() > 1);
        if ways.is_empty() {
            self.counts.lost += 1;
            self.tell(letter.to, What::Lost(letter));
        }
        for way in ways {
            self.queue_at(letter.sent + way, Event::Arrive(letter));
        }
    }

    fn tick(&mut self, seat: usize) {
        let next = self.now + TICK + self.clock_draws.below(100) as Time;
        self.queue_at(next, Event::Tick(seat));
        self.vain_ticks += 1;
        if !self.kiosk(seat).awake() {
            return;
        }
        let again = self.kiosk(seat).again();
        if !again.is_empty() {
            self.tell(seat, What::Again(again.len()));
        }
        for message in again {
            self.broadcast(seat, message, true);
        }
    }

    /// Rule-breakers notice that a round is entered, and act a little later.
    fn notice(&mut self, round: u8) {
        if !self.plotted.insert(round) {
            return;
        }
        for breaker in 0..self.story.kiosks() {
            if self.story.breakers[breaker].is_some() {
                let wait = 30 + self.lie_draws.below(40) as Time;
                self.queue_at(self.now + wait, Event::Plot { breaker, round });
            }
        }
    }

    fn plot(&mut self, breaker: usize, round: u8) {
        let style = self.story.breakers[breaker].expect("a rule-breaker");
        let proposed = self.proposed.get(&round).copied();
        for lie in breaker::lies(
            self.story,
            breaker,
            style,
            round,
            proposed,
            &mut self.lie_draws,
        ) {
            self.queue_at(self.now + lie.after, Event::Lie { breaker, lie });
        }
    }

    fn lie(&mut self, breaker: usize, lie: Lie) {
        for (message, hearers) in &lie.faces {
            for &to in hearers {
                self.counts.lies += 1;
                self.send(Letter {
                    message: *message,
                    by: breaker,
                    to,
                    sent: self.now,
                    again: false,
                });
            }
        }
        let faces = lie
            .faces
            .into_iter()
            .map(|(message, to)| (message.name, to))
            .collect();
        self.tell(
            breaker,
            What::Lies {
                kind: lie.kind,
                round: lie.round,
                faces,
            },
        );
    }

    /// How long the power is gone, if the story cuts it in this call.
    fn cut_due(&mut self, seat: usize, outputs: &[Output]) -> Option<Time> {
        let accepted = self.kiosk(seat).accepted;
        for (at, cut) in self.story.cuts.iter().enumerate() {
            let due = match cut.when {
                When::At(_) => false,
                When::Call(number) => number == accepted,
                When::Says(kind) => outputs
                    .iter()
                    .any(|output| matches!(output, Output::Say(said, ..) if *said == kind)),
            };
            if due && cut.kiosk == seat && std::mem::take(&mut self.cuts_left[at]) {
                return Some(cut.lasts);
            }
        }
        None
    }

    /// The call was done, or not: nobody reads its answer, and the file keeps any first part of its group.
    fn cut_in_call(
        &mut self,
        seat: usize,
        input: Input,
        letter: Option<Letter>,
        outputs: &[Output],
        lasts: Time,
    ) -> Result<(), Broken> {
        let of = group_length(outputs);
        let left = match self.cut_draws.below(8) {
            0 => 0,
            1 | 2 => of,
            _ => self.cut_draws.below(of as usize + 1) as u64,
        };
        self.kiosk(seat).lose_power(left)?;
        self.counts.cuts_in_calls += 1;
        match left {
            0 => self.counts.nothing_left += 1,
            _ if left == of => self.counts.whole_left += 1,
            _ => self.counts.part_left += 1,
        }
        self.tell(
            seat,
            What::Torn {
                input,
                letter,
                left,
                of,
            },
        );
        self.queue_at(self.now + lasts, Event::Wake(seat));
        Ok(())
    }

    fn cut_between(&mut self, at: usize) -> Result<(), Broken> {
        let cut = self.story.cuts[at];
        if !self.kiosk(cut.kiosk).awake() {
            return Ok(());
        }
        self.counts.cuts_between += 1;
        self.tell(cut.kiosk, What::Cut);
        self.queue_at(self.now + cut.lasts, Event::Wake(cut.kiosk));
        self.kiosk(cut.kiosk).lose_power(0)
    }

    fn wake(&mut self, seat: usize) -> Result<(), Broken> {
        let woken = self.kiosk(seat).wake()?;
        self.vain_ticks = 0;
        self.counts.wakings += 1;
        self.counts.said_again += woken.again.messages.len() as u64;
        self.counts.asked_again += woken.again.timers.len() as u64;
        let again = [woken.again.messages, woken.again.timers].concat();
        let round = self.kiosk(seat).round();
        self.tell(
            seat,
            What::Wakes {
                kept: woken.kept,
                read: woken.read,
                round,
                again: again.clone(),
            },
        );
        if !self.kiosk(seat).started() {
            self.queue_at(self.now + 10, Event::Start(seat));
        }
        self.act_on(seat, &again, true);
        Ok(())
    }

    /// Ends every node, and checks the height.
    fn end(&mut self) -> Result<Found, Broken> {
        let kiosks = self.kiosks.values();
        let asleep = kiosks.filter(|kiosk| !kiosk.awake());
        for seat in asleep.map(|kiosk| kiosk.seat).collect::<Vec<_>>() {
            self.wake(seat)?;
        }
        let mut found = Found::default();
        for (seat, kiosk) in &mut self.kiosks {
            let text = kiosk.close()?;
            let listing = checks::lists(*seat, &text, &std::fs::read(&kiosk.journal)?)?;
            checks::all_kept(*seat, &listing)?;
            checks::answers_listed(*seat, &kiosk.records, &listing)?;
            found.texts.push((*seat, text));
            found.journals.push((*seat, listing));
        }
        checks::in_journals(&self.air, &found.journals)?;
        match checks::one_sheet(&found.sheets()) {
            Err(broken) if self.story.promised() => return Err(broken),
            Err(broken) => found.disagreement = Some(broken.0),
            Ok(()) => (),
        }
        Ok(found)
    }

    fn played(self, found: Found) -> Played {
        let seats = self.story.kiosks();
        let (mut settled, mut listings) = (vec![None; seats], vec![None; seats]);
        for (seat, listing) in &found.journals {
            settled[*seat] = listing.settled();
        }
        let (all, some) = (found.journals.len(), found.sheets().len());
        for (seat, text) in found.texts {
            listings[seat] = Some(text);
        }
        let mut counts = self.counts;
        counts.kiosks_settled = some as u64;
        counts.kiosks_left = (all - some) as u64;
        counts.all_settled = u64::from(some == all);
        counts.none_settled = u64::from(some == 0 && all > 0);
        counts.some_settled = 1 - counts.all_settled - counts.none_settled;
        counts.later_round = u64::from(settled.iter().flatten().any(|&(round, _)| round > 0));
        counts.messages = self.air.len() as u64;
        counts.disagreements = u64::from(found.disagreement.is_some());
        Played {
            story: self.story.clone(),
            moments: self.moments,
            counts,
            settled,
            listings,
            disagreement: found.disagreement,
            ended: self.now,
        }
    }
}

/// The journals at the end, as text and read, and what is wrong where nothing is promised.
#[derive(Default)]
struct Found {
    texts: Vec<(usize, String)>,
    journals: Vec<(usize, Listing)>,
    disagreement: Option<String>,
}

impl Found {
    /// Who settled what.
    fn sheets(&self) -> Vec<(usize, u64)> {
        let journals = self.journals.iter();
        let settled = |(seat, listing): &(usize, Listing)| Some((*seat, listing.settled()?.1));
        journals.filter_map(settled).collect()
    }
}
