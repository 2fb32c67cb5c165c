//! What a height is made of: the roll, the rule-breakers, the radio, the cuts. Drawn from a seed, or one of the told stories.

use crate::words::Kind;
use compare::Random;

/// Hundredths of a simulated second.
pub type Time = u64;

/// How a rule-breaker behaves.
#[derive(Clone, Copy, PartialEq, Eq, Debug)]
pub enum Style {
    Silent,
    /// Says one thing to some kiosks and another to the rest.
    TwoFaced,
    /// Proposes two sheets and votes for neither.
    TwoSheets,
    /// Says anything of any round.
    Babbler,
}

/// Once in so many letters, 0 for never.
#[derive(Clone, Copy, PartialEq, Eq, Debug)]
pub struct Radio {
    pub loses: usize,
    pub repeats: usize,
    /// A letter that takes seconds, so that later ones overtake it.
    pub delays: usize,
}

/// When the power of a kiosk goes.
#[derive(Clone, Copy, PartialEq, Eq, Debug)]
pub enum When {
    /// Between two calls.
    At(Time),
    /// In the middle of the n-th call that is accepted, from 1.
    Call(usize),
    /// In the middle of the first call that says this.
    Says(Kind),
}

#[derive(Clone, Copy, PartialEq, Eq, Debug)]
pub struct Cut {
    pub kiosk: usize,
    pub when: When,
    /// How long the kiosk is without power.
    pub lasts: Time,
}

/// A partition with so many bytes left, for a while.
#[derive(Clone, Copy, PartialEq, Eq, Debug)]
pub struct Full {
    pub kiosk: usize,
    pub from: Time,
    pub room: u64,
    pub lasts: Time,
}

#[derive(Clone, PartialEq, Eq, Debug)]
pub struct Story {
    pub seed: u64,
    pub title: String,
    pub height: u32,
    pub powers: Vec<u16>,
    /// By seat; None keeps the rules.
    pub breakers: Vec<Option<Style>>,
    pub radio: Radio,
    /// Kiosks start before this.
    pub started_by: Time,
    /// A timer rings late once in so many.
    pub late: usize,
    pub cuts: Vec<Cut>,
    pub fulls: Vec<Full>,
    /// A kiosk whose power goes while its journal is created.
    pub torn_header: Option<usize>,
    /// A kiosk with nothing to propose.
    pub without_offer: Option<usize>,
    /// A kiosk's offers begin with this name.
    pub first_name: u64,
    /// Once in so many sheets a kiosk judges one bad.
    pub judges_bad: usize,
    /// Leaves out of the told lines the calls that say nothing.
    pub brief: bool,
}

/// What a command line fixes of a drawn height.
#[derive(Clone, Copy, Default, PartialEq, Eq, Debug)]
pub struct Wishes {
    pub kiosks: Option<usize>,
    pub dishonest: Option<usize>,
    /// Rule-breakers may hold a third of the power and more.
    pub over_a_third: bool,
}

pub const MOST_KIOSKS: usize = 32;

/// The told stories, by name.
pub const NAMES: [&str; 9] = [
    "plain",
    "silent-proposer",
    "power-cut",
    "unsent-vote",
    "two-faced-proposer",
    "left-behind",
    "full-partition",
    "market-of-28",
    "demo",
];

/// Numbers of their own for each part of a height, so that one part's draws leave the others' alone.
pub fn stream(seed: u64, part: u64) -> Random {
    let mut random = Random(seed ^ part.wrapping_mul(0xd6e8_feb8_6659_fd93));
    Random(random.number())
}

/// True once in so many, never for 0.
pub fn chance(random: &mut Random, times: usize) -> bool {
    times > 0 && random.once_in(times)
}

impl Story {
    fn quiet(seed: u64, title: &str, kiosks: usize) -> Story {
        Story {
            seed,
            title: title.to_string(),
            height: 1,
            powers: vec![1; kiosks],
            breakers: vec![None; kiosks],
            radio: Radio {
                loses: 0,
                repeats: 0,
                delays: 0,
            },
            started_by: 5,
            late: 0,
            cuts: Vec::new(),
            fulls: Vec::new(),
            torn_header: None,
            without_offer: None,
            first_name: 100,
            judges_bad: 0,
            brief: false,
        }
    }

    pub fn kiosks(&self) -> usize {
        self.powers.len()
    }

    /// The kiosk whose turn the round is: (h + r) mod n.
    pub fn proposer(&self, round: u8) -> usize {
        ((u64::from(self.height) + u64::from(round)) % self.kiosks() as u64) as usize
    }

    pub fn total(&self) -> u32 {
        self.powers.iter().map(|&power| u32::from(power)).sum()
    }

    /// The power of the rule-breakers.
    pub fn broken_power(&self) -> u32 {
        (self.powers.iter().zip(&self.breakers))
            .filter(|(_, style)| style.is_some())
            .map(|(&power, _)| u32::from(power))
            .sum()
    }

    /// 3B < T: what 01's promise of one sheet a height rests on.
    pub fn promised(&self) -> bool {
        3 * self.broken_power() < self.total()
    }

    /// The sheet that a kiosk would propose now; another every ten seconds, 0 for none.
    pub fn offer(&self, kiosk: usize, now: Time) -> u64 {
        if self.without_offer == Some(kiosk) {
            return 0;
        }
        let sheet = kiosk as u64 + 100 * (now / 1_000);
        self.first_name.wrapping_add(sheet).max(1)
    }

    /// The kiosk's own sheet checker: the same answer whenever it is asked.
    pub fn judges_good(&self, kiosk: usize, name: u64) -> bool {
        !chance(
            &mut stream(self.seed ^ name.rotate_left(17), 50 + kiosk as u64),
            self.judges_bad,
        )
    }

    /// The height of a seed.
    pub fn drawn(seed: u64, wishes: Wishes) -> Story {
        let mut random = stream(seed, 1);
        let kiosks = random.pick(&[1, 2, 3, 4, 4, 4, 4, 4, 4, 5, 5, 6, 7]);
        let kiosks = wishes.kiosks.unwrap_or(kiosks);
        let mut story = Story::quiet(seed, &format!("The height of seed {seed}"), kiosks);
        story.height = random.pick(&[0, 1, 2, 3, 7, 1_000_003, u32::MAX]);
        story.first_name = if random.once_in(4) {
            random.number()
        } else {
            100 * (1 + random.below(90) as u64)
        };
        story.draw_powers(&mut random, wishes);
        story.draw_breakers(&mut random, wishes);
        story.radio = Radio {
            loses: random.pick(&[0, 20, 10, 5]),
            repeats: random.pick(&[0, 20, 10, 5]),
            delays: random.pick(&[0, 20, 8]),
        };
        story.started_by = 40;
        story.late = random.pick(&[0, 8, 3]);
        story.judges_bad = random.pick(&[0, 0, 30]);
        let keepers: Vec<usize> = (0..kiosks)
            .filter(|&seat| story.breakers[seat].is_none())
            .collect();
        if keepers.is_empty() {
            return story;
        }
        for _ in 0..random.pick(&[0, 1, 1, 2, 3]) {
            let when = if random.once_in(3) {
                When::At(random.below(1_500) as Time)
            } else {
                When::Call(1 + random.below(4 + 2 * kiosks))
            };
            let lasts = 100 + random.below(1_400) as Time;
            story.cuts.push(Cut {
                kiosk: random.pick(&keepers),
                when,
                lasts,
            });
        }
        if random.once_in(3) {
            story.fulls.push(Full {
                kiosk: random.pick(&keepers),
                from: random.below(800) as Time,
                room: random.below(150) as u64,
                lasts: 200 + random.below(1_500) as Time,
            });
        }
        story.torn_header = random.once_in(12).then(|| random.pick(&keepers));
        story.without_offer = random.once_in(8).then(|| random.pick(&keepers));
        story
    }

    /// Mostly all 1; else small ones, some 0, or any.
    fn draw_powers(&mut self, random: &mut Random, wishes: Wishes) {
        let style = if wishes.dishonest.is_some() {
            0
        } else {
            random.below(6)
        };
        for power in &mut self.powers {
            *power = match style {
                3 => random.pick(&[1, 2, 3, 10]),
                4 => random.pick(&[0, 1, 1, 1_000]),
                5 => random.below(1_001) as u16,
                _ => 1,
            };
        }
        if self.total() == 0 {
            self.powers[0] = 1;
        }
    }

    /// As many as wished, else in half of the heights as many as stay below a third of the power.
    fn draw_breakers(&mut self, random: &mut Random, wishes: Wishes) {
        let mut seats: Vec<usize> = (0..self.kiosks()).collect();
        random.shuffle(&mut seats);
        let some = random.once_in(2);
        let wanted = wishes
            .dishonest
            .unwrap_or(if some { self.kiosks() } else { 0 });
        let coalition = random.once_in(2);
        for &seat in &seats[..wanted] {
            let style = random.pick(&[
                Style::Silent,
                Style::TwoFaced,
                Style::TwoFaced,
                Style::TwoSheets,
                Style::Babbler,
            ]);
            self.breakers[seat] = Some(if coalition || wishes.over_a_third {
                Style::TwoFaced
            } else {
                style
            });
            if wishes.dishonest.is_none() && !self.promised() {
                self.breakers[seat] = None;
            }
        }
    }

    /// A told story.
    pub fn told(name: &str) -> Option<Story> {
        let story = match name {
            "plain" => Story::quiet(1, "A plain height", 4),
            "silent-proposer" => {
                let mut story = Story::quiet(2, "A silent proposer", 4);
                story.breakers[1] = Some(Style::Silent);
                story
            }
            "power-cut" => {
                let mut story = Story::quiet(3, "A power cut between prevote and precommit", 4);
                story.breakers[3] = Some(Style::Silent);
                story.cuts.push(Cut {
                    kiosk: 2,
                    when: When::Says(Kind::Precommit),
                    lasts: 300,
                });
                story
            }
            "unsent-vote" => {
                let mut story = Story::quiet(7, "A prevote that is written and not sent", 4);
                story.breakers[3] = Some(Style::Silent);
                story.cuts.push(Cut {
                    kiosk: 2,
                    when: When::Says(Kind::Prevote),
                    lasts: 150,
                });
                story
            }
            "two-faced-proposer" => {
                let mut story = Story::quiet(4, "A two-faced proposer", 4);
                story.breakers[1] = Some(Style::TwoSheets);
                story
            }
            "left-behind" => {
                let mut story =
                    Story::quiet(4, "A two-faced proposer that backs both its sheets", 4);
                story.breakers[1] = Some(Style::TwoFaced);
                story
            }
            "full-partition" => {
                let mut story = Story::quiet(5, "A full partition", 4);
                story.fulls.push(Full {
                    kiosk: 3,
                    from: 20,
                    room: 40,
                    lasts: 400,
                });
                story
            }
            "market-of-28" => {
                let mut story = Story::quiet(6, "Twenty-eight kiosks, nine of them dishonest", 28);
                let styles = [
                    Style::TwoFaced,
                    Style::TwoFaced,
                    Style::Silent,
                    Style::TwoFaced,
                    Style::Babbler,
                ];
                for (place, seat) in [1, 4, 7, 10, 13, 16, 19, 22, 25].into_iter().enumerate() {
                    story.breakers[seat] = Some(styles[place % styles.len()]);
                }
                story.radio.repeats = 40;
                story.brief = true;
                story
            }
            "demo" => {
                let mut story = Story::quiet(16, "Four kiosks, a lossy radio and a power cut", 4);
                story.radio = Radio {
                    loses: 6,
                    repeats: 8,
                    delays: 10,
                };
                story.cuts.push(Cut {
                    kiosk: 2,
                    when: When::Says(Kind::Precommit),
                    lasts: 300,
                });
                story
            }
            _ => return None,
        };
        Some(story)
    }
}

#[cfg(test)]
mod tests {
    use super::*;

    #[test]
    fn the_same_seed_draws_the_same_story_and_others_draw_others() {
        let draw = |seed| Story::drawn(seed, Wishes::default());
        assert!((0..200).all(|seed| draw(seed) == draw(seed)));
        let differing = (0..200).filter(|&seed| {
            let (mut one, other) = (draw(seed), draw(seed + 1));
            one.seed = other.seed;
            one.title.clone_from(&other.title);
            one != other
        });
        assert_eq!(differing.count(), 200);
    }

    /// The generator's numbers are these on every machine, so a seed told to a colleague is the same story there.
    #[test]
    fn the_numbers_of_a_stream_are_these() {
        let mut random = stream(1, 1);
        assert_eq!(
            [random.number(), random.number()],
            [10_444_196_813_557_099_703, 17_276_746_113_013_253_301]
        );
        assert_ne!(stream(1, 1).number(), stream(1, 2).number());
        assert_ne!(stream(1, 1).number(), stream(2, 1).number());
    }

    #[test]
    fn rule_breakers_stay_below_a_third_unless_wished() {
        let stories = (0..500).map(|seed| Story::drawn(seed, Wishes::default()));
        let mut with_some = 0;
        for story in stories {
            assert!(story.promised(), "seed {}", story.seed);
            with_some += usize::from(story.broken_power() > 0);
        }
        assert!(
            with_some > 100,
            "{with_some} of 500 heights have rule-breakers"
        );
        let wishes = Wishes {
            kiosks: Some(4),
            dishonest: Some(2),
            over_a_third: true,
        };
        assert!(!Story::drawn(1, wishes).promised());
    }

    #[test]
    fn every_told_story_is_there_and_keeps_the_third() {
        for name in NAMES {
            assert!(
                Story::told(name).is_some_and(|story| story.promised()),
                "{name}"
            );
        }
        assert_eq!(Story::told("no such story"), None);
    }

    #[test]
    fn names_are_never_nil_but_for_one_without_offer() {
        let mut story = Story::quiet(1, "", 4);
        story.first_name = u64::MAX - 1;
        assert!((0..4).all(|kiosk| story.offer(kiosk, 0) != 0));
        story.without_offer = Some(2);
        assert_eq!(story.offer(2, 5_000), 0);
    }
}
