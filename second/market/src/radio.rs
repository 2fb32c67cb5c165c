//! The radio: it loses letters, brings some twice, and lets later ones overtake.

use crate::story::{chance, Radio, Time};
use crate::words::Message;
use compare::Random;

/// A message on its way to one kiosk. `by` has put it on the air: its sender, or a kiosk that says again what it heard.
#[derive(Clone, Copy, PartialEq, Eq, Debug)]
pub struct Letter {
    pub message: Message,
    pub by: usize,
    pub to: usize,
    pub sent: Time,
    /// Said again on a slow tick.
    pub again: bool,
}

impl Radio {
    /// After how long a letter comes, each time that it comes; empty where it is lost.
    pub fn carry(&self, random: &mut Random) -> Vec<Time> {
        if chance(random, self.loses) {
            return Vec::new();
        }
        let mut ways = vec![self.way(random)];
        if chance(random, self.repeats) {
            ways.push(self.way(random) + 40);
        }
        ways
    }

    fn way(&self, random: &mut Random) -> Time {
        let slow = if chance(random, self.delays) {
            100 + random.below(500)
        } else {
            0
        };
        (5 + random.below(55) + slow) as Time
    }
}

#[cfg(test)]
mod tests {
    use super::*;
    use crate::story::stream;

    #[test]
    fn a_good_radio_brings_every_letter_once() {
        let radio = Radio {
            loses: 0,
            repeats: 0,
            delays: 0,
        };
        let mut random = stream(1, 2);
        assert!((0..1_000).all(|_| matches!(radio.carry(&mut random)[..], [5..=59])));
    }

    #[test]
    fn a_bad_radio_loses_repeats_and_reorders() {
        let radio = Radio {
            loses: 5,
            repeats: 5,
            delays: 5,
        };
        let mut random = stream(1, 2);
        let ways: Vec<Vec<Time>> = (0..1_000).map(|_| radio.carry(&mut random)).collect();
        let count = |times: usize| ways.iter().filter(|way| way.len() == times).count();
        assert!(
            count(0) > 150 && count(2) > 100,
            "{} lost, {} twice",
            count(0),
            count(2)
        );
        assert!(ways.iter().flatten().any(|&way| way > 300));
    }
}
