//! What is counted over heights.

use std::fmt;
use std::ops::AddAssign;

macro_rules! counts {
    ($($(#[$doc:meta])* $name:ident),* $(,)?) => {
        #[derive(Clone, Default, PartialEq, Eq, Debug)]
        pub struct Counts {
            $($(#[$doc])* pub $name: u64,)*
            /// Refusals by number.
            pub refused: [u64; 16],
        }

        impl AddAssign<&Counts> for Counts {
            fn add_assign(&mut self, other: &Counts) {
                $(self.$name += other.$name;)*
                for (sum, more) in self.refused.iter_mut().zip(other.refused) {
                    *sum += more;
                }
            }
        }
    };
}

counts! {
    heights,
    /// Heights in which every rule-keeping kiosk settled, some did, none did.
    all_settled,
    some_settled,
    none_settled,
    /// Heights that settled in a later round than 0.
    later_round,
    kiosks_settled,
    kiosks_left,
    /// Heights with two sheets, where rule-breakers may hold a third and more.
    disagreements,
    calls,
    accepted,
    /// Messages of rule-keeping kiosks, each once however often it is said.
    messages,
    letters,
    lost,
    repeated,
    missed,
    /// Letters of rule-breakers, and heights that have any of them.
    lies,
    heights_with_breakers,
    cuts_between,
    cuts_in_calls,
    /// Of the cuts in calls: nothing, a part or the whole of the group left.
    nothing_left,
    part_left,
    whole_left,
    headers_torn,
    wakings,
    /// Messages and timers that nodes said again after waking.
    said_again,
    asked_again,
    full,
    late_timers,
}

impl Counts {
    pub fn refusals(&self) -> u64 {
        self.refused.iter().sum()
    }
}

impl fmt::Display for Counts {
    fn fmt(&self, f: &mut fmt::Formatter) -> fmt::Result {
        let refused = self
            .refused
            .iter()
            .enumerate()
            .filter(|(_, &count)| count > 0);
        let refused: Vec<String> = refused
            .map(|(number, count)| format!("{number}: {count}"))
            .collect();
        let (all, some, none) = (self.all_settled, self.some_settled, self.none_settled);
        let (nothing, part, whole) = (self.nothing_left, self.part_left, self.whole_left);
        let lines = [
            (
                "heights",
                format!(
                    "{}: all settled in {all}, some in {some}, none in {none}",
                    self.heights
                ),
            ),
            ("later round", format!("{} heights", self.later_round)),
            (
                "kiosks",
                format!(
                    "{} settled, {} left behind",
                    self.kiosks_settled, self.kiosks_left
                ),
            ),
            (
                "calls",
                format!(
                    "{}: accepted {}, refused {}",
                    self.calls,
                    self.accepted,
                    self.refusals()
                ),
            ),
            (
                "refused",
                if refused.is_empty() {
                    "none".into()
                } else {
                    refused.join(", ")
                },
            ),
            (
                "messages",
                format!("{} of rule-keeping kiosks", self.messages),
            ),
            (
                "letters",
                format!(
                    "{}: lost {}, brought twice {}, missed without power {}",
                    self.letters, self.lost, self.repeated, self.missed
                ),
            ),
            (
                "rule-breakers",
                format!(
                    "{} letters, in {} heights",
                    self.lies, self.heights_with_breakers
                ),
            ),
            (
                "power cuts",
                format!(
                    "{} between calls, {} in calls, {} in creating; {} wakings",
                    self.cuts_between, self.cuts_in_calls, self.headers_torn, self.wakings
                ),
            ),
            (
                "said again",
                format!(
                    "after waking {} messages, {} timers",
                    self.said_again, self.asked_again
                ),
            ),
            (
                "cut groups",
                format!("nothing left of {nothing}, a part of {part}, the whole of {whole}"),
            ),
            ("full partitions", self.full.to_string()),
            ("late timers", self.late_timers.to_string()),
            ("disagreements", self.disagreements.to_string()),
        ];
        lines
            .iter()
            .try_for_each(|(what, count)| writeln!(f, "{what:<16} {count}"))
    }
}

#[cfg(test)]
mod tests {
    use super::*;

    #[test]
    fn counts_add_up() {
        let mut sum = Counts {
            heights: 1,
            cuts_in_calls: 2,
            ..Counts::default()
        };
        let mut other = Counts {
            heights: 4,
            late_timers: 3,
            ..Counts::default()
        };
        other.refused[9] = 5;
        sum += &other;
        assert_eq!(
            (
                sum.heights,
                sum.cuts_in_calls,
                sum.late_timers,
                sum.refused[9]
            ),
            (5, 2, 3, 5)
        );
        assert!(sum.to_string().contains("9: 5"));
    }
}
