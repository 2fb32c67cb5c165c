//! Weighing: a set of senders by its power, for any total and not only 3f + 1.
//! A set holds a sender once, so each sender counts once.

use std::collections::BTreeSet;

/// "A set with power P is large when 3P > 2T"; read for 003's 2f + 1.
pub fn large(power: u32, total: u32) -> bool {
    3 * u64::from(power) > 2 * u64::from(total)
}

/// "... and some when 3P > T"; read for 003's f + 1.
pub fn some(power: u32, total: u32) -> bool {
    3 * u64::from(power) > u64::from(total)
}

/// T, for a roll of at most 32 kiosks.
pub(crate) fn total(roll: &[u16]) -> u32 {
    roll.iter().map(|&power| u32::from(power)).sum()
}

/// P of a set of seats on the roll.
pub(crate) fn power(roll: &[u16], senders: &BTreeSet<usize>) -> u32 {
    senders.iter().map(|&seat| u32::from(roll[seat])).sum()
}
