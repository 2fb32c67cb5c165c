//! Saying it again, put to engines and to second over journals of random heights: at every cut, with damage at every byte, in every
//! area, and with lengths that do not fit.

use crate::calls::{Lent, Sides, JUNK};
use crate::made_up;
use crate::met::Met;
use crate::random::Random;
use flat::{AGAIN, ROOMY, TABLE};
use second::Output;
use std::collections::BTreeSet;

/// The greatest area: some bytes more than always do.
const MOST: usize = AGAIN + 8;

/// The outputs of a list, and the bytes behind it.
pub fn list(bytes: &[u8]) -> (Vec<Output>, &[u8]) {
    let (outputs, rest) = bytes[1..].split_at(12 * usize::from(bytes[0]));
    let outputs = outputs.chunks_exact(12).map(|bytes| {
        assert_eq!(bytes[3], 0);
        Output {
            kind: bytes[0],
            round: bytes[1],
            valid: bytes[2],
            name: u64::from_le_bytes(bytes[4..].try_into().expect("eight bytes")),
        }
    });
    (outputs.collect(), rest)
}

/// Each length of a journal, with room and in an area that may be too small.
pub fn every_cut(sides: Sides, heights: usize) {
    let mut met = Met::default();
    let mut random = Random(82);
    for seed in 0..heights {
        let (_, lent) = sides.bounded(seed);
        for cut in 0..=lent.kiosk.used {
            for room in [AGAIN, random.below(MOST + 1)] {
                let (reply, _) = sides.again(cut, &mut lent.clone(), room);
                met.number(reply.number);
            }
        }
    }
    met.check_numbers("cuts said again", [0, 12, 13]);
}

pub fn every_byte(sides: Sides, heights: usize) {
    let mut met = Met::default();
    let mut random = Random(83);
    for seed in 0..heights {
        let (_, mut lent) = sides.bounded(seed);
        made_up::damaged(&mut lent, |used, lent| {
            let (reply, _) = sides.again(used, lent, random.below(MOST + 1));
            met.number(reply.number);
        });
    }
    met.check_numbers("damage said again", [0, 12, 14]);
}

/// Each height at a length of its own, early and late ones, in every area.
pub fn every_area(sides: Sides, heights: usize) {
    let (mut messages, mut timers) = (BTreeSet::new(), BTreeSet::new());
    for seed in 0..heights {
        let puts = seed * 7 % 150;
        let (_, lent) = sides.delivered(seed, 1 + seed % 7, puts, &mut Met::default());
        let again = |room| sides.again(lent.kiosk.used, &mut lent.clone(), room);
        let (_, said) = again(AGAIN);
        let (first, rest) = list(&said);
        let (second, rest) = list(rest);
        let length = said.len() - rest.len();
        messages.insert(first.len());
        timers.insert(second.len());
        for room in (0..=MOST).chain([1_000]) {
            let (reply, area) = again(room);
            let number = if room < length { 12 } else { 0 };
            assert_eq!((reply.number, reply.kiosk), (number, lent.kiosk));
            let (lists, rest) = area.split_at(if number == 0 { length } else { 0 });
            assert!(lists == &said[..lists.len()], "other lists in {room} bytes");
            assert!(rest.iter().all(|&byte| byte == JUNK), "other bytes changed");
        }
    }
    println!("said again: messages {messages:?}, timers {timers:?}");
    assert!(messages.is_superset(&(0..=5).collect()));
    assert!(timers.is_superset(&(0..=2).collect()));
}

/// Used lengths over the area, and tables of another length: 1, in every area.
pub fn wrong_lengths(sides: Sides, heights: usize) {
    for seed in 0..heights {
        let (_, lent) = sides.delivered(seed, 1 + seed % 7, 20, &mut Met::default());
        let (used, area) = (lent.kiosk.used, lent.journal.len());
        let refused = |used, lent: &Lent| {
            for room in [0, 1, AGAIN, MOST] {
                let (reply, _) = sides.again(used, &mut lent.clone(), room);
                assert_eq!(reply.number, 1);
            }
        };
        for over in [area + 1, area + 24, ROOMY + 1, usize::MAX] {
            refused(over, &lent);
        }
        for places in [0, 1, TABLE - 1, TABLE + 1] {
            let mut lent = lent.clone();
            lent.table.resize(places, 7);
            refused(used, &lent);
            refused(area + 1, &lent);
        }
        let mut short = lent.clone();
        short.journal.truncate(used - 1);
        refused(used, &short);
    }
}
