//! A string of bytes played as calls: a journal to open with a used length and an area, then puts, made-up ones among
//! them, and power cuts, after which it is said again. For the fuzzer and its kept cases.

use crate::calls::{Lent, Sides};
use flat::heard;
use second::Input;

/// Reads on from the front; 0 after the end.
struct Bytes<'a>(&'a [u8]);

impl<'a> Bytes<'a> {
    fn byte(&mut self) -> u8 {
        self.part(1).first().copied().unwrap_or(0)
    }

    fn pair(&mut self) -> usize {
        usize::from(self.byte()) | usize::from(self.byte()) << 8
    }

    fn part(&mut self, length: usize) -> &'a [u8] {
        let (part, rest) = self.0.split_at(length.min(self.0.len()));
        self.0 = rest;
        part
    }
}

/// More calls than this in one string only slow the fuzzer.
const MOST_CALLS: usize = 200;

/// Every call is compared with second. Gives how many came after an opening, none where that is refused.
pub fn play(sides: Sides, data: &[u8]) -> Option<usize> {
    let mut bytes = Bytes(data);
    let (mut lent, used) = journal(sides, &mut bytes);
    sides.again(used, &mut lent.clone(), flat::AGAIN);
    if sides.open(used, &mut lent).number != 0 {
        return None;
    }
    for done in 0..MOST_CALLS {
        if bytes.0.is_empty() {
            return Some(done);
        }
        match bytes.byte() % 8 {
            0 => made_up_put(sides, &mut bytes, lent.clone()),
            1 => {
                // Also a byte or two past the end. What is left of the number is the room to say it again.
                let (number, lengths) = (bytes.pair(), lent.kiosk.used + 3);
                sides.open(number % lengths, &mut lent.clone());
                sides.again(number % lengths, &mut lent.clone(), number / lengths);
            }
            _ => put(sides, &mut bytes, &mut lent),
        }
    }
    Some(MOST_CALLS)
}

/// A first byte below 128: so many raw bytes, and room; else a created journal.
fn journal(sides: Sides, bytes: &mut Bytes) -> (Lent, usize) {
    let first = bytes.byte();
    if first < 128 {
        let length = bytes.pair();
        let claimed = bytes.pair();
        let raw = bytes.part(length);
        let mut lent = Lent::new(raw.len() + usize::from(first));
        lent.journal[..raw.len()].copy_from_slice(raw);
        return (lent, if claimed == 0 { raw.len() } else { claimed });
    }
    let powers: Vec<u16> = (0..=first % 33)
        .map(|_| match bytes.byte() {
            255 => 1_001,
            254 => 1_000,
            other => u16::from(other % 4),
        })
        .collect();
    let own = usize::from(bytes.byte() % 34);
    let height = u32::from(bytes.byte());
    let mut lent = Lent::new(2_000);
    let used = sides.create(&powers, own, height, &mut lent).used;
    (lent, used)
}

/// One byte for all but the kind's own fields, so that few bytes make an input that is accepted.
fn input(bytes: &mut Bytes, lent: &Lent) -> Input {
    let kiosk = &lent.kiosk;
    let kind = bytes.byte();
    let flags = bytes.byte();
    let mut input = Input {
        kind: kind % 9,
        height: kiosk.height.wrapping_add(u32::from(flags & 15 == 15)),
        sender: bytes.byte() % 34,
        round: kiosk.round.wrapping_add(flags >> 4 & 3),
        valid: 0,
        verdict: 0,
        name: u64::from(bytes.byte() % 8),
        offer: u64::from(flags >> 6),
    };
    if input.kind == 2 {
        let more = bytes.byte();
        input.valid = more >> 1 & 31;
        input.verdict = more & 1;
    }
    if kind >= 252 {
        input.round = bytes.byte();
        input.valid = bytes.byte();
        input.verdict = bytes.byte();
    }
    input
}

/// A refused put changes nothing; an accepted one, opened again, gives its own state and table.
fn put(sides: Sides, bytes: &mut Bytes, lent: &mut Lent) {
    let input = input(bytes, lent);
    let before = lent.clone();
    let (reply, _) = sides.put(&input, lent);
    sides.last(lent);
    if reply.number != 0 {
        check_unchanged(&before, lent);
    } else {
        let mut again = lent.clone();
        assert_eq!(sides.open(lent.kiosk.used, &mut again).number, 0);
        assert_eq!(again.kiosk, lent.kiosk, "opened again");
        assert!(again.table == lent.table, "opened again");
    }
}

fn check_unchanged(before: &Lent, after: &Lent) {
    assert_eq!(before.kiosk, after.kiosk, "a refusal changed the state");
    assert!(before.table == after.table, "a refusal changed the table");
    assert!(
        before.journal == after.journal,
        "a refusal changed the journal"
    );
}

/// One to four numbers changed; the state is not gone on from.
fn made_up_put(sides: Sides, bytes: &mut Bytes, mut lent: Lent) {
    for _ in 0..=bytes.byte() % 4 {
        change(bytes, &mut lent);
    }
    let input = input(bytes, &lent);
    let before = lent.clone();
    let (reply, _) = sides.put(&input, &mut lent);
    sides.last(&lent);
    if reply.number != 0 {
        check_unchanged(&before, &lent);
    }
}

/// The greatest bytes stand for numbers at the edges of a byte and of 32 bits.
fn wide(byte: u8) -> u32 {
    match byte {
        252 => 255,
        253 => 256,
        254 => 1 << 31,
        255 => u32::MAX,
        _ => byte.into(),
    }
}

fn change(bytes: &mut Bytes, lent: &mut Lent) {
    let field = bytes.byte();
    let byte = bytes.byte();
    let kiosk = &mut lent.kiosk;
    let round = usize::from(field >> 4);
    let marks = 1 << (byte % 32) | 1 << (byte >> 5);
    match field % 27 {
        0 => kiosk.kiosks = byte.into(),
        1 => kiosk.own = byte.into(),
        2 => kiosk.used = kiosk.used.wrapping_add_signed(isize::from(byte as i8)),
        3 => kiosk.last = kiosk.last.wrapping_add_signed(isize::from(byte as i8)),
        4 => kiosk.locked_name = byte.into(),
        5 => kiosk.valid_name = byte.into(),
        6 => kiosk.height = byte.into(),
        7 => kiosk.powers[usize::from(byte % 32)] = u16::from(byte >> 5) * 200,
        8 => kiosk.phase = byte,
        9 => kiosk.settled = byte,
        10 => kiosk.round = byte,
        11 => kiosk.step = byte,
        12 => kiosk.asked_propose = byte,
        13 => kiosk.asked_prevote = byte,
        14 => kiosk.asked_precommit = byte,
        15 => kiosk.backed = byte,
        16 => kiosk.locked_next = byte,
        17 => kiosk.valid_next = byte,
        18 => kiosk.log[round][heard::PREVOTES] ^= marks,
        19 => kiosk.log[round][heard::PRECOMMITS] ^= marks,
        20 => kiosk.log[round][heard::PROPOSAL] = wide(byte),
        21 => kiosk.log[round][heard::PROPOSAL] = (byte % 4).into(),
        22 => kiosk.log[round][heard::VALID] = wide(byte),
        23 | 24 => {
            let place = bytes.pair() % flat::TABLE;
            if let Some(name) = lent.table.get_mut(place) {
                *name = u64::from(byte % 8);
            }
        }
        25 => lent.table.truncate(flat::TABLE - usize::from(byte % 2)),
        _ => lent
            .journal
            .truncate(kiosk.used.saturating_add(byte.into())),
    }
}
