//! States, tables, lengths and inputs that no call left.

use crate::calls::{Lent, JUNK};
use crate::inputs;
use crate::random::Random;
use flat::{heard, Kiosk, BAD, GOOD, KIOSKS, ROUNDS, TABLE};
use second::Input;

const SIZES: [usize; 11] = [0, 1, 4, 7, 8, 31, 32, 33, 1_000, usize::MAX - 1, usize::MAX];
const BYTES: [u8; 10] = [0, 1, 2, 3, 14, 15, 16, 17, 254, 255];
const NAMES: [u64; 4] = [0, 40, 41, u64::MAX];

/// Numbers of the log at the edges: of what is said of a proposal, of a byte, and of their own width.
pub const NUMBERS: [u32; 8] = [0, BAD, GOOD, 3, 255, 256, 1 << 31, u32::MAX];

/// One number of a state, table or area changed, to one that second's state can hold.
pub fn change(lent: &mut Lent, random: &mut Random) {
    let byte = random.pick(&BYTES);
    let size = random.pick(&SIZES);
    let yes = random.below(2) as u8;
    let marks = (1 << random.below(32)) | (1 << random.below(7));
    let number = random.pick(&NUMBERS);
    let held = (
        random.pick(&[0, 1, 1, 2, 3, byte]),
        random.pick(&[0, 40, 41, 42]),
    );
    let kiosk = &mut lent.kiosk;
    let round = random.below(16);
    match random.below(24) {
        0 if random.once_in(4) => kiosk.kiosks = size,
        1 => kiosk.powers[random.below(32)] = random.pick(&[0, 1, 1_000, 1_001, u16::MAX]),
        2 => kiosk.own = random.below(3),
        3 if random.once_in(4) => kiosk.own = size,
        4 if random.once_in(4) => kiosk.height = random.number() as u32,
        5 => {
            let phase = random.below(3) as u8;
            kiosk.phase = phase;
            kiosk.settled = if phase == flat::SETTLED { byte } else { 0 };
        }
        6 => kiosk.round = byte,
        7 => kiosk.step = random.below(3) as u8,
        8 => kiosk.asked_propose = yes,
        9 => kiosk.asked_prevote = yes,
        10 => kiosk.asked_precommit = yes,
        11 => kiosk.backed = yes,
        12 => (kiosk.locked_next, kiosk.locked_name) = held,
        13 => (kiosk.valid_next, kiosk.valid_name) = held,
        14 | 15 => kiosk.log[round][heard::PROPOSAL] = random.pick(&[0, BAD, GOOD, number]),
        16 => kiosk.log[round][heard::VALID] = random.pick(&[byte.into(), number]),
        17 => kiosk.log[round][heard::PREVOTES] ^= marks,
        18 => kiosk.log[round][heard::PRECOMMITS] ^= marks,
        19 => kiosk.used = size,
        20 => kiosk.last = size,
        21 => {
            // A table cut short before may lack the place.
            if let Some(name) = lent.table.get_mut(random.below(TABLE)) {
                *name = random.pick(&NAMES);
            }
        }
        22 if random.once_in(4) => lent.table.truncate(random.below(TABLE + 1)),
        23 => {
            let used = kiosk.used;
            let area = random.pick(&[0, used.saturating_sub(1), used, used.saturating_add(30)]);
            lent.journal.truncate(area);
        }
        _ => (),
    }
}

/// One number that second's state cannot hold.
pub fn unholdable(kiosk: &mut Kiosk, random: &mut Random) {
    let over = |random: &mut Random, most: u8| random.pick(&[most + 1, most + 2, 128, 255]);
    let flag = over(random, 1);
    match random.below(7) {
        0 => kiosk.phase = over(random, 2),
        1 => kiosk.step = over(random, 2),
        2 => kiosk.asked_propose = flag,
        3 => kiosk.asked_prevote = flag,
        4 => kiosk.asked_precommit = flag,
        5 => kiosk.backed = flag,
        _ => {
            kiosk.phase = random.below(2) as u8;
            kiosk.settled = random.pick(&[1, 15, 16, 255]);
        }
    }
}

/// A number from 0 to `most`, now and then any.
fn number(random: &mut Random, most: usize) -> usize {
    if random.once_in(100) {
        return random.number() as usize;
    }
    random.below(most + 1)
}

fn byte(random: &mut Random, most: usize) -> u8 {
    number(random, most) as u8
}

/// A number of the log: from 0 to `most`, now and then any or one at the edges.
fn wide(random: &mut Random, most: usize) -> u32 {
    if random.once_in(10) {
        return random.pick(&NUMBERS);
    }
    number(random, most) as u32
}

/// Whose turn the round is, on any roll.
fn proposer(kiosk: &Kiosk, round: u8) -> u8 {
    let turn = u64::from(kiosk.height) + u64::from(round);
    (turn % kiosk.kiosks.max(1) as u64) as u8
}

/// Every number of a state and table picked alone.
pub fn uniform(random: &mut Random) -> Lent {
    let phase = byte(random, 2);
    let mut held = || match random.below(3) {
        0 => (byte(random, 3), random.pick(&NAMES)),
        _ => (0, 0),
    };
    let ((locked_next, locked_name), (valid_next, valid_name)) = (held(), held());
    let most_settled = if phase == flat::SETTLED { 15 } else { 0 };
    let mut kiosk = Kiosk {
        kiosks: number(random, 6),
        own: number(random, 1),
        used: number(random, 150),
        last: number(random, 15),
        locked_name,
        valid_name,
        height: number(random, 3) as u32,
        phase,
        settled: byte(random, most_settled),
        round: byte(random, 4),
        step: byte(random, 2),
        asked_propose: byte(random, 1),
        asked_prevote: byte(random, 1),
        asked_precommit: byte(random, 1),
        backed: byte(random, 1),
        locked_next,
        valid_next,
        ..Kiosk::default()
    };
    // Two of three states have seats on the roll alone; a fresh one has mostly heard nothing.
    let off_roll = u32::MAX.checked_shl(kiosk.kiosks as u32).unwrap_or(0);
    let seats = if random.once_in(3) {
        u32::MAX
    } else {
        !off_roll
    };
    let quiet = if phase == flat::FRESH { 300 } else { 6 };
    kiosk.powers.fill_with(|| match random.below(200) {
        0 => random.number() as u16,
        _ => random.pick(&[0, 1, 1, 2, 1_000]),
    });
    let mut table = vec![0; TABLE];
    for round in 0..ROUNDS {
        if !random.once_in(quiet) {
            continue;
        }
        kiosk.log[round][heard::PREVOTES] = (random.number() & random.number()) as u32 & seats;
        kiosk.log[round][heard::PRECOMMITS] = (random.number() & random.number()) as u32 & seats;
        kiosk.log[round][heard::PROPOSAL] = wide(random, 2);
        kiosk.log[round][heard::VALID] = wide(random, round);
        table[65 * round..65 * (round + 1)].fill_with(|| random.pick(&[0, 40, 40, 41]));
    }
    let area = kiosk.used.min(1_000) + random.pick(&[0, 25, 26, 38, 50, 100]);
    Lent {
        kiosk,
        table,
        journal: vec![JUNK; area],
    }
}

/// A running state in which most votes are for one sheet, and an input that a rule may wait for. Calls would not leave
/// every such lock: one for another sheet than the large prevotes of its round, for one.
pub fn ripe(random: &mut Random) -> (Lent, Input) {
    let kiosks = random.pick(&[1, 2, 3, 4, 4, 5, 7, 32]);
    let seats = u32::MAX >> (KIOSKS - kiosks);
    let round = random.pick(&[0, 1, 1, 2, 3, 14, 15]);
    let earlier = random.below(usize::from(round) + 1) as u8;
    let mut held = || match random.below(3) {
        0 => (0, 0),
        _ => (
            random
                .pick(&[1, earlier, earlier + 1, earlier + 2])
                .clamp(1, round + 1),
            random.pick(&[40, 41]),
        ),
    };
    let ((locked_next, locked_name), (valid_next, valid_name)) = (held(), held());
    let used = 7 + 2 * kiosks;
    let kiosk = Kiosk {
        kiosks,
        own: random.below(kiosks),
        used,
        last: used,
        locked_name,
        valid_name,
        height: random.below(40) as u32,
        powers: [random.pick(&[1, 1_000]); KIOSKS],
        phase: flat::RUNNING,
        round,
        step: random.below(3) as u8,
        asked_propose: random.below(2) as u8,
        asked_prevote: random.below(2) as u8,
        asked_precommit: random.below(2) as u8,
        backed: random.below(2) as u8,
        locked_next,
        valid_next,
        ..Kiosk::default()
    };
    let mut lent = Lent {
        kiosk,
        table: vec![0; TABLE],
        journal: vec![JUNK; used + 98],
    };
    for at in 0..ROUNDS {
        let near = at <= usize::from(round);
        if !near && !random.once_in(6) {
            continue;
        }
        let mut marks = |dense: bool| {
            let (one, other) = (random.number() as u32, random.number() as u32);
            seats & if dense { one | other } else { one & other }
        };
        lent.kiosk.log[at][heard::PREVOTES] = marks(near);
        lent.kiosk.log[at][heard::PRECOMMITS] = marks(false);
        let number = random.pick(&NUMBERS);
        let proposal = random.pick(&[0, 0, 0, 0, 0, 0, BAD, GOOD, number.max(GOOD)]);
        // What is not heard has any valid round.
        lent.kiosk.log[at][heard::VALID] = match proposal {
            0 => number,
            _ => random.below(at + 1) as u32,
        };
        lent.kiosk.log[at][heard::PROPOSAL] = proposal;
        let names = &mut lent.table[65 * at..65 * (at + 1)];
        names.fill_with(|| random.pick(&[40, 40, 40, 40, 40, 40, 41, 0]));
        names[0] = names[0].max(40);
    }
    let height = kiosk.height;
    let heard = match random.below(6) {
        0 => (round + 1).min(15),
        _ => round,
    };
    let seat = random.below(kiosks) as u8;
    let name = random.pick(&[40, 40, 0]);
    let mut input = match random.pick(&[2, 2, 2, 3, 3, 4, 4, 5, 6, 7]) {
        2 => {
            let proposer = proposer(&kiosk, heard);
            let valid = random.pick(&[0, earlier]) as i8;
            inputs::proposal(
                height,
                proposer,
                heard,
                40,
                valid - 1,
                random.below(2) as u8,
            )
        }
        3 => inputs::prevote(height, seat, heard, name),
        4 => inputs::precommit(height, seat, heard, name),
        kind => inputs::timer(height, kind, heard),
    };
    input.offer = random.pick(&NAMES);
    (lent, input)
}

/// What is lent, once for each two of `NUMBERS` as a round's proposal and its valid round, with a name for it; and once for
/// each as a round's marks.
pub fn numbers_in_the_log(lent: &Lent) -> Vec<Lent> {
    let mut all = vec![];
    let mut add = |round: usize, written: [Option<u32>; 4]| {
        let mut lent = lent.clone();
        for (place, number) in lent.kiosk.log[round].iter_mut().zip(written) {
            *place = number.unwrap_or(*place);
        }
        if written[heard::PROPOSAL].is_some() {
            lent.table[65 * round] = lent.table[65 * round].max(40);
        }
        all.push(lent);
    };
    for round in 0..ROUNDS {
        for one in NUMBERS.map(Some) {
            for other in NUMBERS.map(Some) {
                add(round, [None, None, one, other]);
            }
            add(round, [one, None, None, None]);
            add(round, [None, one, None, None]);
        }
    }
    all
}

/// What is lent with each of the journal's bytes changed in three ways: one bit, all bits, and to the count of an input. `look` gets
/// the used length with it.
pub fn damaged(lent: &mut Lent, mut look: impl FnMut(usize, &mut Lent)) {
    let used = lent.kiosk.used;
    for at in 0..used {
        let is = lent.journal[at];
        for byte in [is ^ 1 << (at % 8), !is, 24] {
            lent.journal[at] = byte;
            look(used, lent);
        }
        lent.journal[at] = is;
    }
}

/// An input with every number picked alone, the sender of a proposal aside.
pub fn input(kiosk: &Kiosk, random: &mut Random) -> Input {
    let kind = byte(random, 8);
    let round = match random.below(3) {
        0 => byte(random, 16),
        _ => kiosk.round,
    };
    // What start and timers, or start alone, must not carry.
    let carries = |random: &mut Random, most: usize| match kind {
        2..=4 => byte(random, most),
        _ => byte(random, 0),
    };
    Input {
        kind,
        height: kiosk.height.wrapping_add(u32::from(random.once_in(20))),
        sender: match kind {
            2 => proposer(kiosk, round),
            _ => carries(random, 6),
        },
        round: if kind == 1 { byte(random, 0) } else { round },
        valid: byte(random, if kind == 2 { 2 } else { 0 }),
        verdict: byte(random, usize::from(kind == 2)),
        name: match carries(random, 2) {
            0 => 0,
            other => 39 + u64::from(other),
        },
        offer: random.pick(&NAMES),
    }
}
