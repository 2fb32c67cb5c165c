//! Made-up states, tables, used lengths, inputs, rolls and journals, each call compared whole.

mod common;
use common::*;
use compare::inputs::{precommit, prevote, start};
use compare::{made_up, Lent, Market, Met, Random};
use flat::{heard, ROOMY, TABLE};
use second::Input;

/// One to three numbers of a state that calls left changed; every number picked alone; and states near a rule.
#[test]
fn puts() {
    let mut met = Met::default();
    let mut ripe = Met::default();
    let mut random = Random(77);
    let each = 100;
    for seed in 0..calls() / each {
        let puts = random.below(60);
        let (mut delivery, lent) = delivered(seed, 1 + seed % 7, puts, &mut Met::default());
        let state = lent.state().unwrap();
        for _ in 0..each {
            let input = delivery.input(&state, &lent.table);
            let mut near = lent.clone();
            for _ in 0..1 + random.below(3) {
                made_up::change(&mut near, &mut random);
            }
            SIDES.last(&near);
            met.put(&SIDES.put(&input, &mut near));
            let mut lent = made_up::uniform(&mut random);
            let input = made_up::input(&lent.kiosk, &mut random);
            SIDES.last(&lent);
            met.put(&SIDES.put(&input, &mut lent));
            let (mut lent, input) = made_up::ripe(&mut random);
            ripe.put(&SIDES.put(&input, &mut lent));
        }
    }
    ripe.check("near a rule", [0, 1, 6, 8, 9, 10, 11]);
    met.check("made-up puts", 0..=12);
}

/// Numbers that only the flat state can hold, in states and inputs that are otherwise accepted.
#[test]
fn unholdable_numbers() {
    let mut random = Random(78);
    let mut accepted = 0;
    for seed in 0..calls() / 100 {
        let puts = random.below(40);
        let (mut delivery, lent) = delivered(seed, 1 + seed % 7, puts, &mut Met::default());
        let state = lent.state().unwrap();
        for _ in 0..20 {
            let input = delivery.input(&state, &lent.table);
            accepted += usize::from(SIDES.put(&input, &mut lent.clone()).0.number == 0);
            let mut lent = lent.clone();
            made_up::unholdable(&mut lent.kiosk, &mut random);
            let kiosk = lent.kiosk;
            let (reply, _) = SIDES.put(&input, &mut lent);
            assert_eq!((reply.number, reply.kiosk), (1, kiosk));
        }
    }
    println!("{accepted} of the puts are accepted without the change");
    assert!(accepted > 0);
}

/// Numbers at the edges written into every round of the log, in states that calls left and near a rule. What an accepted
/// put of another round leaves of them is what was written.
#[test]
fn numbers_in_the_log() {
    let mut met = Met::default();
    let mut random = Random(81);
    for seed in 0..30 {
        let (mut delivery, lent) = delivered(seed, 1 + seed % 7, 2 * seed, &mut Met::default());
        let input = delivery.input(&lent.state().unwrap(), &lent.table);
        for (lent, input) in [(lent, input), made_up::ripe(&mut random)] {
            for mut lent in made_up::numbers_in_the_log(&lent) {
                let written = lent.kiosk.log;
                let (reply, fired) = SIDES.put(&input, &mut lent);
                for (round, (is, was)) in (0..).zip(reply.kiosk.log.iter().zip(&written)) {
                    if ![input.round, reply.kiosk.round].contains(&round) {
                        assert_eq!(is, was, "round {round}");
                    }
                }
                met.put(&(reply, fired));
            }
        }
    }
    met.check("numbers in the log", [0, 1, 2, 5, 6, 8, 9, 10]);
}

/// A greater number than 2 is a good proposal's, up to settling, and stays; an own proposal is written as 2 over any.
#[test]
fn greater_numbers_are_good() {
    let market = Market {
        powers: vec![1; 4],
        own: 0,
        height: 1,
    };
    let mut started = SIDES.opened(&market);
    SIDES.put(&start(1, 0), &mut started);
    for number in made_up::NUMBERS {
        // Round 2 is kiosk 3's turn, and round 3 the own one.
        let mut lent = started.clone();
        for round in [2, 3] {
            lent.kiosk.log[round][heard::PROPOSAL] = number;
            lent.table[65 * round] = 50;
        }
        let mut own = lent.clone();
        for sender in [1, 2] {
            let ahead = Input {
                offer: 50,
                ..prevote(1, sender, 3, 50)
            };
            SIDES.put(&ahead, &mut own);
        }
        assert_eq!(own.kiosk.round, 3);
        assert_eq!(own.kiosk.log[3][heard::PROPOSAL], flat::GOOD);
        assert_eq!(own.kiosk.log[2][heard::PROPOSAL], number);
        for sender in [1, 2] {
            SIDES.put(&prevote(1, sender, 2, 50), &mut lent);
        }
        for sender in [1, 2, 3] {
            SIDES.put(&precommit(1, sender, 2, 50), &mut lent);
        }
        let settled = lent.kiosk.phase == flat::SETTLED;
        assert_eq!(settled, number >= flat::GOOD, "{number}");
        assert_eq!(lent.kiosk.log[2][heard::PROPOSAL], number);
    }
}

/// Refusals 12 and 15 of creating.
#[test]
fn creating() {
    let mut met = Met::default();
    let mut random = Random(79);
    for _ in 0..calls() / 10 {
        let kiosks = random.pick(&[0, 1, 2, 4, 31, 32, 33, 40]);
        let wrong = random.once_in(3);
        let powers: Vec<u16> = (0..kiosks)
            .map(|_| match random.below(if wrong { 9 } else { 3 }) {
                0 => 0,
                1 => 1,
                2 => 1_000,
                3 => 1_001,
                4 => u16::MAX,
                _ => 0,
            })
            .collect();
        let own = random.pick(&[0, 1, 3, 31, 32, kiosks, usize::MAX]);
        let header = 7 + 2 * kiosks;
        let area = random.pick(&[0, 1, header - 1, header, header + 1, 100]);
        let made = SIDES.create(&powers, own, random.number() as u32, &mut Lent::new(area));
        met.number(made.number);
    }
    met.check_numbers("creating", [0, 12, 15]);
}

/// Refusals 1, 13 and 14 of opening: any header, table length and used length.
#[test]
fn opening() {
    let mut met = Met::default();
    let mut random = Random(80);
    for seed in 0..calls() / 100 {
        let (_, lent) = delivered(seed, 1 + seed % 6, 12, &mut Met::default());
        for _ in 0..10 {
            let mut lent = lent.clone();
            let mut used = lent.kiosk.used;
            for _ in 0..random.below(3) {
                let most = if random.once_in(2) { 20 } else { used };
                let at = random.below(most);
                let byte = random.number() as u8;
                lent.journal[at] = random.pick(&[0, 1, 3, 5, 24, 33, 255, byte]);
            }
            match random.below(8) {
                0 => lent.table.truncate(random.pick(&[0, 1, TABLE - 1])),
                1 => lent.table.resize(TABLE + 1, 7),
                2 => lent.journal.truncate(used - 1),
                3 => {
                    used = random.pick(&[
                        lent.journal.len(),
                        lent.journal.len() + 1,
                        ROOMY,
                        usize::MAX,
                    ])
                }
                4 => used = random.below(20),
                5 => lent.journal[..used].fill_with(|| random.number() as u8),
                _ => (),
            }
            met.number(SIDES.open(used, &mut lent).number);
        }
    }
    met.check_numbers("opening", [0, 1, 13, 14]);
}
