//! Saying it again after waking (C-11): its two lists over 01's examples and over
//! random deliveries at every cut, the room, and the refusals.

mod common;
use common::*;
use compare::again::list;
use compare::{Delivery, AIMS};
use second::*;

/// More than both lists take.
const ROOM: usize = 200;

/// The messages and the timers that the first `used` bytes give. Reply and table
/// are those of opening, and the area's other bytes stay.
fn said_of(journal: &[u8], used: usize) -> (Vec<Output>, Vec<Output>) {
    let (mut table, mut opened) = (vec![7; TABLE], vec![8; TABLE]);
    let mut area = vec![JUNK; ROOM];
    let reply = say_again(journal, used, &mut table, &mut area);
    assert_eq!(reply, open(journal, used, &mut opened));
    assert_eq!(reply.number, 0);
    assert!(table == opened);
    let (messages, rest) = list(&area);
    let (timers, rest) = list(rest);
    assert!(rest.iter().all(|&byte| byte == JUNK));
    (messages, timers)
}

fn said(bench: &Bench) -> (Vec<Output>, Vec<Output>) {
    said_of(&bench.journal, bench.state.used)
}

/// Puts inputs that are accepted, and gives what is said again then.
fn after(bench: &mut Bench, inputs: &[Input]) -> (Vec<Output>, Vec<Output>) {
    for input in inputs {
        bench.outputs(&Input { offer: 9, ..*input });
    }
    said(bench)
}

#[test]
fn nothing_of_a_fresh_kiosk() {
    assert_eq!(said(&Bench::four()), (vec![], vec![]));
    assert_eq!(said(&Bench::new(&[1], 0, 0)), (vec![], vec![]));
}

/// 01's four kiosks, from start to round 3.
#[test]
fn four_kiosks() {
    let mut bench = Bench::four();
    let asked = after(&mut bench, &[start(1, 0)]);
    assert_eq!(asked, (vec![], vec![out(ASK_PROPOSE, 0, 0)]));
    // The propose timer is asked for, and late from here on.
    let prevoted = after(&mut bench, &[proposal(1, 1, 0, 50, -1, 1)]);
    assert_eq!(prevoted, (vec![out(PREVOTE, 0, 50)], vec![]));
    // So is the prevote timer, in the call that asked for it.
    let votes = vec![out(PREVOTE, 0, 50), out(PRECOMMIT, 0, 50)];
    let precommitted = after(&mut bench, &[prevote(1, 1, 0, 50), prevote(1, 2, 0, 50)]);
    assert_eq!(precommitted, (votes.clone(), vec![]));
    let waiting = after(
        &mut bench,
        &[precommit(1, 1, 0, NIL), precommit(1, 2, 0, NIL)],
    );
    assert_eq!(waiting, (votes.clone(), vec![out(ASK_PRECOMMIT, 0, 0)]));
    // The round before is said again too, its timers are not.
    let moved = after(&mut bench, &[timer(1, 7, 0)]);
    assert_eq!(moved, (votes.clone(), vec![out(ASK_PROPOSE, 1, 0)]));
    let nil = after(&mut bench, &[proposal(1, 2, 1, 60, -1, 1)]);
    assert_eq!(nil, ([votes, vec![out(PREVOTE, 1, NIL)]].concat(), vec![]));
    // Round 3 is entered from round 1: the one before it is round 2.
    let carried = after(
        &mut bench,
        &[prevote(1, 2, 3, NIL), precommit(1, 3, 3, NIL)],
    );
    let own = Output {
        valid: 1,
        ..out(PROPOSAL, 3, 50)
    };
    assert_eq!(bench.state.round, 3);
    assert_eq!(carried, (vec![own, out(PREVOTE, 3, 50)], vec![]));
}

/// At step prevote with large prevotes and large precommits: the prevote timer,
/// and behind it the precommit timer.
#[test]
fn two_timers() {
    let mut bench = Bench::four();
    let (messages, timers) = after(
        &mut bench,
        &[
            start(1, 0),
            precommit(1, 1, 0, 50),
            precommit(1, 2, 0, 51),
            precommit(1, 3, 0, 52),
            timer(1, 5, 0),
            prevote(1, 1, 0, 50),
            prevote(1, 2, 0, 51),
        ],
    );
    assert_eq!(messages, [out(PREVOTE, 0, NIL)]);
    assert_eq!(timers, [out(ASK_PREVOTE, 0, 0), out(ASK_PRECOMMIT, 0, 0)]);
}

/// A settled kiosk says its messages again, and has no timer: 7 is no message.
#[test]
fn settled() {
    let mut bench = Bench::new(&[1], 0, 7);
    let (messages, timers) = after(&mut bench, &[start(7, 0)]);
    assert_eq!(
        messages,
        [PROPOSAL, PREVOTE, PRECOMMIT].map(|kind| out(kind, 0, 9))
    );
    assert_eq!(bench.state.phase, Phase::Settled(0));
    assert_eq!(timers, []);
}

/// The precommit timer is asked for in every round, and in the last is refused
/// with 11.
#[test]
fn the_last_round() {
    let mut bench = Bench::new(&[1; 4], 0, 1);
    bench.outputs(&start(1, 0));
    for round in 0..16 {
        // Round r is kiosk (1 + r) mod 4's turn, and offers are 0.
        bench.outputs(&timer(1, 5, round));
        for sender in [1, 2, 3] {
            bench.outputs(&precommit(1, sender, round, NIL));
        }
        let (messages, timers) = said(&bench);
        let before = round.checked_sub(1).map(|before| out(PREVOTE, before, NIL));
        let right = before.into_iter().chain([out(PREVOTE, round, NIL)]);
        assert!(messages.into_iter().eq(right));
        if round < 15 {
            assert_eq!(timers, [out(ASK_PRECOMMIT, round, 0)]);
            bench.outputs(&timer(1, 7, round));
        } else {
            assert_eq!(bench.refused(&timer(1, 7, round)), 11);
            assert_eq!(timers, []);
        }
    }
}

/// In every area: 12 as long as the lists do not fit, with the opened state.
#[test]
fn every_area() {
    let mut bench = Bench::four();
    let inputs = [start(1, 0), timer(1, 5, 0), prevote(1, 1, 0, 50)];
    after(&mut bench, &inputs);
    let lists = [&[1, 2, 0, 0, 0, 0, 0, 0, 0, 0, 0, 0, 0], [0].as_slice()].concat();
    for room in 0..40 {
        let mut area = vec![JUNK; room];
        let mut table = vec![7; TABLE];
        let reply = say_again(&bench.journal, bench.state.used, &mut table, &mut area);
        assert_eq!((&reply.state, reply.place), (&bench.state, 0));
        assert!(table == bench.table && reply.outputs.is_empty());
        if room < lists.len() {
            assert_eq!(reply.number, 12);
            assert!(area.iter().all(|&byte| byte == JUNK));
        } else {
            assert_eq!(reply.number, 0);
            assert_eq!(area[..lists.len()], lists);
            assert!(area[lists.len()..].iter().all(|&byte| byte == JUNK));
        }
    }
}

/// 1, 13 and 14 as in opening, before 12; the area is unchanged.
#[test]
fn refusals_of_opening() {
    let mut bench = Bench::four();
    after(&mut bench, &[start(1, 0), proposal(1, 1, 0, 50, -1, 1)]);
    let used = bench.state.used;
    let mut damaged = bench.journal.clone();
    damaged[used - 1] ^= 1;
    for (journal, used, places, number) in [
        (&bench.journal, bench.journal.len() + 1, TABLE, 1),
        (&bench.journal, used, TABLE - 1, 1),
        (&bench.journal, used, TABLE + 1, 1),
        (&bench.journal, 14, TABLE, 13),
        (&damaged, used, TABLE, 14),
    ] {
        for room in [0, ROOM] {
            let (mut table, mut opened) = (vec![7; places], vec![7; places]);
            let mut area = vec![JUNK; room];
            let reply = say_again(journal, used, &mut table, &mut area);
            assert_eq!(reply, open(journal, used, &mut opened));
            assert_eq!((reply.number, &reply.state), (number, &State::unopened()));
            assert!(table == opened && area.iter().all(|&byte| byte == JUNK));
        }
    }
}

/// At every cut of a random height: the messages of the calls whose groups are
/// whole, and the timers that a put in a roomy area takes.
#[test]
fn every_cut() {
    let mut longest = 0;
    for seed in 0..120 {
        let kiosks = 1 + seed % 9;
        let mut delivery = Delivery::new(seed as u64, AIMS[seed % 4]);
        let market = delivery.market(kiosks);
        let mut bench = Bench::new(&market.powers, market.own, market.height);
        let mut sent: Vec<Output> = vec![];
        let mut at = bench.state.used;
        for _ in 0..60 {
            let expected = (recent(&sent, bench.state.round), open_timers(&bench));
            longest = longest.max(expected.0.len() + expected.1.len());
            let input = delivery.input(&bench.state, &bench.table);
            let reply = bench.put(&input);
            for cut in at..bench.state.used {
                assert_eq!(said_of(&bench.journal, cut), expected, "seed {seed}");
            }
            at = bench.state.used;
            sent.extend(reply.outputs);
        }
    }
    // No more than six messages and two timers.
    assert!((6..=8).contains(&longest), "{longest}");
}

fn recent(sent: &[Output], round: u8) -> Vec<Output> {
    let near = |o: &&Output| o.round == round || o.round + 1 == round;
    let message = |o: &&Output| [PROPOSAL, PREVOTE, PRECOMMIT].contains(&o.kind);
    sent.iter().filter(near).filter(message).copied().collect()
}

fn open_timers(bench: &Bench) -> Vec<Output> {
    let State { height, round, .. } = bench.state;
    let accepted = |kind: &u8| bench.clone().put(&timer(height, *kind, round)).number == 0;
    let kinds = [5, 6, 7].into_iter().filter(accepted);
    kinds.map(|kind| out(kind - 1, round, 0)).collect()
}
