//! Journals cut at every length, damaged at every byte, and kept in areas of every size.

mod common;
use common::*;
use compare::inputs::{precommit, timer};
use compare::made_up::damaged;
use compare::{Aim, Delivery, Lent, Market, Met};

/// Opened at every length; and an input put to what each opening gives.
#[test]
fn every_cut() {
    let (mut cuts, mut unfinished, mut on, mut bytes) = (0, 0, 0, 0);
    for seed in 0..100 * times() {
        let (mut delivery, lent) = SIDES.bounded(seed);
        bytes += lent.kiosk.used;
        for cut in 0..=lent.kiosk.used {
            let mut lent = lent.clone();
            let reply = SIDES.open(cut, &mut lent);
            cuts += 1;
            if reply.number != 0 {
                assert_eq!(reply.number, 13);
                continue;
            }
            unfinished += usize::from(lent.kiosk.used < cut);
            SIDES.last(&lent);
            let state = lent.state().unwrap();
            let input = delivery.input(&state, &lent.table);
            on += usize::from(SIDES.put(&input, &mut lent).0.number == 0);
        }
    }
    println!(
        "{bytes} bytes of journals, {cuts} cuts, {unfinished} within a group, {on} gone on from"
    );
    assert!(unfinished > 0 && on > 0);
}

#[test]
fn every_byte() {
    let mut met = Met::default();
    for seed in 0..10 * times() {
        let (_, mut lent) = SIDES.bounded(seed);
        damaged(&mut lent, |used, lent| {
            met.number(SIDES.open(used, lent).number);
        });
    }
    met.check_numbers("damage", [0, 14]);
}

/// One height with a long journal, in every area from none to a roomy one: the put that comes to the area's end.
#[test]
fn every_area() {
    let market = Market {
        powers: vec![1; 4],
        own: 0,
        height: 1,
    };
    let roomy = second::roomy(4);
    let mut delivery = Delivery::new(3, Aim::Drag);
    let mut lent = SIDES.opened(&market);
    let mut before = vec![];
    for _ in 0..2_000 {
        let state = lent.state().unwrap();
        let input = delivery.input(&state, &lent.table);
        let was = lent.clone();
        if SIDES.put(&input, &mut lent).0.number == 0 {
            before.push((was, input));
        }
    }
    println!("{} groups, {} bytes", before.len(), lent.kiosk.used);
    let mut met = Met::default();
    for area in 0..=roomy {
        let mut bare = Lent::new(area);
        let made = SIDES.create(&market.powers, market.own, market.height, &mut bare);
        if made.number != 0 {
            assert_eq!(made.number, 12);
            continue;
        }
        let at = before.partition_point(|(was, _)| was.kiosk.used <= area);
        for (was, input) in &before[at.saturating_sub(2)..at] {
            let mut lent = was.clone();
            lent.journal.truncate(area);
            met.number(SIDES.put(input, &mut lent).0.number);
        }
    }
    met.check_numbers("areas", [0, 12]);
    // Each area below the last used length is too small for one put.
    assert_eq!(met.count(12), lent.kiosk.used - before[0].0.kiosk.used);
}

/// After settling every further byte is damage, and every input refused.
#[test]
fn after_settling() {
    let mut settled = 0;
    for seed in 0..40 * times() {
        let (_, mut lent) = delivered(seed * 4, 1 + seed % 5, 200, &mut Met::default());
        if lent.kiosk.phase != flat::SETTLED {
            continue;
        }
        settled += 1;
        let used = lent.kiosk.used;
        for byte in [0, 24, 255] {
            lent.journal[used] = byte;
            let reply = SIDES.open(used + 1, &mut lent.clone());
            assert_eq!((reply.number, reply.place), (14, used));
        }
        let height = lent.kiosk.height;
        for input in [
            timer(height, 7, lent.kiosk.round),
            precommit(height, 0, 15, 40),
        ] {
            assert_eq!(SIDES.put(&input, &mut lent).0.number, 2);
        }
    }
    assert!(settled > 0);
}
