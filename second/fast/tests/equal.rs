//! Fast and second, call by call: random deliveries with cuts and damage, and made-up states.

use compare::inputs::{prevote, start};
use compare::{made_up, Delivery, Market, Met, Random, Sides, AIMS, FAST};

const SIDES: Sides = Sides(&[FAST]);

#[test]
fn deliveries() {
    let mut met = Met::default();
    for seed in 0..160 {
        let mut delivery = Delivery::new(seed as u64, AIMS[seed % 4]);
        let mut lent = SIDES.opened(&delivery.market(1 + seed % 32));
        SIDES.deliver(&mut delivery, &mut lent, 250, &mut met);
        let used = lent.kiosk.used;
        for _ in 0..20 {
            let mut copy = lent.clone();
            let at = delivery.random.below(used);
            let reply = SIDES.open(at, &mut copy);
            met.number(reply.number);
            copy = lent.clone();
            copy.journal[at] ^= 1 << delivery.random.below(8);
            let reply = SIDES.open(used, &mut copy);
            met.number(reply.number);
        }
    }
    met.check("deliveries", [0, 2, 3, 4, 5, 6, 7, 8, 9, 10, 11, 13, 14]);
}

#[test]
fn made_up() {
    let mut met = Met::default();
    let mut random = Random(77);
    for seed in 0..300 {
        let mut delivery = Delivery::new(seed as u64, AIMS[seed % 4]);
        let mut lent = SIDES.opened(&delivery.market(1 + seed % 7));
        let puts = random.below(60);
        SIDES.deliver(&mut delivery, &mut lent, puts, &mut Met::default());
        let state = lent.state().unwrap();
        for _ in 0..60 {
            let input = delivery.input(&state, &lent.table);
            let mut copy = lent.clone();
            for _ in 0..random.below(4) {
                made_up::change(&mut copy, &mut random);
            }
            if random.once_in(20) {
                made_up::unholdable(&mut copy.kiosk, &mut random);
            }
            SIDES.last(&copy);
            met.put(&SIDES.put(&input, &mut copy));
            let mut lent = made_up::uniform(&mut random);
            let input = made_up::input(&lent.kiosk, &mut random);
            met.put(&SIDES.put(&input, &mut lent));
            let (mut lent, input) = made_up::ripe(&mut random);
            met.put(&SIDES.put(&input, &mut lent));
        }
    }
    met.check("made up", 0..=12);
}

/// In states that calls left, and near a rule.
#[test]
fn numbers_in_the_log() {
    let mut met = Met::default();
    let mut random = Random(81);
    for seed in 0..30 {
        let mut delivery = Delivery::new(seed as u64, AIMS[seed % 4]);
        let mut lent = SIDES.opened(&delivery.market(1 + seed % 7));
        SIDES.deliver(&mut delivery, &mut lent, 2 * seed, &mut Met::default());
        let input = delivery.input(&lent.state().unwrap(), &lent.table);
        for (lent, input) in [(lent, input), made_up::ripe(&mut random)] {
            for mut lent in made_up::numbers_in_the_log(&lent) {
                met.put(&SIDES.put(&input, &mut lent));
            }
        }
    }
    met.check("numbers in the log", [0, 1, 2, 5, 6, 8, 9, 10]);
}

/// And where the next round is the own turn: the number under which its proposal is held already is written over.
#[test]
fn numbers_under_an_own_proposal() {
    let market = Market {
        powers: vec![1; 4],
        own: 0,
        height: 1,
    };
    let mut lent = SIDES.opened(&market);
    SIDES.put(&start(1, 0), &mut lent);
    let mut input = prevote(1, 1, 3, 50);
    input.offer = 40;
    let mut proposed = 0;
    for mut lent in made_up::numbers_in_the_log(&lent) {
        let (reply, _) = SIDES.put(&input, &mut lent);
        if reply.sent[0].kind == 1 {
            proposed += 1;
            assert_eq!(reply.kiosk.log[3][2..], [flat::GOOD, 0]);
        }
    }
    assert!(proposed > 0);
}
