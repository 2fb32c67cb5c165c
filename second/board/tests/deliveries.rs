//! Random deliveries for 1 to 32 kiosks, each call compared whole.

mod common;
use common::*;
use compare::{Aim, Delivery, Met, AIMS};
use std::time::Instant;

#[test]
fn random_deliveries() {
    // Few kiosks and many: each rule is to fire in both.
    let mut met = [Met::default(), Met::default()];
    let mut done = 0;
    let mut settled = 0;
    let began = Instant::now();
    for seed in 0.. {
        let kiosks = 1 + seed % 32;
        let mut delivery = Delivery::new(seed as u64, AIMS[seed / 32 % 4]);
        let mut lent = SIDES.opened(&delivery.market(kiosks));
        let met = &mut met[usize::from(kiosks > 16)];
        let puts = 60 + delivery.random.below(20 * kiosks);
        done += SIDES.deliver(&mut delivery, &mut lent, puts, met);
        // The rest of the height; in some deliveries too little comes to settle.
        delivery.aim = Aim::Settle;
        done += SIDES.deliver(&mut delivery, &mut lent, 60 + 5 * kiosks, met);
        settled += usize::from(lent.kiosk.phase == flat::SETTLED);
        let used = lent.kiosk.used;
        let (kiosk, table) = (lent.kiosk, lent.table.clone());
        assert_eq!(SIDES.open(used, &mut lent).kiosk, kiosk, "opened again");
        assert!(lent.table == table, "opened again");
        if done >= calls() {
            break;
        }
    }
    println!("{done} calls in {:?}, settled {settled}", began.elapsed());
    assert!(settled > 0);
    let [few, many] = met;
    few.check("up to 16 kiosks", [0, 2, 3, 4, 5, 6, 7, 8, 9, 10, 11]);
    many.check("17 to 32 kiosks", [0, 2, 3, 4, 5, 6, 7, 8, 9, 10, 11]);
}
