//! Creating, and the last whole group.

use super::scene::uneven;
use super::teller::Teller;

pub fn tell(tell: &mut Teller) {
    creating(tell);
    room(tell);
    last(tell);
}

/// "Roll, or own number, outside the numbers above".
fn creating(tell: &mut Teller) {
    tell.creates(0, &[258, 515, 1, 772], 3, 0xf1e2_d3c4, 18);
    tell.creates(0, &[7], 0, u32::MAX, 10);
    tell.creates(0, &[1_000; 32], 31, u32::MAX - 1, 72);
    tell.creates(15, &[], 0, 1, 10);
    tell.creates(15, &[1; 33], 0, 1, 80);
    tell.creates(0, &[1_000, 1], 1, 0, 12);
    tell.creates(15, &[1_001, 1], 1, 2, 12);
    tell.creates(15, &[1, 1_001], 1, 2, 12);
    tell.creates(15, &[0, 0], 1, 2, 12);
    tell.creates(0, &[0, 1], 1, 2, 12);
    tell.creates(15, &[1, 1], 2, 2, 12);
    tell.creates(15, &[1, 1], 255, 2, 12);
}

/// "15 before 12"; "used length 7 + 2n (0 when refused), bytes after that unchanged".
fn room(tell: &mut Teller) {
    tell.creates(0, &[3, 2, 1], 2, 1, 13);
    tell.creates(12, &[3, 2, 1], 2, 1, 12);
    tell.creates(12, &[1], 0, 1, 0);
    tell.creates(15, &[3, 2, 1], 3, 1, 12);
    tell.creates(15, &[0], 0, 1, 0);
}

/// "From its start to the used length; empty when there is none .., or when the start is over that length or the length
/// over the journal's".
fn last(tell: &mut Teller) {
    let kiosk = |last: usize, used: usize| {
        let mut kiosk = uneven().kiosk;
        (kiosk.last, kiosk.used) = (last, used);
        kiosk
    };
    tell.shows(&kiosk(53, 91), 95, (53, 38));
    tell.shows(&kiosk(53, 91), 91, (53, 38));
    tell.shows(&kiosk(0, 15), 15, (0, 15));
    tell.shows(&kiosk(90, 91), 91, (90, 1));
    tell.shows(&kiosk(53, 91), 90, (0, 0));
    tell.shows(&kiosk(91, 91), 95, (0, 0));
    tell.shows(&kiosk(92, 91), 95, (0, 0));
    tell.shows(&kiosk(0, 0), 0, (0, 0));
}
