//! 01's examples, and heights driven from their first call: states that calls left.

use super::scene::{offering, Scene, LONG, MOST};
use super::teller::Teller;

pub fn tell(tell: &mut Teller) {
    tell.file
        .calls
        .about("States that calls left: 01's examples, and heights driven from their first call");
    locks(tell);
    skips(tell);
    late_prevotes(tell);
    settles(tell);
}

fn four() -> Scene {
    Scene::opened(&[1; 4], 0, 1)
}

/// "Four kiosks of power 1, height 1, own number 0, offer 9, start at first".
fn locks(tell: &mut Teller) {
    let k = four();
    let k = tell.fires(&[], &k, k.start());
    let k = tell.fires(&[22], &k, k.proposal(0, 50, -1, 1));
    let k = tell.fires(&[], &k, k.prevote(1, 0, 50));
    let k = tell.fires(&[34, 36], &k, k.prevote(2, 0, 50));
    let k = tell.fires(&[], &k, k.precommit(1, 0, 0));
    let k = tell.fires(&[47], &k, k.precommit(2, 0, 0));
    let k = tell.fires(&[], &k, k.timer(7, 0));
    tell.fires(&[22], &k, k.proposal(1, 60, -1, 1));
}

/// "Fresh start instead".
fn skips(tell: &mut Teller) {
    let k = four();
    let k = k.clone().after(k.start());
    let k = k.clone().after(k.prevote(2, 3, 0));
    let k = tell.fires(&[], &k, k.precommit(2, 3, 0));
    tell.fires(&[55, 22, 34], &k, k.prevote(3, 3, 0));
}

/// A prevote timer, a nil precommit, and only then large prevotes for the proposal.
fn late_prevotes(tell: &mut Teller) {
    let k = Scene::opened(&[3, 3, 1, 3], 1, u32::MAX - 2);
    let k = tell.fires(&[22], &k, offering(LONG, k.start()));
    let k = tell.fires(&[], &k, offering(0, k.prevote(2, 0, 0)));
    let k = tell.fires(&[34], &k, k.prevote(3, 0, LONG));
    let k = tell.fires(&[], &k, k.timer(6, 0));
    tell.fires(&[36], &k, k.prevote(0, 0, LONG));
}

/// One kiosk alone, in one call; and three, of whom the own one has no power.
fn settles(tell: &mut Teller) {
    let k = Scene::opened(&[1], 0, 7);
    let k = tell.fires(&[22, 34, 36, 47, 49], &k, offering(5, k.start()));
    tell.refuses(2, &k, k.start());
    let k = Scene::opened(&[2, 0, 1], 1, 3);
    let k = tell.fires(&[], &k, offering(0, k.start()));
    let k = k.clone().after(k.precommit(2, 0, MOST));
    let k = tell.fires(&[47], &k, k.precommit(0, 0, MOST));
    let k = tell.fires(&[22, 49], &k, k.proposal(0, MOST, -1, 1));
    tell.refuses(2, &k, k.timer(7, 0));
}
