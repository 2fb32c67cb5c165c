//! Lines 47 and 49: what precommits lead to.

use super::scene::{four, heavy, seven, uneven, wide, Scene, Vote, LONG, MOST};
use super::teller::Teller;

pub fn tell(tell: &mut Teller) {
    tell.file
        .calls
        .about("Lines 47 and 49: what precommits lead to");
    line_49(tell);
    line_49_in_another_round(tell);
    line_49_not(tell);
    line_47(tell);
    line_47_not(tell);
    line_49_after_others(tell);
}

/// Large precommits for anything in the current round, at any step, for the first time.
fn line_47(tell: &mut Teller) {
    let scene = four().precommits(0, &[(1, 50), (2, 0)]);
    let input = scene.precommit(3, 0, 51);
    tell.fires(&[47], &scene, input);
    tell.fires(&[47], &scene.clone().at_prevote().marks(0, 1, 0, 0), input);
    tell.fires(
        &[47],
        &scene.clone().at_precommit().marks(1, 0, 0, 1),
        input,
    );
    tell.fires(&[], &scene.clone().marks(1, 0, 1, 0), input);
    // By the own precommit, over what a made-up state holds in its place.
    let due = scene.at_prevote().marks(1, 1, 0, 0).named(33, 77);
    tell.fires(&[47], &due, due.timer(6, 0));
    let early = uneven()
        .round(9)
        .at_prevote()
        .marks(0, 1, 1, 0)
        .precommits(9, &[(2, 77)]);
    tell.fires(&[], &early, early.timer(6, 9));
}

/// Exactly two thirds, a sender of power 0, another round.
fn line_47_not(tell: &mut Teller) {
    let exact = uneven().round(1).precommits(1, &[(0, 50), (1, 0)]);
    tell.fires(&[], &exact, exact.precommit(3, 1, 51));
    let over = uneven().round(1).precommits(1, &[(2, 50), (1, 0)]);
    tell.fires(&[47], &over, over.precommit(0, 1, 51));
    let six = seven().precommits(0, &[(0, 50), (2, 0), (3, 51)]);
    tell.fires(&[], &six, six.precommit(1, 0, 50));
    tell.fires(&[47], &six, six.precommit(5, 0, 50));
    let behind = four().round(2).precommits(1, &[(1, 50), (2, 0)]);
    tell.fires(&[], &behind, behind.precommit(3, 1, 51));
}

/// Large precommits for the good proposal of the current round.
fn line_49(tell: &mut Teller) {
    let scene = four()
        .round(1)
        .at_precommit()
        .marks(1, 1, 0, 1)
        .locked(1, 50)
        .valid(1, 50)
        .good(1, 50, -1)
        .precommits(1, &[(0, 50), (1, 50)]);
    tell.fires(&[47, 49], &scene, scene.precommit(3, 1, 50));
    let asked = scene.marks(1, 1, 1, 1).precommits(1, &[(2, 0)]);
    tell.fires(&[49], &asked, asked.precommit(3, 1, 50));
    tell.fires(&[], &asked, asked.precommit(3, 1, 51));
    let seats: Vec<Vote> = (0..21).map(|seat| (seat, MOST)).collect();
    let last = wide()
        .round(15)
        .good(15, MOST, 3)
        .precommits(15, &seats)
        .at_precommit();
    tell.fires(&[47, 49], &last, last.precommit(31, 15, MOST));
}

/// "It looks at every round": one behind, by its last precommit or by its proposal; and one ahead.
fn line_49_in_another_round(tell: &mut Teller) {
    let behind = uneven()
        .round(5)
        .locked(4, 9)
        .precommits(2, &[(2, LONG), (3, LONG), (1, 50)]);
    let heard = behind.clone().good(2, LONG, 1);
    tell.fires(&[49], &heard, heard.precommit(0, 2, LONG));
    tell.fires(&[], &heard, heard.precommit(0, 2, 50));
    let named = behind.clone().precommits(2, &[(0, LONG)]);
    tell.fires(&[49], &named, named.proposal(2, LONG, -1, 1));
    tell.fires(&[], &named, named.proposal(2, LONG, -1, 0));
    tell.fires(&[], &named, named.proposal(2, 50, 0, 1));
    let ahead = heavy().good(4, 80, -1);
    tell.fires(&[49], &ahead, ahead.precommit(2, 4, 80));
    tell.fires(&[55, 22, 47], &ahead, ahead.precommit(2, 4, 81));
    let bad = heavy().bad(4, 80, -1);
    tell.fires(&[55, 22, 47], &bad, bad.precommit(2, 4, 80));
    let last = heavy().round(7).good(15, 80, 14).marks(1, 1, 1, 1);
    tell.fires(&[49], &last, last.precommit(2, 15, 80));
    // A bad sheet in a lower round, though its precommits are large, is passed over.
    let passed = four()
        .round(3)
        .bad(0, 50, -1)
        .precommits(0, &[(1, 50), (2, 50), (3, 50)])
        .good(1, 60, -1)
        .precommits(1, &[(1, 60), (2, 60)]);
    tell.fires(&[49], &passed, passed.precommit(3, 1, 60));
    let zero = four().round(2).good(0, 50, -1).good(1, 50, -1);
    let zero = zero.precommits(0, &[(1, 50), (2, 50)]);
    tell.fires(&[49], &zero, zero.precommit(3, 0, 50));
    tell.fires(&[], &zero, zero.precommit(3, 1, 50));
}

/// The current round of the uneven kiosks, its precommit timer asked for, its proposal heard.
fn closing(votes: &[Vote]) -> Scene {
    uneven()
        .round(4)
        .at_precommit()
        .marks(1, 1, 1, 1)
        .good(4, 50, -1)
        .precommits(4, votes)
}

/// Exactly two thirds, another name, nil, a place that is not heard, prevotes.
fn line_49_not(tell: &mut Teller) {
    let exact = closing(&[(0, 50), (1, 50), (2, 0)]);
    tell.fires(&[], &exact, exact.precommit(3, 4, 50));
    let nil = closing(&[(0, 0), (1, 0)]);
    tell.fires(&[], &nil, nil.precommit(3, 4, 0));
    let unheard = closing(&[(0, 50)]).named(65 * 4 + 33 + 2, 50);
    tell.fires(&[], &unheard, unheard.precommit(3, 4, 50));
    let prevoted = closing(&[(0, 50)]).prevotes(4, &[(0, 50), (2, 50)]);
    tell.fires(&[], &prevoted, prevoted.precommit(3, 4, 50));
    let over = closing(&[(2, 50), (0, 0)]);
    tell.fires(&[], &over, over.precommit(3, 4, 50));
    let enough = closing(&[(2, 50), (3, 50), (1, 50)]);
    tell.fires(&[49], &enough, enough.precommit(0, 4, 50));
}

/// The rules of the current round fire before it.
fn line_49_after_others(tell: &mut Teller) {
    let votes = [(1, 50), (2, 50), (3, 50)];
    let early = four().marks(1, 0, 1, 0).precommits(0, &votes);
    tell.fires(&[22, 49], &early, early.proposal(0, 50, -1, 1));
    let late = four()
        .at_prevote()
        .marks(1, 1, 1, 0)
        .prevotes(0, &votes)
        .prevotes(0, &[(0, 0)])
        .precommits(0, &votes);
    tell.fires(&[36, 49], &late, late.proposal(0, 50, -1, 1));
    let later = late.at_precommit().precommits(0, &[(0, 0)]);
    tell.fires(&[36, 49], &later, later.proposal(0, 50, -1, 1));
}
