//! Lines 22 and 28: the prevote on a proposal.

use super::scene::{four, seven, uneven, wide, Scene, LONG, MOST};
use super::teller::Teller;
use flat::heard;

pub fn tell(tell: &mut Teller) {
    tell.file
        .calls
        .about("Lines 22 and 28: the prevote on a proposal");
    line_22(tell);
    line_22_elsewhere(tell);
    line_28(tell);
    line_28_waits(tell);
    line_29(tell);
}

/// The current round's proposal with valid round -1: its sheet where it is good and the lock allows it, else nil.
fn line_22(tell: &mut Teller) {
    let first = four();
    tell.fires(&[22], &first, first.proposal(0, 50, -1, 1));
    tell.fires(&[22], &first, first.proposal(0, 50, -1, 0));
    let locked = four().round(1).locked(0, 50);
    tell.fires(&[22], &locked, locked.proposal(1, 50, -1, 1));
    tell.fires(&[22], &locked, locked.proposal(1, 60, -1, 1));
    tell.fires(&[22], &locked, locked.proposal(1, 50, -1, 0));
    // A lock of this very round, which only a made-up state holds before a prevote.
    let just = four().locked(0, 60);
    tell.fires(&[22], &just, just.proposal(0, 50, -1, 1));
    let late = uneven()
        .round(6)
        .marks(0, 0, 0, 0)
        .locked(2, LONG)
        .valid(4, 61);
    tell.fires(&[22], &late, late.proposal(6, LONG, -1, 1));
    tell.fires(&[22], &late, late.proposal(6, 61, -1, 1));
    let last = wide().round(14).valid(13, 7);
    tell.fires(&[22], &last, last.proposal(14, MOST, -1, 1));
    // Own messages go over what a made-up state holds in their places.
    let spoken = four().prevotes(0, &[(0, 77)]);
    tell.fires(&[22], &spoken, spoken.proposal(0, 50, -1, 1));
    let large = four().prevotes(0, &[(1, 50), (2, 50)]);
    tell.fires(&[22, 34, 36], &large, large.proposal(0, 50, -1, 1));
    let mixed = four().prevotes(0, &[(1, 50), (2, 51)]);
    tell.fires(&[22, 34], &mixed, mixed.proposal(0, 50, -1, 1));
    let nil = four().prevotes(0, &[(1, 0), (2, 0)]);
    tell.fires(&[22, 34, 44], &nil, nil.proposal(0, 50, -1, 0));
}

/// Not at a later step, and not for another round's proposal.
fn line_22_elsewhere(tell: &mut Teller) {
    for scene in [four().at_prevote(), four().at_precommit()] {
        tell.fires(&[], &scene, scene.proposal(0, 50, -1, 1));
    }
    let ahead = four();
    tell.fires(&[], &ahead, ahead.proposal(2, 50, -1, 0));
    let behind = uneven().round(3).marks(1, 0, 1, 0);
    tell.fires(&[], &behind, behind.proposal(1, 50, -1, 1));
}

/// Prevotes for 50 by 1 and 2 in a round.
fn two_of_four(round: usize) -> Scene {
    four().round(2).prevotes(round, &[(1, 50), (2, 50)])
}

/// A proposal with a valid round, whose prevotes for it are large.
fn line_28(tell: &mut Teller) {
    for vr in [0, 1] {
        let scene = two_of_four(vr).prevotes(vr, &[(3, 50)]);
        tell.fires(&[28], &scene, scene.proposal(2, 50, vr as i8, 1));
        // That other round's prevotes are none of its own.
        tell.fires(&[], &scene, scene.proposal(2, 50, 1 - vr as i8, 1));
    }
    let next = two_of_four(0).round(1).prevotes(0, &[(3, 50)]);
    tell.fires(&[28], &next, next.proposal(1, 50, 0, 1));
    let heard = two_of_four(0).good(2, 50, 0);
    tell.fires(&[28], &heard, heard.prevote(3, 0, 50));
    tell.fires(&[], &heard, heard.prevote(3, 0, 51));
    tell.fires(&[], &heard, heard.prevote(3, 1, 50));
    // The sheet is this round's, not that of the valid round's proposal.
    let other = two_of_four(0).prevotes(0, &[(0, 50)]).good(0, 60, -1);
    tell.fires(&[28], &other, other.proposal(2, 50, 0, 1));
    let late = seven()
        .round(14)
        .prevotes(13, &[(0, MOST), (3, MOST), (5, 4), (6, MOST)]);
    tell.fires(&[28], &late, late.proposal(14, MOST, 13, 1));
    let large = two_of_four(0)
        .prevotes(0, &[(0, 50)])
        .prevotes(2, &[(1, 50), (3, 50)]);
    tell.fires(&[28, 34, 36], &large, large.proposal(2, 50, 0, 1));
}

/// One short, exactly two thirds, a name in a place that is not heard, a later step: it waits.
fn line_28_waits(tell: &mut Teller) {
    let short = two_of_four(0).prevotes(0, &[(3, 51)]);
    tell.fires(&[], &short, short.proposal(2, 50, 0, 1));
    let unheard = two_of_four(0).named(1 + 3, 50);
    tell.fires(&[], &unheard, unheard.proposal(2, 50, 0, 1));
    // What stands in the place of a proposal that is not heard is none.
    let silent = two_of_four(0)
        .named(65 * 2, 50)
        .with(|k| k.log[2][heard::VALID] = 1);
    tell.fires(&[], &silent, silent.prevote(3, 0, 50));
    let exact = uneven().round(4).prevotes(1, &[(0, 50), (1, 50), (3, 50)]);
    tell.fires(&[], &exact, exact.proposal(4, 50, 1, 1));
    let over = uneven().round(4).prevotes(1, &[(0, 50), (2, 50)]);
    tell.fires(&[28], &over, over.proposal(4, 50, 1, 1));
    let voted = two_of_four(0).prevotes(0, &[(3, 50)]).at_prevote();
    tell.fires(&[], &voted, voted.proposal(2, 50, 0, 1));
    let waiting = four().round(2).good(2, 50, 0).locked(1, 50);
    tell.fires(&[], &waiting, waiting.timer(5, 2));
}

/// "Rule 29 with lockedRound < vr in place of ≤" is an error; so is any lock that is let go too late or too soon.
fn line_29(tell: &mut Teller) {
    let scene = uneven().round(6).prevotes(3, &[(0, 50), (2, 50)]);
    for locked in [
        scene.clone().locked(2, 60),
        scene.clone().locked(3, 60),
        scene.clone().locked(4, 60),
        scene.clone().locked(4, 40),
        scene.clone().locked(4, 50),
    ] {
        tell.fires(&[28], &locked, locked.proposal(6, 50, 3, 1));
    }
    let free = scene.clone().valid(5, 61);
    tell.fires(&[28], &free, free.proposal(6, 50, 3, 0));
    let same = scene.locked(3, 50);
    tell.fires(&[28], &same, same.proposal(6, 50, 3, 0));
}
