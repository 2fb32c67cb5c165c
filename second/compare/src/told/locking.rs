//! Lines 34, 36 and 44: what the current round's prevotes lead to.

use super::scene::{four, seven, three, uneven, wide, Scene, Vote, LONG, MOST};
use super::teller::Teller;
use flat::heard;

pub fn tell(tell: &mut Teller) {
    tell.file
        .calls
        .about("Lines 34, 36 and 44: what prevotes lead to");
    line_36(tell);
    line_34(tell);
    line_34_weighs(tell);
    line_36_at_precommit(tell);
    line_36_not(tell);
    line_36_and_on(tell);
    line_44(tell);
    line_44_not(tell);
}

/// Large prevotes for anything at step prevote, for the first time.
fn line_34(tell: &mut Teller) {
    let scene = uneven().prevotes(0, &[(2, 50)]);
    let input = scene.prevote(0, 0, 51);
    let voted = scene.clone().at_prevote();
    tell.fires(&[34], &voted, input);
    for marks in [[0, 0, 1, 0], [0, 0, 0, 1], [1, 0, 1, 1]] {
        let [propose, prevote, precommit, backed] = marks;
        let marked = voted.clone().marks(propose, prevote, precommit, backed);
        tell.fires(&[34], &marked, input);
    }
    tell.fires(&[], &voted.clone().marks(0, 1, 0, 0), input);
    tell.fires(&[], &scene, input);
    tell.fires(&[], &scene.at_precommit(), input);
    // Only the current round's.
    let next = voted.clone().round(1);
    tell.fires(&[], &next, input);
    let after = voted.round(3).prevotes(3, &[(2, 7)]).prevotes(4, &[(3, 7)]);
    tell.fires(&[], &after, after.prevote(1, 3, 7));
    tell.fires(&[34], &after, after.prevote(0, 3, 8));
    // By the own prevote.
    let mixed = four().prevotes(0, &[(1, 50), (2, 0)]);
    tell.fires(&[34], &mixed, mixed.timer(5, 0));
}

/// "Each sender counts once", with the power that the roll gives it; "two thirds .. met with at least" is an error.
fn line_34_weighs(tell: &mut Teller) {
    let exact = uneven().at_prevote().prevotes(0, &[(0, 50), (1, 0)]);
    tell.fires(&[], &exact, exact.prevote(3, 0, 51));
    let all = three().round(1).at_prevote();
    let two = all.clone().prevotes(1, &[(1, 50)]);
    tell.fires(&[], &two, two.prevote(0, 1, 50));
    let three = all.prevotes(1, &[(1, 50), (2, 0)]);
    tell.fires(&[34], &three, three.prevote(0, 1, 50));
    // A sender of power 0 is heard, and adds nothing.
    let six = seven()
        .round(2)
        .at_prevote()
        .prevotes(2, &[(0, 50), (2, 0), (3, 51), (4, 50)]);
    tell.fires(&[], &six, six.prevote(1, 2, MOST));
    tell.fires(&[34], &six, six.prevote(5, 2, LONG));
    let seats = |count: usize| -> Vec<Vote> { (0..count).map(|seat| (seat, 40)).collect() };
    let short = wide().at_prevote().prevotes(0, &seats(20));
    tell.fires(&[], &short, short.prevote(31, 0, MOST));
    let enough = wide().round(15).at_prevote().prevotes(15, &seats(21));
    tell.fires(&[34], &enough, enough.prevote(31, 15, MOST));
}

/// A round of the uneven kiosks at step prevote, its prevote timer asked for, the proposal heard and prevoted.
fn backing(round: u8, name: u64) -> Scene {
    let at = usize::from(round);
    uneven()
        .round(round)
        .at_prevote()
        .marks(1, 1, 0, 0)
        .good(at, name, -1)
        .prevotes(at, &[(2, name), (3, name)])
}

/// Large prevotes for the round's good proposal: at step prevote it is locked and precommitted, and held as valid.
fn line_36(tell: &mut Teller) {
    let first = backing(0, 50);
    tell.fires(&[36], &first, first.prevote(0, 0, 50));
    tell.fires(&[], &first, first.prevote(0, 0, 51));
    let unasked = backing(1, LONG).marks(0, 0, 0, 0);
    tell.fires(&[34, 36], &unasked, unasked.prevote(0, 1, LONG));
    let again = backing(5, MOST).locked(1, 60).valid(3, 61);
    tell.fires(&[36], &again, again.prevote(0, 5, MOST));
    // By the proposal itself, that came late.
    let late = four()
        .round(1)
        .at_prevote()
        .marks(1, 1, 0, 0)
        .prevotes(1, &[(0, 0), (1, 50), (2, 50), (3, 50)]);
    tell.fires(&[36], &late, late.proposal(1, 50, -1, 1));
    tell.fires(&[36], &late, late.proposal(1, 50, 0, 1));
    tell.fires(&[], &late, late.proposal(1, 50, -1, 0));
    tell.fires(&[], &late, late.proposal(1, 51, -1, 1));
    // Own messages go over what a made-up state holds in their places.
    let spoken = backing(2, 50).precommits(2, &[(2, 77), (3, 77)]);
    tell.fires(&[36], &spoken, spoken.prevote(0, 2, 50));
}

/// Lines 42 and 43 stand outside line 37's `if`: at step precommit the sheet is held as valid and not locked.
fn line_36_at_precommit(tell: &mut Teller) {
    let scene = four()
        .round(2)
        .at_precommit()
        .marks(1, 1, 0, 0)
        .good(2, 50, -1)
        .prevotes(2, &[(1, 50), (2, 50)]);
    tell.fires(&[36], &scene, scene.prevote(3, 2, 50));
    let held = scene.clone().locked(0, 60).valid(1, 61);
    tell.fires(&[36], &held, held.prevote(3, 2, 50));
    let unasked = scene.clone().marks(0, 0, 1, 0);
    tell.fires(&[36], &unasked, unasked.prevote(3, 2, 50));
    // Once per round entered.
    let backed = held.marks(1, 1, 0, 1).prevotes(2, &[(3, 50)]);
    tell.fires(&[], &backed, backed.precommit(1, 2, 0));
    tell.fires(&[], &backed.at_prevote(), scene.precommit(1, 2, 0));
}

/// Exactly two thirds, another name, a bad sheet, a place that is not heard, step propose.
fn line_36_not(tell: &mut Teller) {
    let exact = uneven()
        .at_prevote()
        .good(0, 50, -1)
        .prevotes(0, &[(0, 50), (1, 50)]);
    tell.fires(&[], &exact, exact.prevote(3, 0, 50));
    let other = backing(0, 50).marks(1, 0, 0, 0);
    tell.fires(&[34], &other, other.prevote(0, 0, 51));
    let bad = backing(1, 50).bad(1, 50, -1);
    tell.fires(&[], &bad, bad.prevote(0, 1, 50));
    let unheard = four()
        .at_prevote()
        .good(0, 50, -1)
        .prevotes(0, &[(1, 50)])
        .named(1, 50)
        .named(1 + 3, 50);
    tell.fires(&[], &unheard, unheard.prevote(2, 0, 50));
    let waiting = four()
        .round(2)
        .good(2, 50, 0)
        .prevotes(2, &[(1, 50), (2, 50)]);
    tell.fires(&[], &waiting, waiting.prevote(3, 2, 50));
    let behind = four()
        .round(2)
        .at_prevote()
        .good(1, 50, -1)
        .prevotes(1, &[(1, 50), (2, 50)]);
    tell.fires(&[], &behind, behind.prevote(3, 1, 50));
}

/// The own precommit, and what it leads to in the same call.
fn line_36_and_on(tell: &mut Teller) {
    let scene = four()
        .at_prevote()
        .marks(1, 1, 0, 0)
        .good(0, 50, -1)
        .prevotes(0, &[(0, 50), (1, 50)]);
    let input = scene.prevote(2, 0, 50);
    let nil = scene.clone().precommits(0, &[(1, 0), (2, 0)]);
    tell.fires(&[36, 47], &nil, input);
    let same = scene.clone().precommits(0, &[(1, 50), (2, 50)]);
    tell.fires(&[36, 47, 49], &same, input);
    let asked = same.marks(1, 1, 1, 0).precommits(0, &[(3, 0)]);
    tell.fires(&[36, 49], &asked, input);
}

/// Large prevotes for nil at step prevote. The lock and the valid sheet stay.
fn line_44(tell: &mut Teller) {
    let scene = four()
        .round(1)
        .at_prevote()
        .prevotes(1, &[(0, 0), (1, 0)])
        .locked(0, 50)
        .valid(0, 60);
    let input = scene.prevote(2, 1, 0);
    tell.fires(&[34, 44], &scene, input);
    let asked = scene.clone().marks(0, 1, 0, 0);
    tell.fires(&[44], &asked, input);
    let backed = scene.clone().marks(0, 1, 1, 1).good(1, 50, 0);
    tell.fires(&[44], &backed, input);
    let precommits = scene.precommits(1, &[(0, 77), (1, 50), (3, 0)]);
    tell.fires(
        &[34, 44, 47],
        &precommits.with(|k| k.log[1][heard::PRECOMMITS] = 0b1010),
        input,
    );
    let own = four().round(2).prevotes(2, &[(1, 0), (2, 0)]);
    tell.fires(&[34, 44], &own, own.timer(5, 2));
}

/// Nil is name 0: large prevotes for name 1 are for another sheet. One short, two thirds, another step, another round.
fn line_44_not(tell: &mut Teller) {
    let ones = four().at_prevote().prevotes(0, &[(0, 1), (1, 1)]);
    tell.fires(&[34], &ones, ones.prevote(2, 0, 1));
    tell.fires(&[], &ones.clone().marks(1, 1, 0, 0), ones.prevote(2, 0, 1));
    let nil = four().prevotes(0, &[(0, 0), (1, 0)]);
    let input = nil.prevote(2, 0, 0);
    tell.fires(&[34], &nil.clone().at_prevote(), nil.prevote(2, 0, 5));
    tell.fires(&[], &nil, input);
    tell.fires(&[], &nil.clone().at_precommit(), input);
    tell.fires(&[], &nil.round(1).at_prevote(), input);
    let exact = uneven()
        .at_prevote()
        .marks(1, 1, 0, 0)
        .prevotes(0, &[(0, 0), (1, 0), (2, 50)]);
    tell.fires(&[], &exact, exact.prevote(3, 0, 0));
}
