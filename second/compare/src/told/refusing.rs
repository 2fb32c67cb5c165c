//! The refusals 2 to 12 but for 5, each with what is just accepted.

use super::scene::{four, fresh, offering, seven, three, uneven, wide, Scene, LONG, MOST};
use super::teller::Teller;
use flat::heard;
use second::Input;

pub fn tell(tell: &mut Teller) {
    tell.file
        .calls
        .about("The refusals 2 to 12 but for 5, and what is just accepted");
    two_three_four(tell);
    six_seven(tell);
    heard_proposals(tell);
    heard_votes(tell);
    ten(tell);
    ten_by_round(tell);
    eleven(tell);
    twelve(tell);
}

fn other_height(input: Input, height: u32) -> Input {
    Input { height, ..input }
}

fn two_three_four(tell: &mut Teller) {
    let settled = four().with(|k| (k.phase, k.settled) = (flat::SETTLED, 3));
    tell.refuses(2, &settled, settled.prevote(1, 0, 50));
    tell.refuses(2, &settled, settled.start());
    let unstarted = fresh(&[1; 4], 0, 1);
    tell.refuses(3, &four(), unstarted.start());
    for kind in [0, 3, 7, 8] {
        tell.refuses(3, &unstarted, unstarted.timer(kind, 0));
    }
    tell.refuses(3, &unstarted, unstarted.proposal(0, 50, -1, 1));
    tell.refuses(4, &unstarted, other_height(unstarted.start(), 2));
    let scene = uneven();
    for height in [1_000_002, 1_000_004, 0] {
        tell.refuses(4, &scene, other_height(scene.prevote(1, 0, 5), height));
    }
}

/// A message with the own number, which is 0 or another; a proposal by another than the round's proposer.
fn six_seven(tell: &mut Teller) {
    let zero = four();
    tell.refuses(6, &zero, zero.proposal(3, 50, -1, 1));
    tell.refuses(6, &zero, zero.prevote(0, 2, 50));
    tell.refuses(6, &zero, zero.precommit(0, 0, 0));
    let scene = uneven();
    tell.refuses(6, &scene, scene.proposal(7, 50, 2, 0));
    tell.refuses(6, &scene, scene.prevote(2, 1, 0));
    tell.refuses(6, &scene, scene.precommit(2, 15, LONG));
    let from = |scene: &Scene, sender, round| Input {
        sender,
        ..scene.proposal(round, 50, -1, 1)
    };
    tell.refuses(7, &scene, from(&scene, 0, 0));
    tell.refuses(7, &scene, from(&scene, 1, 0));
    tell.refuses(7, &scene, from(&scene, 3, 5));
    tell.fires(&[22], &scene, from(&scene, 3, 0));
    // Round 3 is kiosk 6's turn, round 4 kiosk 0's and round 9 kiosk 5's.
    let high = seven().round(4);
    for (sender, round) in [(0, 3), (5, 3), (6, 4)] {
        tell.refuses(7, &high, from(&high, sender, round));
    }
    tell.fires(&[], &high, from(&high, 5, 9));
}

/// 8 and 9 at a proposal's place: another name or valid round is another proposal, and another verdict is not.
fn heard_proposals(tell: &mut Teller) {
    let scene = uneven()
        .at_prevote()
        .round(2)
        .good(2, 50, 1)
        .bad(4, LONG, -1);
    tell.refuses(8, &scene, scene.proposal(2, 50, 1, 1));
    tell.refuses(8, &scene, scene.proposal(2, 50, 1, 0));
    tell.refuses(9, &scene, scene.proposal(2, 51, 1, 1));
    tell.refuses(9, &scene, scene.proposal(2, 50, 0, 1));
    tell.refuses(9, &scene, scene.proposal(2, 50, -1, 1));
    tell.refuses(8, &scene, scene.proposal(4, LONG, -1, 1));
    tell.refuses(9, &scene, scene.proposal(4, LONG, 1, 0));
    tell.refuses(9, &scene, scene.proposal(4, LONG - 1, -1, 0));
    // A name that stands in a place that is not heard is none.
    let unheard = scene.named(65 * 6, 50).with(|k| k.log[6][heard::VALID] = 1);
    tell.fires(&[], &unheard, unheard.proposal(6, 50, 0, 1));
    tell.fires(&[], &unheard, unheard.proposal(6, 51, 0, 0));
}

/// 8 and 9 at a vote's place, of this sender, round and type.
fn heard_votes(tell: &mut Teller) {
    let scene = four()
        .round(1)
        .marks(1, 1, 1, 1)
        .prevotes(0, &[(1, 50), (3, 0)])
        .precommits(1, &[(2, MOST), (3, 51)]);
    tell.refuses(8, &scene, scene.prevote(1, 0, 50));
    tell.refuses(9, &scene, scene.prevote(1, 0, 51));
    tell.refuses(9, &scene, scene.prevote(1, 0, 0));
    tell.refuses(8, &scene, scene.prevote(3, 0, 0));
    tell.refuses(9, &scene, scene.prevote(3, 0, 50));
    tell.refuses(8, &scene, scene.precommit(2, 1, MOST));
    tell.refuses(9, &scene, scene.precommit(2, 1, MOST - 1));
    tell.refuses(9, &scene, scene.precommit(3, 1, 0));
    for input in [
        scene.prevote(2, 0, 50),
        scene.prevote(1, 1, 50),
        scene.precommit(1, 0, 50),
        scene.prevote(2, 1, MOST),
        scene.precommit(1, 1, 51),
        scene.precommit(2, 0, 51),
    ] {
        tell.fires(&[], &scene, input);
    }
    let unheard = three().named(65 + 1, 50).named(65 + 33, 51);
    tell.fires(&[], &unheard, unheard.prevote(0, 1, 50));
    tell.fires(&[], &unheard, unheard.precommit(0, 1, 50));
    let far = wide()
        .prevotes(15, &[(31, MOST)])
        .precommits(15, &[(31, LONG)]);
    tell.refuses(8, &far, far.prevote(31, 15, MOST));
    tell.refuses(9, &far, far.precommit(31, 15, MOST));
}

/// "5 needs step propose, 6 step prevote, 7 none", and each that it is asked for.
fn ten(tell: &mut Teller) {
    let steps = [four(), four().at_prevote(), four().at_precommit()];
    for (step, scene) in steps.into_iter().enumerate() {
        let others = scene.clone().marks(0, 1, 1, 1);
        tell.refuses(10, &others, others.timer(5, 0));
        let only = scene.clone().marks(1, 0, 0, 0);
        if step == 0 {
            tell.fires(&[], &only, only.timer(5, 0));
        } else {
            tell.refuses(10, &only, only.timer(5, 0));
        }
        let others = scene.clone().marks(1, 0, 1, 1);
        tell.refuses(10, &others, others.timer(6, 0));
        let only = scene.clone().marks(0, 1, 0, 0);
        if step == 1 {
            tell.fires(&[], &only, only.timer(6, 0));
        } else {
            tell.refuses(10, &only, only.timer(6, 0));
        }
        let others = scene.clone().marks(1, 1, 0, 1);
        tell.refuses(10, &others, others.timer(7, 0));
        let only = scene.marks(0, 0, 1, 0);
        tell.fires(&[], &only, only.timer(7, 0));
    }
}

/// Of the round before and of the next, all asked for.
fn ten_by_round(tell: &mut Teller) {
    let propose = uneven().round(4).marks(1, 1, 1, 1);
    let prevote = propose.clone().at_prevote();
    for round in [3, 5] {
        tell.refuses(10, &propose, propose.timer(5, round));
        tell.refuses(10, &prevote, prevote.timer(6, round));
        tell.refuses(10, &prevote, prevote.timer(7, round));
    }
    tell.fires(&[], &propose, propose.timer(5, 4));
    tell.fires(&[], &prevote, prevote.timer(6, 4));
    tell.fires(&[], &prevote, prevote.timer(7, 4));
}

/// The precommit timer of round 15 alone.
fn eleven(tell: &mut Teller) {
    let last = uneven().round(15).marks(1, 1, 1, 0);
    tell.refuses(11, &last, last.timer(7, 15));
    tell.refuses(11, &last.clone().at_precommit(), last.timer(7, 15));
    tell.fires(&[], &last, last.timer(5, 15));
    let voted = last.at_prevote();
    tell.fires(&[], &voted, voted.timer(6, 15));
    let before = uneven().round(14).marks(1, 1, 1, 0);
    tell.fires(&[22], &before, before.timer(7, 14));
}

/// "The group of this very call": 26 bytes and 12 for each output, exactly and one short.
fn twelve(tell: &mut Teller) {
    let room = |scene: &Scene, bytes: usize| scene.clone().area(scene.kiosk.used + bytes);
    let scene = four();
    let none = scene.prevote(1, 0, 50);
    tell.fires(&[], &room(&scene, 26), none);
    tell.refuses(12, &room(&scene, 25), none);
    tell.refuses(12, &room(&scene, 0), none);
    let one = scene.proposal(0, 50, -1, 1);
    tell.fires(&[22], &room(&scene, 38), one);
    tell.refuses(12, &room(&scene, 37), one);
    let two = scene.prevotes(0, &[(0, 0), (1, 0)]).at_prevote();
    tell.fires(&[34, 44], &room(&two, 50), two.prevote(2, 0, 0));
    tell.refuses(12, &room(&two, 49), two.prevote(2, 0, 0));
    let six = fresh(&[1], 0, 7);
    let input = offering(5, six.start());
    tell.fires(&[22, 34, 36, 47, 49], &room(&six, 98), input);
    tell.refuses(12, &room(&six, 97), input);
}
