//! Start, the timers, line 55 and lines 11 to 21: how a round is entered.

use super::scene::{
    four, fresh, heavy, offering, running, seven, three, uneven, wide, Scene, LONG, MOST,
};
use super::teller::Teller;
use flat::heard;

pub fn tell(tell: &mut Teller) {
    tell.file
        .calls
        .about("Lines 11 to 21 and 55, start and the timers: how a round is entered");
    line_55(tell);
    line_55_counts(tell);
    line_55_not(tell);
    own_turn(tell);
    whole_rounds(tell);
    start(tell);
    next_round(tell);
    other_timers(tell);
}

/// A round begins with step propose, nothing asked for but its propose timer, and 36 not used up; lock and valid sheet stay.
fn line_55(tell: &mut Teller) {
    let scene = uneven()
        .round(1)
        .at_precommit()
        .marks(1, 1, 1, 1)
        .locked(0, 50)
        .valid(1, 60);
    // Kiosk 0 is some alone, by any one message.
    tell.fires(&[55], &scene, scene.prevote(0, 2, 0));
    tell.fires(&[55], &scene, scene.precommit(0, 12, 50));
    tell.fires(&[55, 22], &scene, scene.proposal(5, 50, -1, 1));
    tell.fires(&[55], &scene, scene.proposal(9, 50, 3, 1));
    // Not in the current round, nor in one behind.
    tell.fires(&[], &scene, scene.prevote(0, 1, 0));
    tell.fires(&[], &scene, scene.precommit(0, 0, 0));
}

/// "A sender's proposal, prevote and precommit count once together"; own ones count too.
fn line_55_counts(tell: &mut Teller) {
    let vote = four().precommits(2, &[(1, 0)]);
    tell.fires(&[55, 22], &vote, vote.proposal(2, 70, -1, 1));
    tell.fires(&[55], &vote, vote.precommit(2, 2, 0));
    tell.fires(&[], &vote, vote.prevote(1, 2, 0));
    let proposed = four().good(2, 70, 0);
    tell.fires(&[], &proposed, proposed.prevote(3, 2, 70));
    tell.fires(&[55], &proposed, proposed.prevote(1, 2, 70));
    tell.fires(&[55], &proposed, proposed.precommit(2, 2, 70));
    let bad = four().bad(2, 70, 0);
    tell.fires(&[55], &bad, bad.prevote(1, 2, 70));
    let all = proposed.prevotes(2, &[(3, 70)]);
    tell.fires(&[], &all, all.precommit(3, 2, 70));
    let own = four().round(1).prevotes(5, &[(0, 0)]);
    tell.fires(&[55], &own, own.prevote(3, 5, 0));
    let own = four().round(1).precommits(5, &[(0, 0)]);
    tell.fires(&[55], &own, own.prevote(3, 5, 0));
    let votes = seven().prevotes(2, &[(3, 5)]).precommits(3, &[(6, 5)]);
    tell.fires(&[55], &votes, votes.precommit(2, 2, 6));
    tell.fires(&[55], &votes, votes.prevote(5, 3, 6));
    tell.fires(&[], &votes, votes.prevote(1, 3, 6));
    tell.fires(&[], &votes, votes.prevote(2, 4, 6));
}

/// Exactly a third is not some.
fn line_55_not(tell: &mut Teller) {
    let third = three();
    tell.fires(&[], &third, third.prevote(0, 1, 0));
    tell.fires(&[], &third, third.proposal(3, 50, -1, 1));
    let more = three().precommits(4, &[(2, 0)]);
    tell.fires(&[55], &more, more.prevote(0, 4, 0));
    let own = uneven().prevotes(2, &[(2, 0)]);
    tell.fires(&[], &own, own.precommit(0, 0, 0));
    tell.fires(&[55], &own, own.precommit(1, 2, 0));
    let seats: Vec<_> = (0..10).map(|seat| (seat, 40)).collect();
    let ten = wide().prevotes(14, &seats[1..]).precommits(14, &seats[..9]);
    tell.fires(&[], &ten, ten.precommit(9, 14, MOST));
    tell.fires(&[55], &ten, ten.precommit(31, 14, MOST));
}

/// Its own turn: the valid sheet with its round, else the offer, else it asks for the propose timer.
fn own_turn(tell: &mut Teller) {
    // 01's example.
    let skips = four().prevotes(3, &[(2, 0)]).precommits(3, &[(2, 0)]);
    let last = skips.prevote(3, 3, 0);
    tell.fires(&[55, 22, 34], &skips, last);
    tell.fires(&[55], &skips, offering(0, last));
    let valid = skips.clone().round(2).locked(0, 50).valid(1, 60);
    tell.fires(&[55], &valid, last);
    tell.fires(&[55], &valid, offering(0, last));
    let backed = valid.prevotes(1, &[(1, 60), (2, 60), (3, 60)]);
    tell.fires(&[55, 28, 34], &backed, offering(MOST, last));
    // A lock alone is not proposed, and keeps it from prevoting its own offer.
    let locked = skips.clone().round(1).locked(1, 50);
    tell.fires(&[55, 22, 34, 44], &locked, last);
    tell.fires(&[55], &locked, offering(0, last));
    // Over what a made-up state holds in the places of its own messages.
    let spoken = four()
        .bad(3, 77, 1)
        .prevotes(3, &[(0, 78)])
        .precommits(3, &[(0, 79)]);
    tell.fires(&[55, 22], &spoken, spoken.prevote(2, 3, 77));
    tell.fires(&[55], &spoken, offering(0, spoken.prevote(2, 3, 77)));
    let heard = wide().good(15, 77, -1).valid(0, 1).round(3);
    let votes: Vec<_> = (0..10).map(|seat| (seat, 0)).collect();
    let heard = heard.precommits(15, &votes[..9]);
    tell.fires(&[], &heard, heard.prevote(8, 15, 5));
    tell.fires(&[55], &heard, offering(LONG, heard.prevote(31, 15, 5)));
}

/// Several rules in one call, up to all six outputs.
fn whole_rounds(tell: &mut Teller) {
    let half = running(&[3, 2, 1], 0, 6)
        .prevotes(1, &[(1, 70)])
        .precommits(1, &[(1, 70)]);
    let with = half.clone().proposed(1, 70, -1, 3);
    let chain = [55, 22, 34, 36, 47, 49];
    tell.fires(&chain, &with, with.prevote(2, 1, 70));
    let own = half
        .clone()
        .prevotes(3, &[(1, 70)])
        .precommits(3, &[(1, 70)]);
    tell.fires(&chain, &own, offering(70, own.precommit(2, 3, 0)));
    let other = with.precommits(1, &[(1, 71)]);
    tell.fires(&[55, 22, 34, 36, 47], &other, other.precommit(2, 1, 0));
    let bad = half.bad(1, 70, -1);
    tell.fires(&[55, 22, 34], &bad, bad.prevote(2, 1, 0));
    let alone = heavy();
    tell.fires(&[55, 47], &alone, alone.precommit(2, 6, 50));
    let valid = heavy()
        .round(3)
        .proposed(4, 80, 1, u32::MAX)
        .prevotes(1, &[(2, 80)])
        .locked(0, 50);
    tell.fires(&[55, 28, 47], &valid, valid.precommit(2, 4, 81));
    let proposed = four().good(2, 70, -1).prevotes(2, &[(3, 70)]);
    tell.fires(&[55, 22, 34, 36], &proposed, proposed.prevote(1, 2, 70));
    tell.fires(&[55, 22, 34], &proposed, proposed.prevote(2, 2, 71));
}

fn start(tell: &mut Teller) {
    let other = fresh(&[1; 4], 0, 1);
    tell.fires(&[], &other, other.start());
    let own = fresh(&[5, 1, 4, 2], 3, 1_000_003);
    tell.fires(&[22], &own, offering(LONG, own.start()));
    tell.fires(&[], &own, offering(0, own.start()));
    // What 01 does not name in a state that has not started: marks, a step, and what is not heard or not on the roll.
    let junk = fresh(&[1, 2, 3], 2, 9).marks(1, 1, 1, 1).at_precommit();
    let junk = junk.with(|k| {
        k.log[0][heard::VALID] = 200;
        k.log[9][heard::VALID] = 16;
        k.powers[3] = u16::MAX;
        k.last = 0;
    });
    tell.fires(&[], &junk, junk.start());
    let one = fresh(&[1], 0, 7);
    tell.fires(&[22, 34, 36, 47, 49], &one, offering(5, one.start()));
    tell.fires(&[], &one, offering(0, one.start()));
    let height_0 = fresh(&[2, 1], 0, 0);
    tell.fires(&[22], &height_0, height_0.start());
    let large = fresh(&[0, 1_000, 0], 1, 4);
    tell.fires(&[22, 34, 36, 47, 49], &large, large.start());
    let two_thirds = fresh(&[1, 2], 1, u32::MAX);
    tell.fires(&[22], &two_thirds, two_thirds.start());
    let many = fresh(&[1_000; 32], 31, u32::MAX);
    tell.fires(&[22], &many, offering(MOST, many.start()));
}

/// The precommit timer begins the next round.
fn next_round(tell: &mut Teller) {
    let due = |scene: Scene| scene.at_precommit().marks(1, 1, 1, 1);
    let first = due(four()).locked(0, 50).valid(0, 50);
    tell.fires(&[], &first, first.timer(7, 0));
    let heard = due(four()).good(1, 60, -1).prevotes(1, &[(2, 60)]);
    tell.fires(&[22], &heard, heard.timer(7, 0));
    let own = due(uneven()).round(2);
    tell.fires(&[22], &own, offering(LONG, own.timer(7, 2)));
    tell.fires(&[], &own, offering(0, own.timer(7, 2)));
    let valid = own.clone().locked(0, 50).valid(1, 60);
    tell.fires(&[], &valid, valid.timer(7, 2));
    let backed = valid.prevotes(1, &[(0, 60), (2, 60)]);
    tell.fires(&[28], &backed, backed.timer(7, 2));
    let last = four().round(14).marks(0, 0, 1, 0);
    tell.fires(&[22], &last, last.timer(7, 14));
    let waits = four().round(5).at_prevote().marks(0, 0, 1, 0);
    tell.fires(&[], &waits, waits.timer(7, 5));
}

/// Lines 57 to 62: a nil vote, and the next step.
fn other_timers(tell: &mut Teller) {
    let scene = seven().round(6).locked(2, 50).valid(3, 60);
    tell.fires(&[], &scene, scene.timer(5, 6));
    let spoken = scene.prevotes(6, &[(4, 60)]).precommits(6, &[(4, 60)]);
    tell.fires(&[], &spoken, spoken.timer(5, 6));
    let voted = spoken.at_prevote().marks(0, 1, 0, 0);
    tell.fires(&[], &voted, voted.timer(6, 6));
    let last = four().round(15);
    tell.fires(&[], &last, last.timer(5, 15));
    let last = last.at_prevote().marks(1, 1, 1, 1);
    tell.fires(&[], &last, last.timer(6, 15));
}
