//! Refusal 5: "kind not 1 to 7, sender not on the roll, round over 15, a field outside the rules above".

use super::scene::{four, fresh, seven, uneven, wide, LONG, MOST};
use super::teller::Teller;
use second::Input;

pub fn tell(tell: &mut Teller) {
    tell.file
        .calls
        .about("5: kind, sender, round, and the fields of each kind");
    kinds_senders_rounds(tell);
    votes(tell);
    proposals(tell);
    timers(tell);
    starts(tell);
}

fn kinds_senders_rounds(tell: &mut Teller) {
    let scene = four().marks(1, 1, 1, 0);
    for kind in [0, 8, 255] {
        tell.refuses(5, &scene, scene.timer(kind, 0));
    }
    tell.refuses(5, &scene, scene.prevote(4, 0, 50));
    tell.refuses(5, &scene, scene.precommit(255, 0, 50));
    tell.fires(&[], &scene, scene.precommit(3, 15, 50));
    tell.fires(&[], &scene, scene.prevote(3, 15, 50));
    tell.refuses(5, &scene, scene.prevote(3, 16, 50));
    tell.refuses(5, &scene, scene.precommit(3, 255, 50));
    for kind in [5, 6, 7] {
        tell.refuses(5, &scene, scene.timer(kind, 16));
    }
    let off = seven();
    tell.refuses(5, &off, off.prevote(7, 3, 50));
    tell.fires(&[], &off, off.prevote(6, 3, 50));
    let off = wide();
    tell.refuses(5, &off, off.precommit(32, 0, 50));
    tell.fires(&[], &off, off.precommit(31, 0, MOST));
}

/// "Votes: valid round field and verdict 0."
fn votes(tell: &mut Teller) {
    let scene = uneven().round(3);
    for vote in [scene.prevote(1, 3, LONG), scene.precommit(3, 3, 0)] {
        tell.fires(&[], &scene, vote);
        tell.refuses(5, &scene, Input { valid: 1, ..vote });
        tell.refuses(5, &scene, Input { verdict: 1, ..vote });
    }
}

/// "Proposal: name not 0, valid round field 0 to its round, verdict 0 or 1."
fn proposals(tell: &mut Teller) {
    let scene = uneven().at_prevote();
    let proposal = scene.proposal(2, LONG, 1, 1);
    tell.fires(&[], &scene, proposal);
    tell.fires(
        &[],
        &scene,
        Input {
            verdict: 0,
            ..proposal
        },
    );
    tell.fires(
        &[],
        &scene,
        Input {
            name: 1,
            ..proposal
        },
    );
    tell.refuses(
        5,
        &scene,
        Input {
            valid: 3,
            ..proposal
        },
    );
    tell.refuses(
        5,
        &scene,
        Input {
            verdict: 2,
            ..proposal
        },
    );
    tell.refuses(
        5,
        &scene,
        Input {
            name: 0,
            ..proposal
        },
    );
    tell.refuses(
        5,
        &scene,
        Input {
            round: 18,
            ..proposal
        },
    );
    let first = scene.proposal(0, 50, -1, 1);
    tell.fires(&[], &scene, first);
    tell.refuses(5, &scene, Input { valid: 1, ..first });
    let last = four().proposal(14, 50, 13, 1);
    tell.fires(&[], &four(), last);
    tell.refuses(5, &four(), Input { valid: 15, ..last });
}

/// "Start and timers: sender, name, valid round field and verdict 0."
fn timers(tell: &mut Teller) {
    let scene = uneven().round(2).marks(1, 1, 1, 0);
    let voted = scene.clone().at_prevote();
    for (scene, kind) in [(&scene, 5), (&voted, 6), (&scene, 7)] {
        let timer = scene.timer(kind, 2);
        tell.refuses(5, scene, Input { sender: 1, ..timer });
        tell.refuses(5, scene, Input { name: 1, ..timer });
        tell.refuses(5, scene, Input { valid: 1, ..timer });
        tell.refuses(
            5,
            scene,
            Input {
                verdict: 1,
                ..timer
            },
        );
    }
}

/// And "Start: round 0."
fn starts(tell: &mut Teller) {
    let scene = fresh(&[5, 1, 4, 2], 2, 1_000_003);
    let start = scene.start();
    tell.fires(&[], &scene, start);
    tell.refuses(5, &scene, Input { round: 1, ..start });
    tell.refuses(5, &scene, Input { sender: 2, ..start });
    tell.refuses(5, &scene, Input { name: 1, ..start });
    tell.refuses(5, &scene, Input { valid: 1, ..start });
    tell.refuses(
        5,
        &scene,
        Input {
            verdict: 1,
            ..start
        },
    );
}
