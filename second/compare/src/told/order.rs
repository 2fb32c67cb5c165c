//! "Checked in this order; the first that applies is given": inputs to which two refusals apply.

use super::scene::{four, fresh, uneven, Scene};
use super::teller::Teller;
use second::Input;

pub fn tell(tell: &mut Teller) {
    tell.file
        .calls
        .about("Two refusals apply, and the lower is given");
    one_to_five(tell);
    five_to_nine(tell);
    ten_to_twelve(tell);
}

fn one_to_five(tell: &mut Teller) {
    let elsewhere = |input: Input| Input { height: 5, ..input };
    let settled = four().with(|k| k.phase = flat::SETTLED);
    let impossible = settled.clone().with(|k| k.round = 16);
    tell.refuses(1, &impossible, settled.start());
    tell.refuses(2, &settled, settled.start());
    tell.refuses(2, &settled, elsewhere(settled.prevote(1, 0, 5)));
    tell.refuses(3, &four(), elsewhere(settled.start()));
    let unstarted = fresh(&[1; 4], 0, 1);
    tell.refuses(3, &unstarted, elsewhere(unstarted.prevote(9, 99, 5)));
    tell.refuses(3, &unstarted, unstarted.prevote(0, 0, 5));
    tell.refuses(
        4,
        &unstarted,
        elsewhere(Input {
            round: 1,
            ..unstarted.start()
        }),
    );
    tell.refuses(4, &four(), elsewhere(unstarted.prevote(9, 99, 5)));
    tell.refuses(4, &four(), elsewhere(unstarted.timer(0, 0)));
    // Room aside: the same where not a byte is left.
    let full = |scene: Scene| {
        let used = scene.kiosk.used;
        scene.area(used)
    };
    tell.refuses(2, &full(settled.clone()), settled.start());
    tell.refuses(3, &full(four()), settled.start());
    tell.refuses(4, &full(four()), elsewhere(unstarted.prevote(1, 0, 5)));
    tell.refuses(5, &full(four()), unstarted.prevote(4, 0, 5));
}

fn five_to_nine(tell: &mut Teller) {
    let scene = uneven()
        .at_prevote()
        .good(0, 50, -1)
        .good(3, 60, -1)
        .prevotes(0, &[(2, 50), (3, 50)]);
    let own = scene.proposal(3, 60, -1, 1);
    tell.refuses(5, &scene, Input { verdict: 2, ..own });
    tell.refuses(
        5,
        &scene,
        Input {
            verdict: 1,
            ..scene.prevote(2, 0, 50)
        },
    );
    // The own number and not its turn; the own number and a place that is heard.
    tell.refuses(6, &scene, Input { round: 0, ..own });
    tell.refuses(6, &scene, own);
    tell.refuses(6, &scene, scene.prevote(2, 0, 50));
    let not_its_turn = Input {
        sender: 1,
        ..scene.proposal(0, 50, -1, 1)
    };
    tell.refuses(7, &scene, not_its_turn);
    tell.refuses(
        7,
        &scene,
        Input {
            name: 51,
            ..not_its_turn
        },
    );
    tell.refuses(
        5,
        &scene,
        Input {
            valid: 1,
            ..not_its_turn
        },
    );
}

fn ten_to_twelve(tell: &mut Teller) {
    let scene = uneven()
        .at_prevote()
        .prevotes(0, &[(3, 50)])
        .good(0, 50, -1);
    let full = scene.clone().area(scene.kiosk.used);
    tell.refuses(6, &full, scene.prevote(2, 0, 50));
    tell.refuses(
        7,
        &full,
        Input {
            sender: 0,
            ..scene.proposal(0, 50, -1, 1)
        },
    );
    tell.refuses(8, &full, scene.prevote(3, 0, 50));
    tell.refuses(9, &full, scene.prevote(3, 0, 51));
    tell.refuses(10, &full, scene.timer(6, 0));
    let last = uneven().round(15).marks(1, 1, 1, 0);
    let full = last.clone().area(last.kiosk.used);
    tell.refuses(11, &full, last.timer(7, 15));
    // Round 15 and not asked for, or not current.
    tell.refuses(10, &last.clone().marks(1, 1, 0, 0), last.timer(7, 15));
    let before = uneven().round(14).marks(1, 1, 1, 0);
    tell.refuses(10, &before, before.timer(7, 15));
    tell.refuses(
        5,
        &last,
        Input {
            name: 5,
            ..last.timer(7, 15)
        },
    );
}
