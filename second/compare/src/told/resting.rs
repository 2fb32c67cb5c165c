//! "Or started, not settled and some rule already applies": each of the eight, and the twin in which it does not.

use super::possible::{lets_in, shuts_out};
use super::scene::{four, heavy, uneven, Scene};
use super::teller::Teller;

pub fn tell(tell: &mut Teller) {
    tell.file
        .calls
        .about("1: a rule already applies, and does not");
    for (rests, applies) in [
        line_22(),
        line_28(),
        line_34(),
        line_36(),
        line_44(),
        line_47(),
        line_49(),
        line_49_behind(),
        line_55(),
        line_55_last(),
    ] {
        lets_in(tell, &rests);
        shuts_out(tell, &applies);
    }
    // Where it has settled no rule is looked at.
    for (_, applies) in [line_22(), line_28(), line_34(), line_49(), line_55()] {
        let settled = applies.with(|k| k.phase = flat::SETTLED);
        tell.refuses(2, &settled, settled.prevote(1, 14, 5));
    }
}

fn line_22() -> (Scene, Scene) {
    let scene = uneven().round(1).good(1, 50, -1);
    (scene.clone().at_prevote(), scene)
}

fn line_28() -> (Scene, Scene) {
    let scene = four()
        .round(2)
        .bad(2, 50, 1)
        .prevotes(1, &[(1, 50), (2, 50)]);
    let applies = scene.clone().prevotes(1, &[(3, 50)]);
    (scene.prevotes(1, &[(3, 51)]), applies)
}

fn line_34() -> (Scene, Scene) {
    let scene = uneven()
        .round(3)
        .at_prevote()
        .prevotes(3, &[(0, 50), (2, 0)]);
    (scene.clone().marks(1, 1, 0, 0), scene)
}

fn line_36() -> (Scene, Scene) {
    let scene = uneven()
        .round(2)
        .at_precommit()
        .good(2, 50, -1)
        .prevotes(2, &[(0, 50), (2, 50)]);
    (scene.clone().marks(1, 1, 0, 1), scene)
}

fn line_44() -> (Scene, Scene) {
    let scene = uneven().marks(1, 1, 0, 0).prevotes(0, &[(0, 0), (2, 0)]);
    (scene.clone().at_precommit(), scene.at_prevote())
}

fn line_47() -> (Scene, Scene) {
    let scene = four().round(9).precommits(9, &[(1, 50), (2, 0), (3, 51)]);
    (scene.clone().marks(0, 0, 1, 0), scene)
}

fn line_49() -> (Scene, Scene) {
    let scene = heavy().round(9).precommits(4, &[(2, 80)]);
    (scene.clone().bad(4, 80, -1), scene.good(4, 80, -1))
}

fn line_49_behind() -> (Scene, Scene) {
    let scene = uneven().round(9).good(0, 80, -1).precommits(0, &[(2, 80)]);
    let applies = scene.clone().precommits(0, &[(0, 80)]);
    (scene.precommits(0, &[(0, 81)]), applies)
}

fn line_55() -> (Scene, Scene) {
    let scene = four().prevotes(3, &[(2, 0)]);
    let applies = scene.clone().precommits(3, &[(1, 0)]);
    (scene.precommits(3, &[(2, 0)]), applies)
}

fn line_55_last() -> (Scene, Scene) {
    let scene = uneven().prevotes(15, &[(0, 0)]);
    (scene.clone().round(15), scene.round(13))
}
