//! Refusal 1, clause by clause, each with the twin that is just let in.

use super::scene::{four, fresh, running, uneven, Scene, LONG};
use super::teller::Teller;
use flat::{heard, Kiosk};

pub fn tell(tell: &mut Teller) {
    tell.file
        .calls
        .about("1, clause by clause, and what is just let in");
    roll(tell);
    lengths(tell);
    rounds(tell);
    marks(tell);
    held(tell);
    proposals(tell);
    not_started(tell);
    numbers_that_say_nothing(tell);
    greater_numbers(tell);
}

/// A state that an input of round 14 shows to be possible.
#[track_caller]
pub fn lets_in(tell: &mut Teller, scene: &Scene) {
    tell.fires(&[], scene, scene.prevote(1, 14, 5));
}

/// And one that the same input shows to be impossible.
#[track_caller]
pub fn shuts_out(tell: &mut Teller, scene: &Scene) {
    tell.refuses(1, scene, scene.prevote(1, 14, 5));
}

/// "The roll is outside the numbers; own number not on it".
fn roll(tell: &mut Teller) {
    shuts_out(
        tell,
        &Scene {
            area: Some(20),
            ..none()
        },
    );
    let kiosks = |kiosks: usize| {
        four().with(|k| {
            k.kiosks = kiosks;
            k.powers = [1_000; 32];
            k.used = 80;
        })
    };
    shuts_out(tell, &kiosks(0));
    lets_in(tell, &kiosks(32));
    shuts_out(tell, &kiosks(33));
    let power = |seat: usize, power: u16| four().with(|k| k.powers[seat] = power);
    for seat in [0, 3] {
        lets_in(tell, &power(seat, 1_000));
        shuts_out(tell, &power(seat, 1_001));
    }
    lets_in(tell, &power(4, u16::MAX));
    lets_in(tell, &running(&[0, 0, 1, 0], 0, 1));
    shuts_out(tell, &running(&[0; 4], 0, 1).with(|k| k.powers[4] = 1));
    lets_in(tell, &running(&[1; 4], 3, 1));
    shuts_out(tell, &running(&[1; 4], 4, 1));
    shuts_out(tell, &running(&[1; 4], usize::MAX, 1));
}

/// The unopened state.
fn none() -> Scene {
    four().with(|k| *k = Kiosk::default())
}

/// "Table not 1,040 long; used length below the header or over the area; last group's start over the used length".
fn lengths(tell: &mut Teller) {
    for length in [1_039, 1_041] {
        let mut scene = four().prevotes(2, &[(3, 7)]);
        scene.table.resize(length, 0);
        shuts_out(tell, &scene);
    }
    let lengths = |used: usize, last: usize, area: usize| {
        four().with(|k| (k.used, k.last) = (used, last)).area(area)
    };
    lets_in(tell, &lengths(15, 15, 41));
    shuts_out(tell, &lengths(14, 14, 41));
    lets_in(tell, &lengths(16, 0, 42));
    shuts_out(tell, &lengths(15, 16, 41));
    // At the area's end there is no room, and past it the state is impossible.
    let full = lengths(20, 20, 20);
    tell.refuses(12, &full, full.prevote(1, 14, 5));
    shuts_out(tell, &lengths(21, 20, 20));
    shuts_out(tell, &lengths(usize::MAX, 20, 20));
    shuts_out(tell, &lengths(15, usize::MAX, 41));
    let wider = |used: usize| running(&[1; 5], 0, 1).with(|k| (k.used, k.last) = (used, 0));
    lets_in(tell, &wider(17));
    shuts_out(tell, &wider(16));
}

/// "Round or settled round over 15".
fn rounds(tell: &mut Teller) {
    lets_in(tell, &four().round(15));
    shuts_out(tell, &four().round(16));
    let settled = |round: u8| four().with(|k| (k.phase, k.settled) = (flat::SETTLED, round));
    tell.refuses(2, &settled(15), four().prevote(1, 14, 5));
    shuts_out(tell, &settled(16));
}

/// "A mark for a seat not on the roll".
fn marks(tell: &mut Teller) {
    for round in [0, 15] {
        let scene = four()
            .prevotes(round, &[(3, 0)])
            .precommits(round, &[(3, 0)]);
        lets_in(tell, &scene);
        shuts_out(tell, &four().prevotes(round, &[(4, 0)]));
        shuts_out(tell, &four().precommits(round, &[(4, 0)]));
    }
    shuts_out(tell, &four().prevotes(7, &[(3, 0), (31, 0)]));
    shuts_out(tell, &four().precommits(7, &[(3, 0), (31, 0)]));
}

/// "Locked or valid round outside -1 to the current round, or -1 without name 0 or the reverse".
fn held(tell: &mut Teller) {
    for (next, name, fits) in [
        (1, 5, true),
        (3, LONG, true),
        (4, 5, false),
        (0, 5, false),
        (3, 0, false),
    ] {
        let locked = four().with(|k| (k.locked_next, k.locked_name) = (next, name));
        let valid = four().with(|k| (k.valid_next, k.valid_name) = (next, name));
        for scene in [locked.round(2), valid.round(2)] {
            if fits {
                lets_in(tell, &scene);
            } else {
                shuts_out(tell, &scene);
            }
        }
    }
}

/// "A heard proposal with name 0 or a valid round below -1 or not below its own".
fn proposals(tell: &mut Teller) {
    lets_in(tell, &four().good(5, 7, 4));
    lets_in(tell, &four().bad(5, 7, 4));
    shuts_out(tell, &four().good(5, 7, 5));
    shuts_out(tell, &four().bad(5, 0, 2));
    shuts_out(tell, &four().good(15, 7, 15));
    lets_in(tell, &four().good(15, 7, 14));
    shuts_out(tell, &four().at_prevote().good(0, 7, 0));
    lets_in(tell, &four().at_prevote().good(0, 7, -1));
    shuts_out(tell, &four().at_prevote().bad(0, 0, -1));
    // What is not heard may hold anything.
    lets_in(tell, &four().with(|k| k.log[5][heard::VALID] = u32::MAX));
}

/// "Not started yet with anything heard, a table place not 0, a round not 0, or a lock or valid sheet held".
fn not_started(tell: &mut Teller) {
    let scene = fresh(&[1; 4], 0, 1);
    let mut shuts = |scene: Scene| tell.refuses(1, &scene, scene.start());
    for round in [0, 15] {
        shuts(scene.clone().good(round, 7, -1));
        shuts(scene.clone().prevotes(round, &[(0, 0)]));
        shuts(scene.clone().precommits(round, &[(3, 0)]));
    }
    shuts(scene.clone().named(0, 1));
    shuts(scene.clone().named(1_039, 1));
    shuts(scene.clone().round(1));
    shuts(scene.clone().locked(0, 5));
    shuts(scene.clone().valid(0, 5));
    tell.fires(&[], &scene.clone().marks(1, 1, 1, 1), scene.start());
    // A kiosk that has started may hold names in places that are not heard.
    lets_in(tell, &uneven().named(0, 1).named(1_039, 1));
}

/// A phase and a step that there are, a settled round only where settled, and each mark 0 or 1.
fn numbers_that_say_nothing(tell: &mut Teller) {
    let changes: [fn(&mut Kiosk); 8] = [
        |k| k.phase = 3,
        |k| k.settled = 1,
        |k| (k.phase, k.settled) = (flat::FRESH, 1),
        |k| k.step = 3,
        |k| k.asked_propose = 2,
        |k| k.asked_prevote = 2,
        |k| k.asked_precommit = 2,
        |k| k.backed = 2,
    ];
    for change in changes {
        let scene = four().named(65 * 2, 7).with(change);
        tell.cannot_be(&scene, scene.prevote(1, 14, 5));
    }
}

/// A proposal that is heard under a greater number than 2 is a good one.
fn greater_numbers(tell: &mut Teller) {
    lets_in(tell, &four().proposed(2, 7, -1, 3));
}
