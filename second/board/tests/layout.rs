//! The library sees each field where this side's structs have it; from C the same, and the example runs.

mod common;
use board::{input_number, kiosk_number, layout};
use common::c;
use flat::{Input, Kiosk, Output, Reply, KIOSKS, ROUNDS};

/// A different number in every field, high bits set where the field is wide.
fn kiosk() -> Kiosk {
    let mut kiosk = Kiosk {
        kiosks: usize::MAX - 1,
        own: usize::MAX - 2,
        used: usize::MAX - 3,
        last: usize::MAX - 4,
        locked_name: u64::MAX - 5,
        valid_name: u64::MAX - 6,
        height: u32::MAX - 7,
        powers: [0; KIOSKS],
        phase: 1,
        settled: 2,
        round: 3,
        step: 4,
        asked_propose: 5,
        asked_prevote: 6,
        asked_precommit: 7,
        backed: 8,
        locked_next: 9,
        valid_next: 10,
        log: [[0; 4]; ROUNDS],
    };
    for (power, number) in kiosk.powers.iter_mut().zip(60_000..) {
        *power = number;
    }
    for (heard, number) in kiosk.log.iter_mut().zip((20u32..).step_by(4)) {
        *heard = [0, 1, 2, 3].map(|more| u32::MAX - number - more);
    }
    kiosk
}

/// Every number of a kiosk by the header's field, and those of an array by index.
fn numbers(kiosk: &Kiosk) -> Vec<(usize, usize, u64)> {
    let mut numbers: Vec<(usize, usize, u64)> = [
        (0, kiosk.kiosks as u64),
        (1, kiosk.own as u64),
        (2, kiosk.used as u64),
        (3, kiosk.last as u64),
        (4, kiosk.locked_name),
        (5, kiosk.valid_name),
        (6, kiosk.height.into()),
        (8, kiosk.phase.into()),
        (9, kiosk.settled.into()),
        (10, kiosk.round.into()),
        (11, kiosk.step.into()),
        (12, kiosk.asked_propose.into()),
        (13, kiosk.asked_prevote.into()),
        (14, kiosk.asked_precommit.into()),
        (15, kiosk.backed.into()),
        (16, kiosk.locked_next.into()),
        (17, kiosk.valid_next.into()),
    ]
    .iter()
    // The index of a single field is not looked at.
    .flat_map(|&(field, number)| [0, 1, 31, usize::MAX].map(|index| (field, index, number)))
    .collect();
    for (index, &power) in kiosk.powers.iter().enumerate() {
        numbers.push((7, index, power.into()));
    }
    for (index, &number) in kiosk.log.iter().flatten().enumerate() {
        numbers.push((18, index, number.into()));
    }
    // A field or an index that there is not.
    numbers.extend([
        (7, KIOSKS, 0),
        (7, usize::MAX, 0),
        (19, 0, 0),
        (usize::MAX, 0, 0),
    ]);
    numbers.extend([(18, 4 * ROUNDS, 0), (18, usize::MAX, 0)]);
    numbers
}

#[test]
fn fields_of_a_kiosk() {
    let kiosk = kiosk();
    for (field, index, number) in numbers(&kiosk) {
        assert_eq!(
            kiosk_number(&kiosk, field, index),
            number,
            "field {field}, index {index}"
        );
    }
}

#[test]
fn fields_of_an_input() {
    let input = Input {
        name: u64::MAX - 1,
        offer: u64::MAX - 2,
        height: u32::MAX - 3,
        kind: 4,
        sender: 5,
        round: 6,
        valid: 7,
        verdict: 8,
    };
    let numbers = [
        u64::MAX - 1,
        u64::MAX - 2,
        u64::from(u32::MAX) - 3,
        4,
        5,
        6,
        7,
        8,
        0,
        0,
    ];
    for (field, number) in numbers.into_iter().enumerate() {
        assert_eq!(input_number(&input, field), number, "field {field}");
    }
    assert_eq!(input_number(&input, usize::MAX), 0);
}

#[test]
fn fields_of_a_reply() {
    let kiosk = kiosk();
    for first in [0, 1, 100, 199, 200, 201, u8::MAX] {
        let from = first.min(200);
        let sent = [0, 1, 2, 3, 4, 5].map(|i| Output {
            name: u64::from(from + 4 * i + 3),
            kind: from + 4 * i + 4,
            round: from + 4 * i + 5,
            valid: from + 4 * i + 6,
        });
        let right = Reply {
            number: from.into(),
            place: usize::from(from) + 1,
            count: usize::from(from) + 2,
            sent,
            kiosk,
        };
        assert_eq!(layout(&kiosk, first), right);
    }
}

#[test]
fn layout_from_c() {
    assert_eq!(
        c::run(&["second/board/layout.c"]),
        "153 numbers, all where the library has them\n"
    );
}

#[test]
fn example_in_c() {
    let right = "created: 15 bytes\n\
                 opened: kiosk 0 of 4, height 1\n\
                 said again: 0 messages, 0 timers\n\
                 start: number 0, 1 outputs\n  kind 4 round 0 name 0\n\
                 prevote: number 0, 0 outputs\n\
                 last group: 26 bytes at 53\n\
                 opened: kiosk 0 of 4, height 1\n\
                 said again: 0 messages, 1 timers\n";
    assert_eq!(c::run(&["include/example.c"]), right);
}
