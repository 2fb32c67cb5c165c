//! Each clause of refusal 1 and each number from 2 to 15, every one with a twin
//! that differs in one number and gets another answer.

mod common;
use common::*;
use second::*;

/// Four kiosks of power 1, height 1, own number 0, started.
fn running() -> Bench {
    let mut bench = Bench::four();
    bench.outputs(&start(1, 0));
    bench
}

/// The number that a put gets, with the promises of a call checked.
fn number(bench: &Bench, input: &Input) -> u8 {
    bench.clone().put(input).number
}

/// The number for a made-up change to the running bench, with an input that is
/// otherwise accepted.
fn changed(change: impl FnOnce(&mut Bench)) -> u8 {
    let mut bench = running();
    change(&mut bench);
    number(&bench, &prevote(1, 1, 14, 5))
}

#[test]
fn the_made_up_calls_begin_from_an_accepted_one() {
    assert_eq!(changed(|_| ()), 0);
}

#[test]
fn one_roll_outside_the_numbers() {
    assert_eq!(changed(|b| b.state.kiosks = 0), 1);
    assert_eq!(changed(|b| b.state.kiosks = usize::MAX), 1);
    let full = |kiosks: usize, power: u16| {
        changed(|b| {
            b.state.kiosks = kiosks;
            b.state.powers = [power; 32];
            b.state.used = 7 + 2 * 32;
        })
    };
    // 32 x 1,000 is the greatest total.
    assert_eq!(full(32, 1_000), 0);
    assert_eq!(full(33, 1_000), 1);
    assert_eq!(full(32, 1_001), 1);
    assert_eq!(full(32, u16::MAX), 1);
    let seat = |seat: usize, power: u16| changed(|b| b.state.powers[seat] = power);
    assert_eq!(seat(3, 1_000), 0);
    assert_eq!(seat(3, 1_001), 1);
    assert_eq!(seat(4, 1_001), 0);
    let total = |power: u16| {
        changed(|b| {
            b.state.powers = [0; 32];
            b.state.powers[2] = power;
        })
    };
    assert_eq!(total(0), 1);
    assert_eq!(total(1), 0);
    assert_eq!(
        number(
            &Bench {
                state: State::unopened(),
                ..running()
            },
            &start(0, 0)
        ),
        1
    );
}

#[test]
fn one_own_number_not_on_the_roll() {
    assert_eq!(changed(|b| b.state.own = 3), 0);
    assert_eq!(changed(|b| b.state.own = 4), 1);
    assert_eq!(changed(|b| b.state.own = usize::MAX), 1);
}

#[test]
fn one_table_not_1040_long() {
    for (length, expected) in [(0, 1), (1_039, 1), (1_040, 0), (1_041, 1)] {
        assert_eq!(changed(|b| b.table.resize(length, 0)), expected);
    }
}

#[test]
fn one_used_length() {
    let used = |used: usize| {
        changed(|b| {
            b.state.used = used;
            b.state.last = 0;
        })
    };
    assert_eq!(used(14), 1);
    assert_eq!(used(15), 0);
    // At the area's end there is no room, and past it the state is impossible.
    assert_eq!(used(5_147), 12);
    assert_eq!(used(5_148), 1);
    assert_eq!(used(usize::MAX), 1);
    assert_eq!(changed(|b| b.journal.clear()), 1);
}

#[test]
fn one_last_groups_start() {
    assert_eq!(changed(|b| b.state.last = b.state.used), 0);
    assert_eq!(changed(|b| b.state.last = b.state.used + 1), 1);
    assert_eq!(changed(|b| b.state.last = usize::MAX), 1);
}

#[test]
fn one_round_and_settled_round() {
    assert_eq!(changed(|b| b.state.round = 15), 0);
    assert_eq!(changed(|b| b.state.round = 16), 1);
    assert_eq!(changed(|b| b.state.round = 255), 1);
    assert_eq!(changed(|b| b.state.phase = Phase::Settled(15)), 2);
    assert_eq!(changed(|b| b.state.phase = Phase::Settled(16)), 1);
    assert_eq!(changed(|b| b.state.phase = Phase::Settled(255)), 1);
}

#[test]
fn one_mark_for_a_seat_not_on_the_roll() {
    for round in [0, 15] {
        for (marks, expected) in [(1 << 3, 0), (1 << 4, 1), (1 << 31, 1)] {
            assert_eq!(
                changed(|b| b.state.rounds[round].prevotes = marks),
                expected
            );
            assert_eq!(
                changed(|b| b.state.rounds[round].precommits = marks),
                expected
            );
        }
    }
}

#[test]
fn one_locked_and_valid_round() {
    let held = |next: u8, name: u64| {
        let held = Held { next, name };
        let locked = changed(|b| {
            b.state.round = 2;
            b.state.locked = held;
        });
        let valid = changed(|b| {
            b.state.round = 2;
            b.state.valid = held;
        });
        assert_eq!(locked, valid);
        locked
    };
    assert_eq!(held(0, 0), 0);
    assert_eq!(held(1, 5), 0);
    assert_eq!(held(3, 5), 0);
    assert_eq!(held(4, 5), 1);
    assert_eq!(held(255, 5), 1);
    assert_eq!(held(0, 5), 1);
    assert_eq!(held(3, 0), 1);
}

#[test]
fn one_heard_proposal() {
    let heard = |proposal: u32, name: u64, valid: u32| {
        changed(|b| {
            b.state.rounds[2].proposal = proposal;
            b.state.rounds[2].valid = valid;
            b.table[65 * 2] = name;
        })
    };
    for proposal in [1, 2, 3, 255, 256, 1 << 31, u32::MAX] {
        assert_eq!(heard(proposal, 7, 0), 0);
        assert_eq!(heard(proposal, 0, 0), 1);
        assert_eq!(heard(proposal, 7, 2), 0);
        for valid in [3, 255, 256, 257, 1 << 31, u32::MAX] {
            assert_eq!(heard(proposal, 7, valid), 1);
        }
    }
    // What is not heard may hold anything.
    for valid in [3, 255, 256, 1 << 31, u32::MAX] {
        assert_eq!(heard(0, 0, valid), 0);
    }
}

#[test]
fn one_not_started_yet() {
    let fresh = |change: &dyn Fn(&mut Bench)| {
        let mut bench = Bench::four();
        change(&mut bench);
        number(&bench, &start(1, 0))
    };
    assert_eq!(fresh(&|_| ()), 0);
    assert_eq!(fresh(&|b| b.state.rounds[3].prevotes = 1), 1);
    assert_eq!(fresh(&|b| b.state.rounds[3].precommits = 1), 1);
    assert_eq!(fresh(&|b| b.table[0] = 1), 1);
    assert_eq!(fresh(&|b| b.table[65 * 2 + 1 + 20] = 1), 1);
    assert_eq!(fresh(&|b| b.table[1_039] = 1), 1);
    assert_eq!(fresh(&|b| b.state.round = 1), 1);
    let held = Held { next: 1, name: 5 };
    assert_eq!(fresh(&|b| b.state.locked = held), 1);
    assert_eq!(fresh(&|b| b.state.valid = held), 1);
    for proposal in [1, 2, 3, 256, 1 << 31, u32::MAX] {
        assert_eq!(fresh(&|b| b.state.rounds[4].proposal = proposal), 1);
    }
}

/// Nothing but what the list names is asked, and the junk stays.
#[test]
fn one_asks_nothing_of_junk() {
    let mut plain = Bench::four();
    let mut bench = Bench::four();
    bench.state.powers[4..].fill(u16::MAX);
    bench.state.step = Step::Precommit;
    bench.state.asked_propose = true;
    bench.state.asked_prevote = true;
    bench.state.asked_precommit = true;
    bench.state.backed = true;
    bench.state.rounds[9].valid = 4_000_000_000;
    assert_eq!(bench.outputs(&start(1, 0)), plain.outputs(&start(1, 0)));
    let mut expected = plain.state.clone();
    expected.powers[4..].fill(u16::MAX);
    expected.rounds[9].valid = 4_000_000_000;
    assert_eq!(bench.state, expected);
    // Once started, unheard places of the table may hold junk as well.
    let mut bench = running();
    for (place, name) in bench.table.iter_mut().enumerate() {
        *name = 1_000 + place as u64;
    }
    bench.outputs(&prevote(1, 2, 4, 5));
    for (place, &name) in bench.table.iter().enumerate() {
        let taken = place == 65 * 4 + 1 + 2;
        assert_eq!(name, if taken { 5 } else { 1_000 + place as u64 });
    }
}

/// Marks a vote as heard in a made-up state.
fn hear(b: &mut Bench, prevote: bool, round: usize, seat: usize, name: u64) {
    let heard = &mut b.state.rounds[round];
    if prevote {
        heard.prevotes |= 1 << seat;
        b.table[65 * round + 1 + seat] = name;
    } else {
        heard.precommits |= 1 << seat;
        b.table[65 * round + 33 + seat] = name;
    }
}

fn hear_proposal(b: &mut Bench, round: usize, name: u64, valid: u32) {
    b.state.rounds[round].proposal = 2;
    b.state.rounds[round].valid = valid;
    b.table[65 * round] = name;
}

#[test]
fn one_rule_22_already_applies() {
    let at = |step: Step| {
        changed(|b| {
            hear_proposal(b, 0, 50, 0);
            b.state.step = step;
        })
    };
    assert_eq!(at(Step::Propose), 1);
    assert_eq!(at(Step::Prevote), 0);
}

#[test]
fn one_rule_28_already_applies() {
    let with = |third: u64| {
        changed(|b| {
            b.state.round = 1;
            hear_proposal(b, 1, 50, 1);
            for (seat, name) in [(0, 50), (1, 50), (2, third)] {
                hear(b, true, 0, seat, name);
            }
        })
    };
    assert_eq!(with(50), 1);
    assert_eq!(with(51), 0);
}

#[test]
fn one_rule_34_already_applies() {
    let with = |asked: bool, step: Step| {
        changed(|b| {
            b.state.step = step;
            b.state.asked_prevote = asked;
            for (seat, name) in [(0, 50), (1, NIL), (2, 51)] {
                hear(b, true, 0, seat, name);
            }
        })
    };
    assert_eq!(with(false, Step::Prevote), 1);
    assert_eq!(with(true, Step::Prevote), 0);
    assert_eq!(with(false, Step::Propose), 0);
    assert_eq!(with(false, Step::Precommit), 0);
}

#[test]
fn one_rule_36_already_applies() {
    let with = |backed: bool, proposal: u32, step: Step| {
        changed(|b| {
            b.state.step = step;
            b.state.asked_prevote = true;
            b.state.backed = backed;
            // A valid round that no prevotes back keeps 28 away at step propose.
            b.state.round = 1;
            hear_proposal(b, 1, 50, 1);
            b.state.rounds[1].proposal = proposal;
            for seat in 0..3 {
                hear(b, true, 1, seat, 50);
            }
        })
    };
    for good in [2, 3, 256, u32::MAX] {
        assert_eq!(with(false, good, Step::Prevote), 1);
        assert_eq!(with(false, good, Step::Precommit), 1);
        assert_eq!(with(true, good, Step::Prevote), 0);
        assert_eq!(with(false, good, Step::Propose), 0);
    }
    assert_eq!(with(false, 1, Step::Prevote), 0);
}

#[test]
fn one_rule_44_already_applies() {
    let with = |step: Step, third: u64| {
        changed(|b| {
            b.state.step = step;
            b.state.asked_prevote = true;
            for (seat, name) in [(0, NIL), (1, NIL), (2, third)] {
                hear(b, true, 0, seat, name);
            }
        })
    };
    assert_eq!(with(Step::Prevote, NIL), 1);
    assert_eq!(with(Step::Precommit, NIL), 0);
    assert_eq!(with(Step::Propose, NIL), 0);
    assert_eq!(with(Step::Prevote, 5), 0);
}

#[test]
fn one_rule_47_already_applies() {
    for step in [Step::Propose, Step::Prevote, Step::Precommit] {
        let with = |asked: bool| {
            changed(|b| {
                b.state.step = step;
                b.state.asked_precommit = asked;
                for (seat, name) in [(0, 50), (1, NIL), (2, 51)] {
                    hear(b, false, 0, seat, name);
                }
            })
        };
        assert_eq!(with(false), 1);
        assert_eq!(with(true), 0);
    }
}

#[test]
fn one_rule_49_already_applies() {
    let with = |proposal: u32, third: u64, phase: Phase| {
        changed(|b| {
            b.state.phase = phase;
            b.state.round = 5;
            hear_proposal(b, 2, 50, 0);
            b.state.rounds[2].proposal = proposal;
            for (seat, name) in [(0, 50), (1, 50), (2, third)] {
                hear(b, false, 2, seat, name);
            }
        })
    };
    for good in [2, 3, 257, 1 << 31] {
        assert_eq!(with(good, 50, Phase::Running), 1);
        assert_eq!(with(good, 51, Phase::Running), 0);
        // Where it has settled no rule is looked at.
        assert_eq!(with(good, 50, Phase::Settled(2)), 2);
    }
    assert_eq!(with(1, 50, Phase::Running), 0);
}

#[test]
fn one_rule_55_already_applies() {
    let with = |second: usize, round: u8| {
        changed(|b| {
            b.state.round = round;
            hear(b, true, 3, 2, NIL);
            hear(b, false, 3, second, NIL);
        })
    };
    assert_eq!(with(1, 0), 1);
    assert_eq!(with(1, 2), 1);
    assert_eq!(with(1, 3), 0);
    // A sender's prevote and precommit count once.
    assert_eq!(with(2, 0), 0);
    // The proposer of round 3 is kiosk 0.
    let proposed = |seat: usize| {
        changed(|b| {
            hear_proposal(b, 3, 50, 0);
            hear(b, true, 3, seat, NIL);
        })
    };
    assert_eq!(proposed(1), 1);
    assert_eq!(proposed(0), 0);
}

#[test]
fn two_already_settled() {
    let mut bench = Bench::new(&[1], 0, 7);
    assert_eq!(number(&bench, &start(7, 0)), 0);
    bench.outputs(&start(7, 5));
    assert_eq!(bench.refused(&start(7, 5)), 2);
    assert_eq!(bench.refused(&timer(8, 99, 99)), 2);
}

#[test]
fn three_start_and_before_start() {
    let fresh = Bench::four();
    assert_eq!(number(&fresh, &start(1, 0)), 0);
    for kind in [0, 2, 3, 4, 5, 6, 7, 8, 255] {
        let other = Input {
            kind,
            ..start(2, 0)
        };
        assert_eq!(number(&fresh, &other), 3);
    }
    assert_eq!(number(&running(), &start(1, 0)), 3);
    assert_eq!(number(&running(), &start(2, 0)), 3);
}

#[test]
fn four_other_height() {
    assert_eq!(number(&Bench::four(), &start(2, 0)), 4);
    assert_eq!(number(&running(), &prevote(1, 1, 0, 5)), 0);
    assert_eq!(number(&running(), &prevote(2, 1, 0, 5)), 4);
    // Before any field is looked at.
    assert_eq!(number(&running(), &prevote(2, 200, 200, 5)), 4);
    assert_eq!(number(&running(), &timer(0, 99, 0)), 4);
}

#[test]
fn five_a_field_outside_the_rules() {
    let run = running();
    for kind in [0, 8, 255] {
        assert_eq!(number(&run, &timer(1, kind, 0)), 5);
    }
    assert_eq!(number(&run, &prevote(1, 3, 0, 5)), 0);
    assert_eq!(number(&run, &prevote(1, 4, 0, 5)), 5);
    assert_eq!(number(&run, &prevote(1, 255, 0, 5)), 5);
    assert_eq!(number(&run, &prevote(1, 3, 15, 5)), 0);
    assert_eq!(number(&run, &prevote(1, 3, 16, 5)), 5);
    assert_eq!(number(&run, &precommit(1, 3, 255, 5)), 5);
    for vote in [prevote(1, 3, 4, 5), precommit(1, 3, 4, 0)] {
        assert_eq!(number(&run, &vote), 0);
        assert_eq!(number(&run, &Input { valid: 1, ..vote }), 5);
        assert_eq!(number(&run, &Input { verdict: 1, ..vote }), 5);
    }
    let good = proposal(1, 3, 2, 70, 1, 1);
    assert_eq!(number(&run, &good), 0);
    assert_eq!(number(&run, &Input { verdict: 0, ..good }), 0);
    assert_eq!(number(&run, &Input { verdict: 2, ..good }), 5);
    assert_eq!(number(&run, &Input { name: 0, ..good }), 5);
    assert_eq!(number(&run, &Input { valid: 3, ..good }), 5);
    assert_eq!(number(&run, &Input { valid: 255, ..good }), 5);
    let begin = start(1, 3);
    assert_eq!(number(&Bench::four(), &begin), 0);
    for (bench, input) in [(Bench::four(), begin), (run, timer(1, 5, 0))] {
        assert_eq!(number(&bench, &input), 0);
        assert_eq!(number(&bench, &Input { sender: 1, ..input }), 5);
        assert_eq!(number(&bench, &Input { name: 1, ..input }), 5);
        assert_eq!(number(&bench, &Input { valid: 1, ..input }), 5);
        assert_eq!(
            number(
                &bench,
                &Input {
                    verdict: 1,
                    ..input
                }
            ),
            5
        );
        assert_eq!(number(&bench, &Input { round: 16, ..input }), 5);
    }
    assert_eq!(number(&Bench::four(), &Input { round: 1, ..begin }), 5);
}

#[test]
fn six_own_number() {
    let run = running();
    // Kiosk 0 is the proposer of round 3.
    assert_eq!(number(&run, &proposal(1, 0, 3, 5, -1, 1)), 6);
    assert_eq!(number(&run, &prevote(1, 0, 3, 5)), 6);
    assert_eq!(number(&run, &precommit(1, 0, 3, 5)), 6);
    assert_eq!(number(&run, &precommit(1, 1, 3, 5)), 0);
    assert_eq!(number(&run, &prevote(1, 0, 16, 5)), 5);
    // Before 7: kiosk 0 does not propose in round 0.
    assert_eq!(number(&run, &proposal(1, 0, 0, 5, -1, 1)), 6);
}

#[test]
fn seven_not_the_proposer() {
    let run = running();
    assert_eq!(number(&run, &proposal(1, 1, 0, 5, -1, 1)), 0);
    assert_eq!(number(&run, &proposal(1, 2, 0, 5, -1, 1)), 7);
    assert_eq!(number(&run, &proposal(1, 2, 1, 5, -1, 1)), 0);
    // (2^32 - 1 + 1) mod 3 is 1, not the 0 of a height that wraps.
    let mut high = Bench::new(&[1; 3], 2, u32::MAX);
    high.outputs(&start(u32::MAX, 0));
    assert_eq!(number(&high, &proposal(u32::MAX, 1, 1, 5, -1, 1)), 0);
    assert_eq!(number(&high, &proposal(u32::MAX, 0, 1, 5, -1, 1)), 7);
}

#[test]
fn eight_and_nine_place_already_heard() {
    let mut bench = running();
    bench.outputs(&proposal(1, 3, 2, 70, 1, 1));
    bench.outputs(&prevote(1, 1, 4, 5));
    bench.outputs(&precommit(1, 1, 5, NIL));
    assert_eq!(bench.refused(&proposal(1, 3, 2, 70, 1, 1)), 8);
    // Another verdict on the same proposal.
    assert_eq!(bench.refused(&proposal(1, 3, 2, 70, 1, 0)), 8);
    assert_eq!(bench.refused(&proposal(1, 3, 2, 71, 1, 1)), 9);
    assert_eq!(bench.refused(&proposal(1, 3, 2, 70, 0, 1)), 9);
    assert_eq!(bench.refused(&prevote(1, 1, 4, 5)), 8);
    assert_eq!(bench.refused(&prevote(1, 1, 4, NIL)), 9);
    assert_eq!(bench.refused(&precommit(1, 1, 5, NIL)), 8);
    assert_eq!(bench.refused(&precommit(1, 1, 5, 6)), 9);
    assert_eq!(number(&bench, &precommit(1, 1, 4, 5)), 0);
    assert_eq!(number(&bench, &prevote(1, 1, 5, 5)), 0);
    // Not from the proposer is 7, heard or not.
    assert_eq!(bench.refused(&proposal(1, 2, 2, 70, 1, 1)), 7);
}

#[test]
fn ten_timer_not_current_or_not_asked_for() {
    let with = |kind: u8, round: u8, change: &dyn Fn(&mut State)| {
        let mut bench = running();
        bench.state.round = 4;
        bench.state.asked_propose = true;
        bench.state.asked_prevote = true;
        bench.state.asked_precommit = true;
        change(&mut bench.state);
        number(&bench, &timer(1, kind, round))
    };
    use Step::*;
    for (kind, steps) in [(5, [0, 10, 10]), (6, [10, 0, 10]), (7, [0, 0, 0])] {
        for (step, expected) in [Propose, Prevote, Precommit].into_iter().zip(steps) {
            assert_eq!(with(kind, 4, &|s| s.step = step), expected);
            assert_eq!(with(kind, 3, &|s| s.step = step), 10);
            assert_eq!(with(kind, 5, &|s| s.step = step), 10);
            let unasked = with(kind, 4, &|s| {
                s.step = step;
                match kind {
                    5 => s.asked_propose = false,
                    6 => s.asked_prevote = false,
                    _ => s.asked_precommit = false,
                }
            });
            assert_eq!(unasked, 10);
        }
    }
}

#[test]
fn eleven_precommit_timer_of_round_15() {
    let with = |round: u8, asked: bool| {
        let mut bench = running();
        bench.state.round = round;
        bench.state.asked_precommit = asked;
        number(&bench, &timer(1, 7, round))
    };
    assert_eq!(with(14, true), 0);
    assert_eq!(with(15, true), 11);
    assert_eq!(with(15, false), 10);
    // The others of round 15 go on.
    let mut bench = running();
    bench.state.round = 15;
    assert_eq!(bench.outputs(&timer(1, 5, 15)), [out(PREVOTE, 15, NIL)]);
}

#[test]
fn twelve_no_room() {
    // Start asks for one timer: 26 + 12 bytes.
    let area = 7 + 8 + 38;
    let mut exact = Bench::with_area(&[1; 4], 0, 1, area);
    exact.outputs(&start(1, 0));
    assert_eq!(exact.state.used, area);
    exact.check_reopens();
    let mut short = Bench::with_area(&[1; 4], 0, 1, area - 1);
    assert_eq!(short.refused(&start(1, 0)), 12);
    // 12 is the last: a duplicate is 8 with no room left.
    let mut full = Bench::with_area(&[1; 4], 0, 1, area + 26);
    full.outputs(&start(1, 0));
    full.outputs(&prevote(1, 1, 0, 5));
    assert_eq!(full.refused(&prevote(1, 1, 0, 5)), 8);
    assert_eq!(full.refused(&prevote(1, 2, 0, 5)), 12);
    assert_eq!(full.refused(&timer(1, 5, 0)), 12);
    // The group of this very call counts: one without an output fits.
    let mut one = Bench::with_area(&[1; 4], 0, 1, area + 26);
    one.outputs(&start(1, 0));
    assert_eq!(one.refused(&timer(1, 5, 0)), 12);
    one.outputs(&prevote(1, 1, 0, 5));
}

#[test]
fn twelve_creating() {
    let mut journal = vec![JUNK; 15];
    let created = create(&[1, 2, 3, 4], 3, 0x0102_0304, &mut journal);
    assert_eq!((created.number, created.used), (0, 15));
    assert_eq!(
        journal,
        [4, 1, 0, 2, 0, 3, 0, 4, 0, 5, 3, 4, 3, 2, 1],
        "little-endian"
    );
    let mut journal = vec![JUNK; 14];
    let created = create(&[1, 2, 3, 4], 3, 1, &mut journal);
    assert_eq!((created.number, created.used), (12, 0));
    assert!(journal.iter().all(|&b| b == JUNK));
}

#[test]
fn fifteen_creating() {
    let number = |powers: &[u16], own: usize, area: usize| {
        let mut journal = vec![JUNK; area];
        let created = create(powers, own, 1, &mut journal);
        if created.number != 0 {
            assert_eq!(created.used, 0);
            assert!(journal.iter().all(|&b| b == JUNK));
        }
        created.number
    };
    assert_eq!(number(&[], 0, 100), 15);
    assert_eq!(number(&[1], 0, 100), 0);
    assert_eq!(number(&[1; 32], 0, 100), 0);
    assert_eq!(number(&[1; 33], 0, 100), 15);
    assert_eq!(number(&[u16::MAX; 100_000], 0, 100), 15);
    assert_eq!(number(&[1_000; 32], 31, 100), 0);
    assert_eq!(number(&[1_000, 1_001], 0, 100), 15);
    assert_eq!(number(&[0, 0], 0, 100), 15);
    assert_eq!(number(&[0, 1], 0, 100), 0);
    assert_eq!(number(&[1; 4], 3, 100), 0);
    assert_eq!(number(&[1; 4], 4, 100), 15);
    assert_eq!(number(&[1; 4], usize::MAX, 100), 15);
    // 15 before 12.
    assert_eq!(number(&[1; 4], 4, 0), 15);
    assert_eq!(number(&[1; 4], 3, 0), 12);
}

/// The number and place that these bytes get when they are opened.
fn opened(bytes: &[u8]) -> (u8, usize) {
    let mut table = vec![7; TABLE];
    let reply = open(bytes, bytes.len(), &mut table);
    assert!(reply.outputs.is_empty());
    if reply.number != 0 {
        assert_eq!(reply.state, State::unopened());
        assert!(table.iter().all(|&name| name == 0));
    }
    (reply.number, reply.place)
}

#[test]
fn opening_one() {
    let bench = running();
    for (length, expected) in [(0, 1), (1_039, 1), (1_040, 0), (1_041, 1)] {
        let mut table = vec![7; length];
        let reply = open(&bench.journal, bench.state.used, &mut table);
        assert_eq!((reply.number, reply.place), (expected, 0));
        if expected == 1 {
            assert_eq!(reply.state, State::unopened());
            assert!(table.iter().all(|&name| name == 7));
        }
    }
    let used = bench.state.used;
    for (long, expected) in [(used, 0), (used + 1, 1), (usize::MAX, 1)] {
        let mut table = vec![7; TABLE];
        let reply = open(&bench.journal[..used], long, &mut table);
        assert_eq!((reply.number, reply.place), (expected, 0));
        assert!(table.iter().all(|&name| name == 7 * u64::from(expected)));
    }
}

#[test]
fn thirteen_and_fourteen_in_the_header() {
    let header = [2, 1, 0, 2, 0, 5, 1, 7, 0, 0, 0];
    let with = |place: usize, byte: u8| {
        let mut bytes = header;
        bytes[place] = byte;
        opened(&bytes)
    };
    assert_eq!(opened(&header), (0, 0));
    for cut in 0..header.len() {
        assert_eq!(opened(&header[..cut]), (13, 0));
    }
    assert_eq!(with(0, 0), (14, 0));
    assert_eq!(with(0, 33), (14, 0));
    assert_eq!(opened(&[0]), (14, 0));
    // The count before the length, the length before the powers.
    assert_eq!(with(0, 32), (13, 0));
    assert_eq!(with(0, 3), (13, 0));
    assert_eq!(opened(&[2, 255, 255, 255]), (13, 0));
    // 1,000 is 0x03e8.
    assert_eq!(opened(&[1, 0xe8, 3, 5, 0, 0, 0, 0, 0]), (0, 0));
    assert_eq!(opened(&[1, 0xe9, 3, 5, 0, 0, 0, 0, 0]), (14, 1));
    assert_eq!(opened(&[1, 0, 0, 5, 0, 0, 0, 0, 0]), (14, 1));
    assert_eq!(opened(&[1, 0, 0, 9, 9, 0, 0, 0, 0]), (14, 1));
    assert_eq!(with(5, 4), (14, 5));
    assert_eq!(with(6, 2), (14, 5));
    assert_eq!(with(6, 255), (14, 5));
    let mut full = vec![32];
    full.extend([0xe8, 3].repeat(32));
    full.extend([5, 31, 255, 255, 255, 255]);
    assert_eq!(full.len(), 71);
    assert_eq!(opened(&full), (0, 0));
    full[66] = 32;
    assert_eq!(opened(&full), (14, 65));
}

#[test]
fn fourteen_and_unfinished_in_a_group() {
    let mut bench = running();
    let first = bench.state.last;
    bench.outputs(&proposal(1, 1, 0, 50, -1, 1));
    let at = bench.state.last;
    let used = bench.state.used;
    let whole = bench.journal[..used].to_vec();
    let kept = |bytes: &[u8]| {
        let mut table = vec![7; TABLE];
        let reply = open(bytes, bytes.len(), &mut table);
        assert_eq!((reply.number, reply.place), (0, 0));
        (reply.state.used, reply.state.last)
    };
    assert_eq!(kept(&whole), (used, at));
    // Fewer than 25 bytes left: unfinished whatever follows a 24.
    for left in 1..25 {
        let mut bytes = whole[..at + left].to_vec();
        assert_eq!(kept(&bytes), (at, first));
        bytes[at + 1..].fill(0xee);
        assert_eq!(kept(&bytes), (at, first));
        bytes[at] = 23;
        assert_eq!(opened(&bytes), (14, at));
    }
    // 25 bytes left: the input is judged, and the outputs are still missing.
    assert_eq!(kept(&whole[..at + 25]), (at, first));
    for (place, byte) in [
        (0, 25),
        (1, 0),
        (1, 3),
        (2, 2),
        (3, 16),
        (4, 1),
        (5, 2),
        (6, 1),
        (7, 1),
        (8, 255),
    ] {
        for left in [25, used - at] {
            let mut bytes = whole[..at + left].to_vec();
            bytes[at + place] = byte;
            assert_eq!(opened(&bytes), (14, at), "{place} {left}");
        }
    }
    // A wrong byte of the outputs is damage as soon as it is there.
    for place in 25..used - at {
        for left in place..used - at + 1 {
            let mut bytes = whole[..at + left].to_vec();
            if place < left {
                bytes[at + place] ^= 1;
                assert_eq!(opened(&bytes), (14, at));
            } else {
                assert_eq!(kept(&bytes), (at, first));
            }
        }
    }
    // The first group's damage is found before the second is looked at.
    let mut bytes = whole.clone();
    bytes[first + 25] = 0;
    bytes[at] = 0;
    assert_eq!(opened(&bytes), (14, first));
    // A second start, though written whole.
    let mut bytes = whole[..at].to_vec();
    bytes.extend(group(&start(1, 0), &[]));
    assert_eq!(opened(&bytes), (14, at));
}

#[test]
fn fourteen_after_settling() {
    let mut bench = Bench::new(&[1], 0, 7);
    bench.outputs(&start(7, 5));
    let used = bench.state.used;
    for byte in [0, 24, 255] {
        let mut bytes = bench.journal[..used].to_vec();
        bytes.push(byte);
        assert_eq!(opened(&bytes), (14, used));
        bytes.extend([0; 40]);
        assert_eq!(opened(&bytes), (14, used));
    }
    // Bytes past the used length are no part of the journal.
    assert!(bench.journal.len() > used);
    bench.check_reopens();
}

#[test]
fn the_last_group() {
    let mut bench = Bench::four();
    assert_eq!(bench.state.last, bench.state.used);
    assert!(last(&bench.state, &bench.journal).is_empty());
    bench.outputs(&start(1, 0));
    assert_eq!(
        last(&bench.state, &bench.journal),
        group(&start(1, 0), &[out(ASK_PROPOSE, 0, 0)])
    );
    let state = bench.state.clone();
    let part = |last: usize, used: usize| {
        let state = State {
            last,
            used,
            ..state.clone()
        };
        second::last(&state, &bench.journal).to_vec()
    };
    assert_eq!(part(2, 5), &bench.journal[2..5]);
    assert_eq!(part(0, 5_147), bench.journal);
    assert!(part(5_147, 5_147).is_empty());
    assert!(part(0, 5_148).is_empty());
    assert!(part(6, 5).is_empty());
    assert!(part(usize::MAX, usize::MAX).is_empty());
    assert!(part(0, usize::MAX).is_empty());
    assert!(second::last(&State::unopened(), &[]).is_empty());
}
