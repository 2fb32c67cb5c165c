//! The finer points of the rules, some of which only a made-up state can reach.

mod common;
use common::*;
use second::*;

/// Line 29 with lockedRound <= vr: locked on another sheet in the very round
/// that backs the proposal.
#[test]
fn line_29_takes_a_lock_of_the_same_round() {
    let prevoted = |locked: Held| {
        let mut bench = Bench::four();
        bench.outputs(&start(1, 0));
        bench.state.round = 1;
        bench.state.locked = locked;
        bench.state.rounds[0].prevotes = 0b1110;
        bench.table[2..5].fill(8);
        bench.outputs(&proposal(1, 2, 1, 8, 0, 1))
    };
    assert_eq!(prevoted(Held { next: 1, name: 7 }), [out(PREVOTE, 1, 8)]);
    assert_eq!(prevoted(Held { next: 0, name: 0 }), [out(PREVOTE, 1, 8)]);
    assert_eq!(prevoted(Held { next: 2, name: 8 }), [out(PREVOTE, 1, 8)]);
    assert_eq!(prevoted(Held { next: 2, name: 7 }), [out(PREVOTE, 1, NIL)]);
}

#[test]
fn line_23_and_29_need_a_good_sheet() {
    let mut bench = Bench::four();
    bench.outputs(&start(1, 0));
    assert_eq!(
        bench.outputs(&proposal(1, 1, 0, 50, -1, 0)),
        [out(PREVOTE, 0, NIL)]
    );
    let mut bench = Bench::four();
    bench.outputs(&start(1, 0));
    bench.state.round = 1;
    bench.state.rounds[0].prevotes = 0b1110;
    bench.table[2..5].fill(8);
    assert_eq!(
        bench.outputs(&proposal(1, 2, 1, 8, 0, 0)),
        [out(PREVOTE, 1, NIL)]
    );
}

/// A proposal with a valid round waits for that round's prevotes.
#[test]
fn line_28_waits_for_its_prevotes() {
    let mut bench = Bench::four();
    bench.outputs(&start(1, 0));
    bench.state.round = 1;
    assert_eq!(bench.outputs(&proposal(1, 2, 1, 8, 0, 1)), []);
    assert_eq!(bench.outputs(&prevote(1, 1, 0, 8)), []);
    assert_eq!(bench.outputs(&prevote(1, 2, 0, 8)), []);
    let (reply, fired) = bench.put_traced(&prevote(1, 3, 0, 8));
    assert_eq!(reply.outputs, [out(PREVOTE, 1, 8)]);
    assert_eq!(fired, [28]);
}

/// Seven kiosks of power 1, where 0 has prevoted 50 and precommitted nil after
/// the prevote timer, with 50 from 0, 3, 4 and nil from 1, 2 heard.
fn at_precommit() -> Bench {
    let mut bench = Bench::new(&[1; 7], 0, 1);
    bench.outputs(&start(1, 0));
    bench.outputs(&proposal(1, 1, 0, 50, -1, 1));
    for (sender, name) in [(1, NIL), (2, NIL), (3, 50)] {
        assert_eq!(bench.outputs(&prevote(1, sender, 0, name)), []);
    }
    assert_eq!(
        bench.outputs(&prevote(1, 4, 0, 50)),
        [out(ASK_PREVOTE, 0, 0)]
    );
    assert_eq!(bench.outputs(&timer(1, 6, 0)), [out(PRECOMMIT, 0, NIL)]);
    bench
}

#[test]
fn lines_42_and_43_at_step_precommit() {
    let mut bench = at_precommit();
    assert_eq!(bench.outputs(&prevote(1, 5, 0, 50)), []);
    assert_eq!(bench.state.valid, Held { next: 0, name: 0 });
    let (reply, fired) = bench.put_traced(&prevote(1, 6, 0, 50));
    assert_eq!(reply.outputs, []);
    assert_eq!(fired, [36]);
    assert_eq!(bench.state.valid, Held { next: 1, name: 50 });
    assert_eq!(bench.state.locked, Held { next: 0, name: 0 });
    assert!(bench.state.backed);
    assert_eq!(bench.state.step, Step::Precommit);
    bench.check_reopens();
    bench.check_rest();
}

/// The valid sheet so taken is what its kiosk proposes, with its round, though
/// it is not locked and has an offer.
#[test]
fn the_valid_sheet_is_proposed_with_its_round() {
    let mut bench = at_precommit();
    bench.outputs(&prevote(1, 5, 0, 50));
    bench.outputs(&prevote(1, 6, 0, 50));
    // Kiosk 0 proposes in round 6.
    for sender in 1..3 {
        bench.outputs(&precommit(1, sender, 6, NIL));
    }
    let (reply, fired) = bench.put_traced(&Input {
        offer: 9,
        ..precommit(1, 3, 6, NIL)
    });
    let proposed = Output {
        valid: 1,
        ..out(PROPOSAL, 6, 50)
    };
    assert_eq!(reply.outputs, [proposed, out(PREVOTE, 6, 50)]);
    assert_eq!(fired, [55, 28]);
    bench.check_reopens();
}

/// Large prevotes for a bad sheet neither lock it nor make it valid.
#[test]
fn line_36_needs_a_good_sheet() {
    let mut bench = Bench::four();
    bench.outputs(&start(1, 0));
    bench.outputs(&proposal(1, 1, 0, 50, -1, 0));
    bench.outputs(&prevote(1, 1, 0, 50));
    assert_eq!(
        bench.outputs(&prevote(1, 2, 0, 50)),
        [out(ASK_PREVOTE, 0, 0)]
    );
    assert_eq!(bench.outputs(&prevote(1, 3, 0, 50)), []);
    let none = Held { next: 0, name: 0 };
    assert_eq!((bench.state.locked, bench.state.valid), (none, none));
    assert_eq!(bench.outputs(&timer(1, 6, 0)), [out(PRECOMMIT, 0, NIL)]);
}

/// In 55 a proposal counts for its round's proposer.
#[test]
fn line_55_counts_the_proposer() {
    let mut bench = Bench::four();
    bench.outputs(&start(1, 0));
    assert_eq!(bench.outputs(&precommit(1, 1, 2, NIL)), []);
    let (reply, fired) = bench.put_traced(&proposal(1, 3, 2, 70, -1, 1));
    assert_eq!(reply.outputs, [out(ASK_PROPOSE, 2, 0), out(PREVOTE, 2, 70)]);
    assert_eq!(fired, [55, 22]);
}

/// Where one kiosk's precommit is large, 49 settles in a round ahead, before 55.
#[test]
fn line_49_in_a_round_ahead() {
    let mut bench = Bench::new(&[1, 10, 1, 1], 0, 1);
    bench.outputs(&start(1, 0));
    assert_eq!(bench.outputs(&proposal(1, 3, 2, 70, -1, 1)), []);
    let (reply, fired) = bench.put_traced(&precommit(1, 1, 2, 70));
    assert_eq!(reply.outputs, [out(SETTLED, 2, 70)]);
    assert_eq!(fired, [49]);
    assert_eq!(bench.state.phase, Phase::Settled(2));
    assert_eq!(bench.state.round, 0);
    bench.check_reopens();
    bench.check_rest();
}

/// A bad sheet is not settled on; the round ahead is then entered.
#[test]
fn line_49_needs_a_good_sheet() {
    let mut bench = Bench::new(&[1, 10, 1, 1], 0, 1);
    bench.outputs(&start(1, 0));
    bench.outputs(&proposal(1, 3, 2, 70, -1, 0));
    let (reply, fired) = bench.put_traced(&precommit(1, 1, 2, 70));
    assert_eq!(
        reply.outputs,
        [
            out(ASK_PROPOSE, 2, 0),
            out(PREVOTE, 2, NIL),
            out(ASK_PRECOMMIT, 2, 0)
        ]
    );
    assert_eq!(fired, [55, 22, 47]);
}

/// 49 in a round left behind, by its proposal or by its last precommit.
#[test]
fn line_49_in_a_round_behind() {
    let mut bench = Bench::four();
    bench.outputs(&start(1, 0));
    for sender in 1..4 {
        bench.outputs(&precommit(1, sender, 0, 50));
    }
    bench.outputs(&timer(1, 7, 0));
    let (reply, fired) = bench.put_traced(&proposal(1, 1, 0, 50, -1, 1));
    assert_eq!(reply.outputs, [out(SETTLED, 0, 50)]);
    assert_eq!(fired, [49]);
    assert_eq!(bench.state.round, 1);
}

/// Precommits for nil settle nothing, whatever the proposal.
#[test]
fn line_49_not_by_nil() {
    let mut bench = Bench::four();
    bench.outputs(&start(1, 0));
    bench.outputs(&proposal(1, 1, 0, 50, -1, 1));
    for sender in 1..4 {
        bench.outputs(&precommit(1, sender, 0, NIL));
    }
    assert_eq!(bench.state.phase, Phase::Running);
}

#[test]
fn line_44_before_the_prevote_timer() {
    let mut bench = Bench::four();
    bench.outputs(&start(1, 0));
    bench.outputs(&prevote(1, 1, 0, NIL));
    bench.outputs(&prevote(1, 2, 0, NIL));
    let (reply, fired) = bench.put_traced(&timer(1, 5, 0));
    assert_eq!(
        reply.outputs,
        [
            out(PREVOTE, 0, NIL),
            out(ASK_PREVOTE, 0, 0),
            out(PRECOMMIT, 0, NIL)
        ]
    );
    assert_eq!(fired, [34, 44]);
}

/// "A proposer with no valid sheet and offer 0 asks for the propose timer."
#[test]
fn a_proposer_without_a_sheet_asks() {
    let mut bench = Bench::new(&[1; 4], 1, 1);
    assert_eq!(bench.outputs(&start(1, 0)), [out(ASK_PROPOSE, 0, 0)]);
    assert!(bench.state.asked_propose);
    assert_eq!(bench.outputs(&timer(1, 5, 0)), [out(PREVOTE, 0, NIL)]);
    let mut bench = Bench::new(&[1; 4], 1, 1);
    assert_eq!(
        bench.outputs(&start(1, 9)),
        [out(PROPOSAL, 0, 9), out(PREVOTE, 0, 9)]
    );
    assert!(!bench.state.asked_propose);
    assert_eq!(bench.state.rounds[0].proposal, 2);
}

/// Own messages go "over anything a made-up state holds there".
#[test]
fn own_messages_overwrite() {
    let mut bench = Bench::four();
    bench.outputs(&start(1, 0));
    // Kiosk 0 proposes in round 3.
    bench.state.rounds[3].proposal = 1;
    bench.state.rounds[3].valid = 2;
    bench.table[65 * 3] = 77;
    bench.state.rounds[3].prevotes = 1;
    bench.table[65 * 3 + 1] = 78;
    let input = Input {
        offer: 9,
        ..prevote(1, 2, 3, 77)
    };
    let (reply, fired) = bench.put_traced(&input);
    assert_eq!(reply.outputs, [out(PROPOSAL, 3, 9), out(PREVOTE, 3, 9)]);
    assert_eq!(fired, [55, 22]);
    let heard = Heard {
        proposal: 2,
        valid: 0,
        prevotes: 0b101,
        precommits: 0,
    };
    assert_eq!(bench.state.rounds[3], heard);
    assert_eq!(bench.table[65 * 3..65 * 3 + 4], [9, 9, 0, 77]);
}

/// Of a proposal any number over 2 says what 2 does, and stays where nothing is
/// written over it.
#[test]
fn greater_numbers_are_good() {
    for proposal in [2, 3, 255, 256, 4_000_000_000, u32::MAX] {
        let mut bench = Bench::four();
        bench.outputs(&start(1, 0));
        // Of round 2, by kiosk 3.
        bench.state.rounds[2].proposal = proposal;
        bench.table[65 * 2] = 50;
        let (reply, fired) = bench.put_traced(&prevote(1, 1, 2, 50));
        assert_eq!(reply.outputs, [out(ASK_PROPOSE, 2, 0), out(PREVOTE, 2, 50)]);
        assert_eq!(fired, [55, 22]);
        let (_, fired) = bench.put_traced(&prevote(1, 2, 2, 50));
        assert_eq!(fired, [34, 36]);
        bench.outputs(&precommit(1, 1, 2, 50));
        let (_, fired) = bench.put_traced(&precommit(1, 2, 2, 50));
        assert_eq!(fired, [47, 49]);
        assert_eq!(bench.state.rounds[2].proposal, proposal);
    }
}

/// An own proposal is written as 2 also where the same one is held already.
#[test]
fn an_own_proposal_overwrites_its_like() {
    for proposal in [1, 2, 3, 4_000_000_000] {
        let mut bench = Bench::four();
        bench.outputs(&start(1, 0));
        bench.state.rounds[3].proposal = proposal;
        bench.table[65 * 3] = 9;
        let input = Input {
            offer: 9,
            ..prevote(1, 2, 3, 77)
        };
        assert_eq!(
            bench.outputs(&input),
            [out(PROPOSAL, 3, 9), out(PREVOTE, 3, 9)]
        );
        assert_eq!(bench.state.rounds[3].proposal, 2);
    }
}

/// The prevote timer's precommit, over a precommit that a made-up state holds.
#[test]
fn an_own_precommit_overwrites() {
    let mut bench = Bench::four();
    bench.outputs(&start(1, 0));
    bench.state.step = Step::Prevote;
    bench.state.asked_prevote = true;
    bench.state.rounds[0].precommits = 1;
    bench.table[33] = 78;
    assert_eq!(bench.outputs(&timer(1, 6, 0)), [out(PRECOMMIT, 0, NIL)]);
    assert_eq!(bench.table[33], NIL);
}

/// All six outputs in one call, and a sender of power 0 heard like any other.
#[test]
fn six_outputs_and_power_0() {
    let mut bench = Bench::new(&[1_000, 0, 0], 0, 3);
    let reply = bench.put(&start(3, 5));
    assert_eq!(reply.outputs.len(), 6);
    let mut bench = Bench::new(&[1_000, 0, 0], 1, 3);
    bench.outputs(&start(3, 5));
    bench.outputs(&prevote(3, 2, 0, 5));
    assert_eq!(bench.state.rounds[0].prevotes, 0b100);
    assert_eq!(bench.refused(&prevote(3, 2, 0, 5)), 8);
    bench.check_reopens();
}

/// Each round begins with step propose, nothing asked for and 36 not used up.
#[test]
fn a_round_begins_anew() {
    let mut bench = at_precommit();
    bench.outputs(&prevote(1, 5, 0, 50));
    bench.outputs(&prevote(1, 6, 0, 50));
    for sender in 1..4 {
        bench.outputs(&prevote(1, sender, 2, NIL));
    }
    let state = &bench.state;
    assert_eq!((state.round, state.step), (2, Step::Propose));
    assert!(state.asked_propose && !state.asked_prevote && !state.asked_precommit);
    assert!(!state.backed);
    assert_eq!(state.valid, Held { next: 1, name: 50 });
}
