//! 01's examples, and its errors that a builder will be drawn to.

mod common;
use common::*;
use second::*;

/// The least power that is large, and the least that is some, of a total.
fn least(total: u32) -> (u32, u32) {
    let first = |holds: fn(u32, u32) -> bool| (0..=total).find(|&p| holds(p, total)).unwrap();
    (first(weighing::large), first(weighing::some))
}

#[test]
fn weighing_large_and_some() {
    assert_eq!(least(1), (1, 1));
    assert_eq!(least(3), (3, 2));
    assert_eq!(least(4), (3, 2));
    assert_eq!(least(6), (5, 3));
    assert_eq!(least(32_000), (21_334, 10_667));
}

#[test]
fn journal_room() {
    assert_eq!(roomy(4), 5_147);
    assert_eq!(roomy(32), 28_499);
}

#[test]
fn opening_no_bytes_and_first_byte_33() {
    let mut table = vec![7; TABLE];
    let reply = open(&[], 0, &mut table);
    assert_eq!((reply.number, reply.place), (13, 0));
    assert_eq!(reply.state, State::unopened());
    assert!(table.iter().all(|&name| name == 0));
    let mut table = vec![7; TABLE];
    let reply = open(&[33], 1, &mut table);
    assert_eq!((reply.number, reply.place), (14, 0));
    assert_eq!(reply.state, State::unopened());
    assert!(table.iter().all(|&name| name == 0));
}

#[test]
fn four_kiosks_start_to_a_nil_prevote_in_round_1() {
    let mut bench = Bench::four();
    let offer = |input: Input| Input { offer: 9, ..input };
    assert_eq!(bench.outputs(&start(1, 9)), [out(ASK_PROPOSE, 0, 0)]);
    assert_eq!(
        bench.outputs(&offer(proposal(1, 1, 0, 50, -1, 1))),
        [out(PREVOTE, 0, 50)]
    );
    assert_eq!(bench.outputs(&offer(prevote(1, 1, 0, 50))), []);
    assert_eq!(
        bench.outputs(&offer(prevote(1, 2, 0, 50))),
        [out(ASK_PREVOTE, 0, 0), out(PRECOMMIT, 0, 50)]
    );
    assert_eq!(bench.state.locked, Held { next: 1, name: 50 });
    assert_eq!(bench.outputs(&offer(precommit(1, 1, 0, NIL))), []);
    assert_eq!(
        bench.outputs(&offer(precommit(1, 2, 0, NIL))),
        [out(ASK_PRECOMMIT, 0, 0)]
    );
    assert_eq!(
        bench.outputs(&offer(timer(1, 7, 0))),
        [out(ASK_PROPOSE, 1, 0)]
    );
    assert_eq!(bench.state.round, 1);
    assert_eq!(bench.state.locked, Held { next: 1, name: 50 });
    assert_eq!(
        bench.outputs(&offer(proposal(1, 2, 1, 60, -1, 1))),
        [out(PREVOTE, 1, NIL)]
    );
    bench.check_reopens();
    bench.check_rest();
}

#[test]
fn four_kiosks_carried_to_round_3() {
    let mut bench = Bench::four();
    bench.outputs(&start(1, 9));
    let offer = |input: Input| Input { offer: 9, ..input };
    assert_eq!(bench.outputs(&offer(prevote(1, 2, 3, NIL))), []);
    assert_eq!(bench.outputs(&offer(precommit(1, 2, 3, NIL))), []);
    let used = bench.state.used;
    assert_eq!(
        bench.outputs(&offer(prevote(1, 3, 3, NIL))),
        [
            out(PROPOSAL, 3, 9),
            out(PREVOTE, 3, 9),
            out(ASK_PREVOTE, 3, 0)
        ]
    );
    assert_eq!(bench.state.used - used, 62);
    assert_eq!(last(&bench.state, &bench.journal).len(), 62);
    bench.check_reopens();
    bench.check_rest();
}

/// 01's journal of one kiosk of power 1 that settles at its start.
fn whole() -> Vec<u8> {
    let mut bytes = vec![1, 1, 0, 5, 0, 7, 0, 0, 0];
    bytes.extend([24, 1]);
    bytes.extend([0; 15]);
    bytes.extend([5, 0, 0, 0, 0, 0, 0, 0]);
    bytes.push(6);
    for (kind, name) in [(1, 5), (2, 5), (5, 0), (3, 5), (6, 0), (7, 5)] {
        bytes.extend([kind, 0, 0, 0, name, 0, 0, 0, 0, 0, 0, 0]);
    }
    bytes
}

const LISTING: &str = "\
height 7 kiosk 0 of 1 power 1
1 start 0 0 0 -1 0 5
out proposal 0 5 -1
out prevote 0 5 -1
out ask-prevote 0 0 -1
out precommit 0 5 -1
out ask-precommit 0 0 -1
out settled 0 5 -1
end 107 of 107
";

#[test]
fn whole_listing() {
    assert_eq!(whole().len(), 107);
    assert_eq!(listing(&whole()), LISTING.as_bytes());
    let mut bench = Bench::new(&[1], 0, 7);
    bench.outputs(&start(7, 5));
    assert_eq!(bench.journal[..bench.state.used], whole());
    assert_eq!(bench.state.phase, Phase::Settled(0));
    bench.check_reopens();
    bench.check_rest();
}

#[test]
fn whole_listing_cut_at_every_byte() {
    let bytes = whole();
    for cut in 0..bytes.len() {
        let expected = if cut < 9 {
            "refused 13\n".to_string()
        } else {
            format!("height 7 kiosk 0 of 1 power 1\nend 9 of {cut}\n")
        };
        assert_eq!(listing(&bytes[..cut]), expected.as_bytes());
    }
}

#[test]
fn listing_words_and_refusals() {
    let mut bench = Bench::new(&[1; 4], 0, 1);
    bench.outputs(&start(1, 0));
    bench.outputs(&timer(1, 5, 0));
    bench.outputs(&prevote(1, 1, 0, 5));
    bench.outputs(&prevote(1, 2, 0, 6));
    bench.outputs(&timer(1, 6, 0));
    bench.outputs(&precommit(1, 1, 0, u64::MAX));
    bench.outputs(&precommit(1, 2, 0, 0));
    bench.outputs(&timer(1, 7, 0));
    bench.outputs(&proposal(1, 2, 1, 70, 0, 0));
    let used = bench.state.used;
    let mut bytes = bench.journal[..used].to_vec();
    bytes.extend([24, 99]);
    let expected = format!(
        "\
height 1 kiosk 0 of 4 power 4
1 start 0 0 0 -1 0 0
out ask-propose 0 0 -1
2 timer-propose 0 0 0 -1 0 0
out prevote 0 0 -1
3 prevote 1 0 5 -1 0 0
4 prevote 2 0 6 -1 0 0
out ask-prevote 0 0 -1
5 timer-prevote 0 0 0 -1 0 0
out precommit 0 0 -1
6 precommit 1 0 18446744073709551615 -1 0 0
7 precommit 2 0 0 -1 0 0
out ask-precommit 0 0 -1
8 timer-precommit 0 0 0 -1 0 0
out ask-propose 1 0 -1
9 proposal 2 1 70 0 0 0
end {used} of {}
",
        used + 2
    );
    assert_eq!(String::from_utf8(listing(&bytes)).unwrap(), expected);
    assert_eq!(listing(&[]), b"refused 13\n");
    assert_eq!(listing(&[33]), b"refused 14 at 0\n");
    let mut settled = whole();
    settled.push(24);
    assert_eq!(listing(&settled), b"refused 14 at 107\n");
    // The size is looked at before the bytes.
    assert_eq!(listing(&[0; 28_499]), b"refused 14 at 0\n");
    assert_eq!(listing(&[0; 28_500]), b"refused 1\n");
}

/// "Two thirds worked out as 2T/3 rounded down and met with at least": of six,
/// four is not large.
#[test]
fn four_of_six_is_not_large() {
    let mut bench = Bench::new(&[1; 6], 0, 1);
    bench.outputs(&start(1, 0));
    bench.outputs(&proposal(1, 1, 0, 50, -1, 1));
    for sender in 1..4 {
        assert_eq!(bench.outputs(&prevote(1, sender, 0, 50)), []);
    }
    assert_eq!(
        bench.outputs(&prevote(1, 4, 0, 50)),
        [out(ASK_PREVOTE, 0, 0), out(PRECOMMIT, 0, 50)]
    );
    // Of three, one is not some.
    let mut bench = Bench::new(&[1; 3], 0, 1);
    bench.outputs(&start(1, 0));
    assert_eq!(bench.outputs(&prevote(1, 1, 1, NIL)), []);
    assert_eq!(
        bench.outputs(&prevote(1, 2, 1, NIL)),
        [out(ASK_PROPOSE, 1, 0)]
    );
}

/// "Counting a kiosk's prevote and precommit as two in rule 55", its proposal too.
#[test]
fn a_sender_counts_once_in_55() {
    let mut bench = Bench::four();
    bench.outputs(&start(1, 0));
    assert_eq!(bench.outputs(&proposal(1, 3, 2, 70, -1, 1)), []);
    assert_eq!(bench.outputs(&prevote(1, 3, 2, 70)), []);
    assert_eq!(bench.outputs(&precommit(1, 3, 2, 70)), []);
    assert_eq!(bench.state.round, 0);
    assert_eq!(
        bench.outputs(&precommit(1, 1, 2, NIL)),
        [out(ASK_PROPOSE, 2, 0), out(PREVOTE, 2, 70)]
    );
}

/// "Writing duplicates in the journal, which fills it."
#[test]
fn a_duplicate_is_not_written() {
    let mut bench = Bench::four();
    bench.outputs(&start(1, 0));
    bench.outputs(&prevote(1, 1, 0, 5));
    let used = bench.state.used;
    assert_eq!(bench.refused(&prevote(1, 1, 0, 5)), 8);
    assert_eq!(bench.state.used, used);
}
