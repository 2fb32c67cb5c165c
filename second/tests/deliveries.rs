//! Random deliveries to one kiosk over a whole height, held against 01's
//! own promises; the fullest journal; and calls with made-up states.

mod common;
use common::*;
use compare::made_up::change;
use compare::terms::flat_state;
use compare::{Aim, Delivery, Lent, Random, AIMS};
use second::*;
use std::collections::BTreeSet;

/// What all runs together have met.
#[derive(Default)]
struct Met {
    settled: usize,
    settled_in_another_round: usize,
    round_15: usize,
    rules: BTreeSet<u8>,
    outputs: BTreeSet<u8>,
    refusals: BTreeSet<u8>,
    outputs_in_a_call: BTreeSet<usize>,
    accepted: usize,
    cuts: usize,
    /// The used lengths of all journals together.
    bytes: usize,
}

impl Met {
    fn with(mut self, other: Met) -> Met {
        self.settled += other.settled;
        self.settled_in_another_round += other.settled_in_another_round;
        self.round_15 += other.round_15;
        self.rules.extend(other.rules);
        self.outputs.extend(other.outputs);
        self.refusals.extend(other.refusals);
        self.outputs_in_a_call.extend(other.outputs_in_a_call);
        self.accepted += other.accepted;
        self.cuts += other.cuts;
        self.bytes += other.bytes;
        self
    }
}

struct Run {
    bench: Bench,
    delivery: Delivery,
    /// State and table after the header and after each group.
    whole: Vec<(State, Vec<u64>)>,
}

impl Run {
    fn new(seed: u64, kiosks: usize, aim: Aim) -> Run {
        let mut delivery = Delivery::new(seed, aim);
        let market = delivery.market(kiosks);
        Run::of(
            Bench::new(&market.powers, market.own, market.height),
            delivery,
        )
    }

    fn of(bench: Bench, delivery: Delivery) -> Run {
        Run {
            whole: vec![(bench.state.clone(), bench.table.clone())],
            bench,
            delivery,
        }
    }

    fn input(&mut self) -> Input {
        self.delivery.input(&self.bench.state, &self.bench.table)
    }

    fn put(&mut self, input: &Input, met: &mut Met) {
        let (reply, fired) = self.bench.put_traced(input);
        met.refusals.insert(reply.number);
        // The state is one that calls left, and the area is roomy.
        assert!(reply.number != 1 && reply.number < 12);
        if reply.number == 0 {
            met.accepted += 1;
            met.rules.extend(fired);
            met.outputs.extend(reply.outputs.iter().map(|o| o.kind));
            met.outputs_in_a_call.insert(reply.outputs.len());
            self.bench.check_rest();
            let after = (self.bench.state.clone(), self.bench.table.clone());
            self.whole.push(after);
            self.delivery.taken.push(*input);
        }
    }

    /// So many puts, or a few more than it takes to settle.
    fn go(&mut self, puts: usize, met: &mut Met) {
        let mut after_settling = 0;
        for _ in 0..puts {
            let input = self.input();
            self.put(&input, met);
            if let Phase::Settled(_) = self.bench.state.phase {
                after_settling += 1;
                if after_settling == 10 {
                    break;
                }
            }
        }
    }

    fn end(&mut self, met: &mut Met) {
        if let Phase::Settled(round) = self.bench.state.phase {
            met.settled += 1;
            met.settled_in_another_round += usize::from(round != self.bench.state.round);
            let name = self.bench.table[65 * usize::from(round)];
            let group = last(&self.bench.state, &self.bench.journal);
            assert_eq!(group[group.len() - 12..][..2], [7, round]);
            assert_eq!(group[group.len() - 8..], name.to_le_bytes());
        }
        met.round_15 += usize::from(self.bench.state.round == 15);
        met.bytes += self.bench.state.used;
        self.bench.check_reopens();
    }

    /// "A power cut leaves the old used bytes and any first part of" a group:
    /// opening gives what the whole groups before the cut give.
    fn cut(&self, cut: usize, met: &mut Met) {
        let mut table = vec![7; TABLE];
        let reply = open(&self.bench.journal, cut, &mut table);
        met.cuts += 1;
        if cut < self.whole[0].0.used {
            assert_eq!((reply.number, reply.place), (13, 0));
            assert_eq!(reply.state, State::unopened());
            assert!(table.iter().all(|&name| name == 0));
            return;
        }
        let (state, names) = &self.whole[self.whole.partition_point(|w| w.0.used <= cut) - 1];
        assert_eq!((reply.number, reply.place), (0, 0));
        assert_eq!(&reply.state, state);
        assert!(&table == names);
    }

    fn cut_everywhere(&self, met: &mut Met) {
        for cut in 0..=self.bench.state.used {
            self.cut(cut, met);
        }
    }

    /// A changed byte of what follows an input is damage where its group starts,
    /// and so is any byte after settling.
    fn damage(&mut self) {
        for _ in 0..20 {
            let random = &mut self.delivery.random;
            let at = random.below(self.whole.len());
            let mut bytes = self.bench.journal[..self.bench.state.used].to_vec();
            let State { last, used, .. } = self.whole[at].0;
            if last == used {
                continue;
            }
            let place = last + 25 + random.below(used - last - 25);
            bytes[place] ^= 1 << random.below(8);
            let reply = open(&bytes, bytes.len(), &mut vec![0; TABLE]);
            assert_eq!((reply.number, reply.place), (14, last));
        }
        if let Phase::Settled(_) = self.bench.state.phase {
            let used = self.bench.state.used;
            let reply = open(&self.bench.journal, used + 1, &mut vec![0; TABLE]);
            assert_eq!((reply.number, reply.place), (14, used));
        }
    }
}

/// How long a delivery is: the work of cutting its journal everywhere grows with
/// the square of the journal's length.
#[derive(Clone, Copy, PartialEq)]
enum Length {
    Short,
    Long,
}

fn deliver(seed: usize, length: Length, met: &mut Met) {
    let kiosks = match seed % 3 {
        0 => 1 + seed % 32,
        1 => 4,
        _ => 1 + seed % 7,
    };
    let mut run = Run::new(seed as u64, kiosks, AIMS[seed / 3 % 4]);
    let (puts, rest) = match length {
        Length::Short => (20 + run.delivery.random.below(40), 3 * kiosks + 40),
        Length::Long => (
            60 + run.delivery.random.below(20 * kiosks + 100),
            10 * kiosks + 100,
        ),
    };
    run.go(puts, met);
    // The rest of the height; in some runs too little comes to settle.
    run.delivery.aim = Aim::Settle;
    run.go(rest, met);
    run.end(met);
    run.damage();
    run.cut_everywhere(met);
}

const RUNS: usize = 192;

/// Every journal is cut at every length.
fn deliver_all(length: Length) {
    let half = |first: usize| {
        let mut met = Met::default();
        for seed in (first..RUNS).step_by(2) {
            deliver(seed, length, &mut met);
        }
        met
    };
    let met = std::thread::scope(|scope| {
        let odd = scope.spawn(|| half(1));
        let even = half(0);
        even.with(odd.join().unwrap())
    });
    println!(
        "{} accepted, {} cuts, settled {} ({} in another round), round 15 {}, refusals {:?}",
        met.accepted,
        met.cuts,
        met.settled,
        met.settled_in_another_round,
        met.round_15,
        met.refusals
    );
    assert!(met.settled > 0 && met.settled_in_another_round > 0);
    assert!(met.round_15 > 0);
    assert_eq!(met.cuts, met.bytes + RUNS);
    assert_eq!(met.rules, BTreeSet::from([22, 28, 34, 36, 44, 47, 49, 55]));
    assert_eq!(met.outputs, BTreeSet::from_iter(1..=7));
    assert_eq!(met.outputs_in_a_call, BTreeSet::from_iter(0..=6));
    assert_eq!(
        met.refusals,
        BTreeSet::from_iter(0..=11)
            .difference(&BTreeSet::from([1]))
            .copied()
            .collect()
    );
}

#[test]
fn random_deliveries() {
    deliver_all(Length::Short);
}

#[test]
#[ignore = "takes minutes: longer journals"]
fn long_random_deliveries() {
    deliver_all(Length::Long);
}

/// Every input that a height can take, none twice: 32(n + 1) groups with 81
/// outputs, which is the roomy size to the byte where n is 32.
#[test]
fn the_fullest_journal() {
    let height = 0;
    let own = 31;
    let mut run = Run::of(
        Bench::new(&[1; 32], own, height),
        Delivery::new(1, Aim::Drag),
    );
    let mut met = Met::default();
    let others: Vec<u8> = (0..31).collect();
    run.put(&start(height, 0), &mut met);
    for round in 0..16 {
        let sheet = 50 + u64::from(round);
        run.put(&timer(height, 5, round), &mut met);
        run.put(&proposal(height, round, round, sheet, -1, 1), &mut met);
        // No two prevotes agree, so that the prevote timer is not forestalled.
        for &sender in &others {
            run.put(
                &prevote(height, sender, round, 100 + u64::from(sender)),
                &mut met,
            );
        }
        run.put(&timer(height, 6, round), &mut met);
        // Of round 0, 21 for the sheet; the 22nd, which makes them large, is last.
        for &sender in &others {
            let for_it = round == 0 && sender < 21;
            if round != 0 || sender != 30 {
                let name = if for_it { sheet } else { NIL };
                run.put(&precommit(height, sender, round, name), &mut met);
            }
        }
        if round < 15 {
            run.put(&timer(height, 7, round), &mut met);
        }
    }
    assert_eq!(run.bench.refused(&timer(height, 7, 15)), 11);
    assert_eq!(run.bench.state.phase, Phase::Running);
    run.put(&precommit(height, 30, 0, 50), &mut met);
    assert_eq!(run.bench.state.phase, Phase::Settled(0));
    assert_eq!(met.accepted, 32 * 33);
    assert_eq!(run.bench.state.used, 28_499);
    assert_eq!(run.bench.journal.len(), 28_499);
    run.bench.check_reopens();
    let text = String::from_utf8(listing(&run.bench.journal)).unwrap();
    assert_eq!(text.lines().count(), 1 + 32 * 33 + 81 + 1);
    assert!(text.ends_with("out settled 0 50 -1\nend 28499 of 28499\n"));
    // Around the end of one group in 40: this journal is the longest there can be.
    for at in (0..run.whole.len()).step_by(40) {
        let State { last, used, .. } = run.whole[at].0;
        for cut in last..=used {
            run.cut(cut, &mut met);
        }
    }
}

/// Opening and listing take any bytes: they give the same answer, a failed
/// opening leaves nothing, and what is kept opens again as the same.
#[test]
fn any_bytes() {
    let mut random = Random(5);
    let mut numbers = BTreeSet::new();
    for seed in 0..150 {
        let mut run = Run::new(seed as u64, 1 + seed % 6, Aim::Any);
        run.go(30, &mut Met::default());
        for _ in 0..60 {
            let mut bytes = run.bench.journal[..run.bench.state.used].to_vec();
            for _ in 0..1 + random.below(2) {
                let at = random.below(bytes.len());
                let byte = random.number() as u8;
                bytes[at] = random.pick(&[0, 1, 5, 24, 255, byte]);
            }
            if random.once_in(4) {
                bytes.truncate(random.below(bytes.len() + 1));
            }
            if random.once_in(20) {
                bytes.fill_with(|| random.number() as u8);
            }
            let mut table = vec![9; TABLE];
            let reply = open(&bytes, bytes.len(), &mut table);
            numbers.insert(reply.number);
            let text = String::from_utf8(listing(&bytes)).unwrap();
            let State { used, .. } = reply.state;
            match reply.number {
                0 => {
                    assert!(text.ends_with(&format!("\nend {used} of {}\n", bytes.len())));
                    let mut names = vec![8; TABLE];
                    assert_eq!(open(&bytes, used, &mut names), reply);
                    assert!(names == table);
                    continue;
                }
                13 => assert_eq!(text, "refused 13\n"),
                14 => assert_eq!(text, format!("refused 14 at {}\n", reply.place)),
                number => panic!("opening gave {number}"),
            }
            assert_eq!(reply.state, State::unopened());
            assert!(reply.place < bytes.len().max(1));
            assert!(table.iter().all(|&name| name == 0));
        }
    }
    assert_eq!(numbers, BTreeSet::from([0, 13, 14]));
}

/// Calls with made-up numbers everywhere: no panic, a refusal changes nothing,
/// an accepted call changes only the input's place and own places, has at most
/// 6 outputs, and leaves no rule that applies.
#[test]
fn made_up_calls() {
    let mut random = Random(77);
    let mut accepted = 0;
    let mut refusals = BTreeSet::new();
    for seed in 0..400 {
        let mut run = Run::new(seed as u64, 1 + seed % 7, AIMS[seed % 4]);
        let puts = random.below(60);
        run.go(puts, &mut Met::default());
        for _ in 0..100 {
            let input = run.input();
            let changes = random.below(4);
            let mut bench = made_up(&run.bench, changes, &mut random);
            let before = bench.clone();
            let reply = bench.put(&input);
            refusals.insert(reply.number);
            if reply.number != 0 {
                continue;
            }
            accepted += 1;
            check_changes(&before, &bench, &input);
            let elsewhere = timer(bench.state.height.wrapping_add(1), 5, 0);
            let settled = matches!(bench.state.phase, Phase::Settled(_));
            assert_eq!(bench.refused(&elsewhere), if settled { 2 } else { 4 });
        }
    }
    assert!(accepted > 1_000);
    assert_eq!(refusals, BTreeSet::from_iter(0..=12));
}

/// So many numbers of a state, table or area changed.
fn made_up(bench: &Bench, changes: usize, random: &mut Random) -> Bench {
    let mut lent = Lent {
        kiosk: flat_state(&bench.state),
        table: bench.table.clone(),
        journal: bench.journal.clone(),
    };
    for _ in 0..changes {
        change(&mut lent, random);
    }
    Bench {
        state: lent.state().expect("a state that can be held"),
        table: lent.table,
        journal: lent.journal,
    }
}

/// Between two tables and marks only the input's place and own places differ.
fn check_changes(before: &Bench, after: &Bench, input: &Input) {
    let own = before.state.own;
    let entered = |r: usize| r == usize::from(after.state.round);
    for r in 0..16 {
        let (was, is) = (&before.state.rounds[r], &after.state.rounds[r]);
        let here = r == usize::from(input.round);
        for seat in 0..SEATS {
            let mine = seat == own && entered(r);
            for (kind, first, was, is) in [
                (3, 1, was.prevotes, is.prevotes),
                (4, 33, was.precommits, is.precommits),
            ] {
                let sent = input.kind == kind && here && seat == usize::from(input.sender);
                let place = 65 * r + first + seat;
                if sent {
                    assert!(is & (1 << seat) != 0 && after.table[place] == input.name);
                } else if !mine {
                    assert_eq!(was & (1 << seat), is & (1 << seat));
                    assert_eq!(before.table[place], after.table[place]);
                }
            }
        }
        if input.kind == 2 && here && !(entered(r) && before.state.round != after.state.round) {
            assert_eq!(after.table[65 * r], input.name);
            assert_eq!(is.proposal, u32::from(input.verdict) + 1);
            assert_eq!(is.valid, u32::from(input.valid));
        } else if !entered(r) {
            assert_eq!((was.proposal, was.valid), (is.proposal, is.valid));
            assert_eq!(before.table[65 * r], after.table[65 * r]);
        }
    }
    let (was, is) = (&before.state, &after.state);
    assert_eq!(
        (was.kiosks, was.powers, was.own),
        (is.kiosks, is.powers, is.own)
    );
    assert_eq!(was.height, is.height);
}
