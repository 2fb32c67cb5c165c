//! C-22, a good round always closes: good rounds that a market's own steps lead
//! to are played in three waves, and rounds that miss one premise are played too.

mod common;
use common::market::*;
use common::*;
use compare::Random;
use second::weighing::{large, some};
use second::*;
use std::collections::{BTreeMap, BTreeSet};

/// The premise of C-22 that a play misses.
#[derive(Clone, Copy, PartialEq, Eq, PartialOrd, Ord, Debug)]
enum Miss {
    /// A kiosk is locked on another sheet after the valid round.
    Lock,
    /// A kiosk lacks large prevotes of the valid round.
    Backing,
    /// A kiosk has not started.
    Start,
    /// Liars hold a third of the power or more.
    Power,
    /// Precommits come before the other two waves.
    Order,
    /// A liar speaks in an earlier round.
    Earlier,
    /// A proposal of a later round comes that its proposer has not made, and
    /// with what liars say there it is some.
    Forged,
    /// A kiosk judges the proposal bad.
    Verdict,
}

/// Missed by the situation.
const SITUATIONS: [Miss; 4] = [Miss::Lock, Miss::Backing, Miss::Start, Miss::Power];
/// Missed by what is delivered from a good situation on.
const DELIVERIES: [Miss; 4] = [Miss::Order, Miss::Earlier, Miss::Forged, Miss::Verdict];

/// A situation that a market has come to.
struct Situation {
    market: Market,
    /// The proposal of the round that all stand in.
    good: Message,
    misses: Vec<Miss>,
}

/// What C-22 asks of a situation: none where the round, its proposal or the
/// steps are not as it says; the other premises are looked at one by one.
fn situation(market: Market) -> Option<Situation> {
    let keepers = market.keepers();
    let round = market.bench(*keepers.first()?).state.round;
    let proposer = market.proposer(round);
    let said = |kind| {
        let mut said = market.said.iter().copied();
        said.find(|m| (m.sender, m.output.kind, m.output.round) == (proposer, kind, round))
    };
    let good = said(PROPOSAL)?;
    let Output { valid, name, .. } = good.output;
    let benches: Vec<&Bench> = keepers.iter().map(|&at| market.bench(at)).collect();
    let stand = benches.iter().all(|bench| {
        let state = &bench.state;
        let step = if state.own == proposer {
            Step::Prevote
        } else {
            Step::Propose
        };
        let settled = matches!(state.phase, Phase::Settled(_));
        !settled && (state.round, state.step) == (round, step)
    });
    if !stand || said(PREVOTE)?.output.name != name {
        return None;
    }
    let missed = |miss| {
        benches.iter().any(|bench| match miss {
            Miss::Lock => bench.state.locked.next > valid && bench.state.locked.name != name,
            Miss::Backing => valid > 0 && !backs(&market, bench, valid - 1, name),
            Miss::Start => bench.state.phase == Phase::Fresh,
            Miss::Power => !market.few_liars(),
            _ => false,
        })
    };
    let misses = SITUATIONS.into_iter().filter(|&m| missed(m)).collect();
    Some(Situation {
        market,
        good,
        misses,
    })
}

/// It holds large prevotes of that round for this name.
fn backs(market: &Market, bench: &Bench, round: u8, name: u64) -> bool {
    let round = usize::from(round);
    let marks = bench.state.rounds[round].prevotes;
    let voters: Vec<usize> = (0..market.powers.len())
        .filter(|&at| marks & (1 << at) != 0 && bench.table[65 * round + 1 + at] == name)
        .collect();
    large(market.power(&voters), market.total())
}

/// A situation that a market's own steps lead to; none where they do not lead to
/// one round and its proposal.
fn led(seed: u64, random: &mut Random) -> Option<Situation> {
    let (powers, mut liars) = cast(random);
    let mut market = Market::new(seed, powers.clone(), &liars);
    let crowd = random.once_in(8);
    while crowd && market.few_liars() {
        liars.push(random.below(powers.len()));
        market = Market::new(seed, powers.clone(), &liars);
    }
    let last = if random.once_in(30) { 15 } else { 3 };
    let mut rounds = vec![0, 1, 1, 1, 1, 2, 2, last];
    rounds.retain(|&round| !liars.contains(&market.proposer(round)));
    let mut starting = market.keepers();
    if starting.len() < 2 || rounds.is_empty() {
        return None;
    }
    let round = random.pick(&rounds);
    if round == 0 && random.once_in(3) {
        starting.remove(random.below(starting.len()));
    }
    market.start(&starting);
    lead(&mut market, round);
    let mut found = situation(market)?;
    if found.misses == [Miss::Lock] && random.once_in(2) {
        // What is proposed now may lead the locked kiosk away in a later round.
        let turns = |&round: &u8| !liars.contains(&found.market.proposer(round));
        let next = (round + 1..16).find(turns)?;
        lead(&mut found.market, next);
        return situation(found.market);
    }
    Some(found)
}

/// Leads all to a round whose proposal is withheld.
fn lead(market: &mut Market, round: u8) {
    for _ in 0..market.random.below(40) {
        if let Some(at) = behind(market, round).pop() {
            market.step(at, |o| may_come(round, o));
        }
    }
    for _ in 0..2 * round {
        pass(market, round);
    }
    let keepers = market.keepers();
    for _ in 0..market.random.below(10) {
        let at = market.random.pick(&keepers);
        market.hear(at, |o| o.kind == PREVOTE);
    }
    recall(market, round);
}

/// All but the proposal of that round, which is withheld.
fn may_come(round: u8, output: Output) -> bool {
    output.kind != PROPOSAL || output.round < round
}

/// The rule-keeping kiosks that are not in a round yet, in a random order.
fn behind(market: &mut Market, round: u8) -> Vec<usize> {
    let mut behind = market.keepers();
    behind.retain(|&at| market.bench(at).state.round < round);
    market.random.shuffle(&mut behind);
    behind
}

/// One wave after the other comes to those behind, before its timer runs out: to
/// the patient all of it, to the others no more than they must hear.
fn pass(market: &mut Market, round: u8) {
    for kind in [PROPOSAL, PREVOTE, PRECOMMIT] {
        for at in behind(market, round) {
            let own = market.bench(at).state.round;
            let hasty = market.random.once_in(if kind == PROPOSAL { 6 } else { 2 });
            let patient = !hasty && own + 2 >= round;
            let mut coming = voices(market);
            coming.retain(|m| m.sender != at && m.output.kind <= kind);
            coming.retain(|m| (own..=round).contains(&m.output.round));
            coming.retain(|m| may_come(round, m.output));
            market.random.shuffle(&mut coming);
            if patient {
                coming.sort_by_key(|m| m.output.kind);
            }
            for message in coming {
                let due = !patient || kind == PRECOMMIT;
                if due && market.timer(at, kind + 4) {
                    break;
                }
                market.deliver(at, message);
                if market.random.once_in(4) {
                    // Only a liar is heard.
                    market.hear(at, |_| false);
                }
            }
            market.timer(at, kind + 4);
        }
    }
}

/// What is said, and now and then the prevotes of liars for what is proposed.
fn voices(market: &mut Market) -> Vec<Message> {
    let mut voices = market.said.clone();
    let liars = market.liars();
    for message in &market.said {
        let Output {
            kind, round, name, ..
        } = message.output;
        if kind == PROPOSAL && market.random.once_in(2) {
            let output = out(PREVOTE, round, name);
            voices.extend(liars.iter().map(|&sender| Message { sender, output }));
        }
    }
    voices
}

/// Prevotes of earlier rounds come late; now and then one is withheld.
fn recall(market: &mut Market, round: u8) {
    let withheld = market.random.pick(&[4, 100, 1_000]);
    let mut late = voices(market);
    late.retain(|m| m.output.kind == PREVOTE && m.output.round < round);
    for message in late {
        for at in market.keepers() {
            if message.sender != at && !market.random.once_in(withheld) {
                market.deliver(at, message);
            }
        }
    }
}

/// Three waves under way.
struct Waves {
    market: Market,
    good: Message,
    miss: Option<Miss>,
    /// The premise has been missed.
    missed: bool,
    /// The kiosk that is served first, and where a delivery misses.
    first: usize,
    /// What of the round has come to each kiosk, as places in what was said.
    came: Vec<BTreeSet<usize>>,
}

impl Waves {
    fn new(from: &Situation, miss: Option<Miss>, random: &mut Random) -> Waves {
        let mut market = from.market.clone();
        market.random = Random(random.number());
        market.cuts = 0;
        let others: Vec<usize> = (market.keepers().into_iter())
            .filter(|&at| at != from.good.sender)
            .collect();
        Waves {
            first: random.pick(&others),
            came: vec![BTreeSet::new(); market.powers.len()],
            market,
            good: from.good,
            miss,
            missed: miss.is_some_and(|miss| SITUATIONS.contains(&miss)),
        }
    }

    fn round(&self) -> u8 {
        self.good.output.round
    }

    /// The proposal and the prevotes of all that keep the rules have come.
    fn two_waves(&self, at: usize) -> bool {
        let came = |sender, kind| {
            let mut came = self.came[at].iter().map(|&m| self.market.said[m]);
            sender == at || came.any(|m| (m.sender, m.output.kind) == (sender, kind))
        };
        let keepers = self.market.keepers();
        came(self.good.sender, PROPOSAL) && keepers.into_iter().all(|sender| came(sender, PREVOTE))
    }

    /// What is said of the round and has not come to a kiosk.
    fn to_come(&self, at: usize) -> Vec<usize> {
        let said = &self.market.said;
        (0..said.len())
            .filter(|&m| said[m].output.round == self.round() && said[m].sender != at)
            .filter(|m| !self.came[at].contains(m))
            .collect()
    }

    /// Of that, what may come: precommits after the other two waves.
    fn may_come(&self, at: usize) -> Vec<usize> {
        let free = self.miss == Some(Miss::Order) || self.two_waves(at);
        let mut coming = self.to_come(at);
        coming.retain(|&m| free || self.market.said[m].output.kind != PRECOMMIT);
        coming
    }

    /// A message comes to a kiosk; one that a power cut loses has yet to come.
    fn come(&mut self, at: usize, m: usize) {
        let message = self.market.said[m];
        let kind = message.output.kind;
        let doubted = self.miss == Some(Miss::Verdict) && at == self.first;
        self.missed |= doubted && kind == PROPOSAL;
        self.missed |= kind == PRECOMMIT && !self.two_waves(at);
        let fate = self.market.deliver_judged(at, message, u8::from(!doubted));
        if fate != Fate::Lost {
            self.came[at].insert(m);
        }
    }

    /// A liar says anything of this round or a later one; or the premise on what
    /// is said is missed.
    fn speak(&mut self, liar: usize, at: usize) {
        let round = self.round();
        let random = &mut self.market.random;
        let later = round + random.below(16 - usize::from(round)) as u8;
        let of = random.pick(&[round, round, later]);
        match self.miss {
            Some(Miss::Earlier) if round > 0 && random.once_in(2) => {
                let earlier = random.below(usize::from(round)) as u8;
                self.missed = true;
                self.market.lie_in(earlier, liar, at);
            }
            Some(Miss::Forged) if later > round && at == self.first => self.forge(later),
            _ => self.market.lie_in(of, liar, at),
        }
    }

    /// A proposal comes that its proposer has not made, and the liars speak in
    /// its round, where both are some.
    fn forge(&mut self, round: u8) {
        let (at, sender) = (self.first, self.market.proposer(round));
        let liars = self.market.liars();
        let mut senders = liars.clone();
        senders.push(sender);
        let power = self.market.power(&senders);
        if sender == at || liars.contains(&sender) || !some(power, self.market.total()) {
            return;
        }
        self.missed = true;
        let output = out(PROPOSAL, round, 100 + sender as u64);
        self.market
            .deliver_judged(at, Message { sender, output }, 1);
        for liar in liars {
            self.market.lie_in(round, liar, at);
        }
    }

    /// Plays until nothing more may come. True where the three waves came whole
    /// and the premise, if any, was missed.
    fn play(&mut self) -> bool {
        let keepers = self.market.keepers();
        let liars = self.market.liars();
        loop {
            let waiting: Vec<usize> = (keepers.iter().copied())
                .filter(|&at| !self.may_come(at).is_empty())
                .collect();
            if waiting.is_empty() {
                break;
            }
            let favoured = waiting.contains(&self.first) && self.market.random.once_in(2);
            let at = if favoured {
                self.first
            } else {
                self.market.random.pick(&waiting)
            };
            let mut coming = self.may_come(at);
            let choice = self.market.random.below(8);
            if choice < 2 && !liars.is_empty() {
                let liar = self.market.random.pick(&liars);
                self.speak(liar, at);
                continue;
            }
            if choice == 2 {
                // Messages may be repeated.
                coming.extend(&self.came[at]);
            }
            let m = self.market.random.pick(&coming);
            self.come(at, m);
        }
        let whole = keepers.iter().all(|&at| self.to_come(at).is_empty());
        whole && self.missed == self.miss.is_some()
    }

    /// Each of them has settled in the round on the proposal.
    fn closed(&self) -> bool {
        let Output { round, name, .. } = self.good.output;
        self.market.keepers().into_iter().all(|at| {
            let bench = self.market.bench(at);
            bench.state.phase == Phase::Settled(round)
                && bench.table[65 * usize::from(round)] == name
        })
    }
}

#[test]
fn a_good_round_closes() {
    let mut random = Random(22);
    let (mut played, mut valid, mut locked, mut led_away, mut cut) = (0, 0, 0, 0, 0);
    for seed in 0..3_200 {
        let Some(found) = led(seed, &mut random).filter(|found| found.misses.is_empty()) else {
            continue;
        };
        let mut waves = Waves::new(&found, None, &mut random);
        assert!(waves.play(), "a wave did not come whole");
        assert!(waves.closed(), "a good round stayed open");
        let good = found.good.output;
        let keepers = found.market.keepers();
        assert_eq!(waves.market.settled, vec![good.name; keepers.len()]);
        for &at in &keepers {
            waves.market.bench(at).check_reopens();
        }
        let mut locks: Vec<Held> = (keepers.iter())
            .map(|&at| found.market.bench(at).state.locked)
            .collect();
        locks.retain(|lock| lock.next > 0);
        played += 1;
        valid += usize::from(good.valid > 0);
        locked += usize::from(!locks.is_empty());
        led_away += usize::from(locks.iter().any(|lock| lock.name != good.name));
        cut += usize::from(waves.market.cuts > 0);
    }
    println!(
        "good rounds {played}: with a valid round {valid}, with locks {locked} \
         (on another sheet {led_away}), with power cuts {cut}"
    );
    assert!(played >= 1_000 && valid >= 100 && locked >= 100 && led_away >= 5 && cut >= 100);
}

/// Where one premise is missed, the round may stay open.
#[test]
fn each_premise_matters() {
    let mut random = Random(23);
    let mut counts: BTreeMap<Miss, (usize, usize)> = BTreeMap::new();
    for seed in 0..2_000 {
        let Some(found) = led(seed, &mut random) else {
            continue;
        };
        let misses = match found.misses[..] {
            [] => DELIVERIES.to_vec(),
            [miss] => vec![miss],
            _ => Vec::new(),
        };
        for miss in misses {
            let mut waves = Waves::new(&found, Some(miss), &mut random);
            if waves.play() {
                let (tried, open) = counts.entry(miss).or_default();
                *tried += 1;
                *open += usize::from(!waves.closed());
            }
        }
    }
    let line: Vec<String> = (counts.iter())
        .map(|(miss, (tried, open))| format!("{miss:?} {tried}, {open}"))
        .collect();
    println!("missed (tried, not closed): {}", line.join("; "));
    for miss in SITUATIONS.into_iter().chain(DELIVERIES) {
        let open = counts.get(&miss).map_or(0, |&(_, open)| open);
        assert!(open > 0, "{miss:?}");
    }
}
