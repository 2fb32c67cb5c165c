//! A market of several kiosks over one height: liars, free delivery, timers at
//! any time, and power cuts at any byte.

use super::*;
use compare::Random;

/// A message as it goes from kiosk to kiosk.
#[derive(Clone, Copy)]
pub struct Message {
    pub sender: usize,
    pub output: Output,
}

/// As the input that a kiosk gets, with its own verdict and offer.
fn arrival(height: u32, message: Message, verdict: u8, offer: u64) -> Input {
    let Message { sender, output } = message;
    Input {
        kind: output.kind + 1,
        height,
        sender: sender as u8,
        round: output.round,
        valid: output.valid,
        verdict: if output.kind == PROPOSAL { verdict } else { 0 },
        name: output.name,
        offer,
    }
}

/// What became of an input.
#[derive(PartialEq)]
pub enum Fate {
    Refused,
    /// To a power cut in the write.
    Lost,
    Taken,
}

#[derive(Clone)]
pub struct Market {
    pub random: Random,
    pub powers: Vec<u16>,
    height: u32,
    /// The rule-keeping kiosks; a liar has no bench.
    kiosks: Vec<Option<Bench>>,
    /// The messages of whole records.
    pub said: Vec<Message>,
    /// Who hears whom at present.
    heard: Vec<Vec<bool>>,
    /// The sheets settled on, one for each kiosk that has.
    pub settled: Vec<u64>,
    /// A sheet checker now and then finds a good sheet bad.
    doubts: bool,
    /// One step in so many is a timer.
    pub hurry: usize,
    pub cuts: usize,
}

impl Market {
    pub fn new(seed: u64, powers: Vec<u16>, liars: &[usize]) -> Market {
        let mut random = Random(seed);
        let height = random.below(1_000) as u32;
        let hurry = random.pick(&[8, 15, 30, 60]);
        let kiosks: Vec<Option<Bench>> = (0..powers.len())
            .map(|own| (!liars.contains(&own)).then(|| created(&mut random, &powers, own, height)))
            .collect();
        Market {
            random,
            heard: vec![vec![true; powers.len()]; powers.len()],
            powers,
            height,
            kiosks,
            said: Vec::new(),
            settled: Vec::new(),
            doubts: !liars.is_empty(),
            hurry,
            cuts: 0,
        }
    }

    pub fn bench(&self, at: usize) -> &Bench {
        self.kiosks[at].as_ref().expect("a rule-keeping kiosk")
    }

    pub fn keepers(&self) -> Vec<usize> {
        self.seats(true)
    }

    pub fn liars(&self) -> Vec<usize> {
        self.seats(false)
    }

    /// Those that keep the rules, or those that break them.
    fn seats(&self, keep: bool) -> Vec<usize> {
        (0..self.kiosks.len())
            .filter(|&at| self.kiosks[at].is_some() == keep)
            .collect()
    }

    /// "Proposer of (h, r): kiosk (h + r) mod n".
    pub fn proposer(&self, round: u8) -> usize {
        let turn = u64::from(self.height) + u64::from(round);
        (turn % self.kiosks.len() as u64) as usize
    }

    /// The power of some seats.
    pub fn power(&self, seats: &[usize]) -> u32 {
        seats.iter().map(|&at| u32::from(self.powers[at])).sum()
    }

    pub fn total(&self) -> u32 {
        self.powers.iter().map(|&power| u32::from(power)).sum()
    }

    /// "Rule-breakers hold B with 3B < T."
    pub fn few_liars(&self) -> bool {
        3 * self.power(&self.liars()) < self.total()
    }

    fn offer(&mut self, at: usize) -> u64 {
        if self.random.once_in(10) {
            0
        } else {
            100 + at as u64
        }
    }

    /// Puts an input, perhaps with a power cut in the write.
    fn put(&mut self, at: usize, input: &Input) -> Fate {
        let before = self.bench(at).clone();
        let mut bench = before.clone();
        let reply = bench.put(input);
        assert!(reply.number != 1 && reply.number != 12);
        if reply.number != 0 {
            return Fate::Refused;
        }
        if self.random.once_in(12) {
            self.cuts += 1;
            let written = self.random.below(bench.state.used - before.state.used + 1);
            let left = before.state.used + written;
            bench.journal[left..].fill(JUNK);
            let reopened = open(&bench.journal, left, &mut bench.table);
            assert_eq!(reopened.number, 0);
            bench.state = reopened.state;
            if bench.state.used == before.state.used {
                assert_eq!(bench.state, before.state);
                assert!(bench.table == before.table);
                self.kiosks[at] = Some(bench);
                return Fate::Lost;
            }
        }
        assert_eq!(bench.state, reply.state);
        self.kiosks[at] = Some(bench);
        for output in reply.outputs {
            match output.kind {
                PROPOSAL | PREVOTE | PRECOMMIT => self.said.push(Message { sender: at, output }),
                SETTLED => self.settle(output.name),
                _ => (),
            }
        }
        Fate::Taken
    }

    /// Puts an input again where a power cut lost it; true where it is taken.
    fn insist(&mut self, at: usize, input: &Input) -> bool {
        loop {
            match self.put(at, input) {
                Fate::Lost => continue,
                fate => return fate == Fate::Taken,
            }
        }
    }

    /// No two ever settle on different sheets, where liars are few.
    fn settle(&mut self, name: u64) {
        let same = self.settled.iter().all(|&sheet| sheet == name);
        assert!(
            same || !self.few_liars(),
            "two kiosks settled on different sheets"
        );
        self.settled.push(name);
    }

    pub fn start(&mut self, starting: &[usize]) {
        for &at in starting {
            let offer = self.offer(at);
            assert!(self.insist(at, &start(self.height, offer)));
        }
    }

    /// Delivers a message, judged by a sheet checker that may doubt.
    pub fn deliver(&mut self, at: usize, message: Message) {
        let doubted = self.doubts && self.random.once_in(40);
        self.deliver_judged(at, message, u8::from(!doubted));
    }

    pub fn deliver_judged(&mut self, at: usize, message: Message, verdict: u8) -> Fate {
        let offer = self.offer(at);
        self.put(at, &arrival(self.height, message, verdict, offer))
    }

    pub fn timer(&mut self, at: usize, kind: u8) -> bool {
        let offer = self.offer(at);
        let round = self.bench(at).state.round;
        let input = Input {
            offer,
            ..timer(self.height, kind, round)
        };
        self.insist(at, &input)
    }

    /// A liar speaks in a round near the kiosk's own.
    fn lie(&mut self, liar: usize, at: usize) {
        let back = self.random.pick(&[0, 1, 1, 1, 2]);
        let round = (self.bench(at).state.round + 1).saturating_sub(back);
        self.lie_in(round.min(15), liar, at);
    }

    /// A liar tells each kiosk what may mislead it: support for what that one
    /// has heard proposed, other sheets, nil.
    pub fn lie_in(&mut self, round: u8, liar: usize, at: usize) {
        let proposed = self.bench(at).table[65 * usize::from(round)];
        let other = 100 + self.random.below(self.kiosks.len()) as u64;
        let name = match self.random.below(10) {
            0 => NIL,
            1 | 2 => other,
            _ => proposed,
        };
        let kind = if self.proposer(round) == liar && proposed == 0 {
            PROPOSAL
        } else {
            self.random.pick(&[PREVOTE, PRECOMMIT])
        };
        let output = Output {
            kind,
            round,
            valid: match kind {
                PROPOSAL => self.random.below(usize::from(round) + 1) as u8,
                _ => 0,
            },
            name: if kind == PROPOSAL { other } else { name },
        };
        let message = Message {
            sender: liar,
            output,
        };
        self.deliver(at, message);
    }

    /// Who hears whom changes from time to time.
    pub fn part(&mut self) {
        for hears in self.heard.iter_mut().flatten() {
            *hears = !self.random.once_in(3);
        }
    }

    /// One step of a market without order.
    pub fn disorder(&mut self) {
        let keepers = self.keepers();
        let at = self.random.pick(&keepers);
        let round = self.bench(at).state.round;
        self.step(at, |output| output.round + 1 >= round);
    }

    /// One step of a kiosk: a timer, or a message, of the others that keep the
    /// rules such a one as may come.
    pub fn step(&mut self, at: usize, may_come: impl Fn(Output) -> bool) {
        if self.random.once_in(60) {
            self.part();
        }
        if self.random.once_in(self.hurry) {
            let kind = self.random.pick(&[5, 6, 7]);
            self.timer(at, kind);
        } else {
            self.hear(at, may_come);
        }
    }

    /// A liar speaks to a kiosk, or a message comes to it.
    pub fn hear(&mut self, at: usize, may_come: impl Fn(Output) -> bool) {
        let sender = self.random.below(self.kiosks.len());
        if self.kiosks[sender].is_none() {
            self.lie(sender, at);
        } else if self.heard[at][sender] && sender != at {
            let coming: Vec<Message> = (self.said.iter().copied())
                .filter(|m| m.sender == sender && may_come(m.output))
                .collect();
            if !coming.is_empty() {
                let message = self.random.pick(&coming);
                self.deliver(at, message);
            }
        }
    }

    /// Everything said reaches everyone, in some order, until nothing more is
    /// taken in.
    pub fn deliver_all(&mut self) {
        let mut taken = true;
        while taken {
            taken = false;
            let mut pairs: Vec<(usize, usize)> = (0..self.said.len())
                .flat_map(|m| self.keepers().into_iter().map(move |at| (m, at)))
                .collect();
            self.random.shuffle(&mut pairs);
            for (m, at) in pairs {
                let message = self.said[m];
                if message.sender != at {
                    let input = arrival(self.height, message, 1, 100 + at as u64);
                    taken |= self.insist(at, &input);
                }
            }
        }
    }
}

/// A kiosk that creates its journal, again where a power cut left part of the
/// header, and opens it.
fn created(random: &mut Random, powers: &[u16], own: usize, height: u32) -> Bench {
    let whole = Bench::new(powers, own, height);
    let mut left = whole.journal[..random.below(whole.state.used + 1)].to_vec();
    let mut table = vec![3; TABLE];
    let reply = open(&left, left.len(), &mut table);
    if reply.number == 13 {
        left = vec![JUNK; whole.journal.len()];
        assert_eq!(create(powers, own, height, &mut left).number, 0);
        let reply = open(&left, whole.state.used, &mut table);
        assert_eq!((reply.number, &reply.state), (0, &whole.state));
    } else {
        assert_eq!((reply.number, &reply.state), (0, &whole.state));
    }
    whole
}

/// Powers of some style, and liars with 3B < T.
pub fn cast(random: &mut Random) -> (Vec<u16>, Vec<usize>) {
    let kiosks = random.pick(&[4, 4, 4, 5, 6, 7]);
    let mixed = random.once_in(3);
    let powers: Vec<u16> = (0..kiosks)
        .map(|_| {
            if mixed {
                random.pick(&[0, 1, 2, 3, 1_000])
            } else {
                1
            }
        })
        .collect();
    let total: u32 = powers.iter().map(|&p| u32::from(p)).sum();
    if total == 0 {
        return (vec![1; 4], vec![random.below(4)]);
    }
    let mut liars = Vec::new();
    let mut power = 0;
    for _ in 0..kiosks {
        let at = random.below(kiosks);
        let more = power + u32::from(powers[at]);
        if !liars.contains(&at) && 3 * more < total {
            liars.push(at);
            power = more;
        }
    }
    (powers, liars)
}
