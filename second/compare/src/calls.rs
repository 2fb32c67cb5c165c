//! Each call put to an engine and to second, with lent things of their own, and compared whole.

use crate::deliveries::{Delivery, Market, AIMS};
use crate::met::Met;
use crate::terms::{flat_input, flat_reply, state};
use flat::{Kiosk, Made, Part, Reply, TABLE};
use second::{Input, State};

/// An engine behind the header's calls.
#[derive(Clone, Copy)]
pub struct Engine {
    pub name: &'static str,
    pub create: fn(&[u16], usize, u32, &mut [u8]) -> Made,
    pub open: fn(&[u8], usize, &mut [u64]) -> Reply,
    pub again: fn(&[u8], usize, &mut [u64], &mut [u8]) -> Reply,
    pub put: fn(&Kiosk, &flat::Input, &mut [u64], &mut [u8]) -> Reply,
    pub last: fn(&Kiosk, &[u8]) -> Part,
}

pub const FAST: Engine = Engine {
    name: "fast",
    create: fast::create,
    open: |journal, used, table| {
        let mut kiosk = Kiosk::default();
        let done = fast::open(journal, used, table, &mut kiosk);
        fast_reply(done, kiosk)
    },
    again: |journal, used, table, said| {
        let mut kiosk = Kiosk::default();
        let done = fast::say_again(journal, used, table, said, &mut kiosk);
        fast_reply(done, kiosk)
    },
    put: |kiosk, input, table, journal| {
        let mut kiosk = *kiosk;
        let done = fast::put(&mut kiosk, input, table, journal);
        fast_reply(done, kiosk)
    },
    last: |kiosk, journal| part(kiosk, fast::last(kiosk, journal)),
};

fn fast_reply(done: fast::Done, kiosk: Kiosk) -> Reply {
    Reply {
        number: done.number,
        place: done.place,
        count: done.count,
        sent: done.sent,
        kiosk,
    }
}

/// Where a last group that an engine gives as bytes stands: (0, 0) for none.
fn part(kiosk: &Kiosk, group: &[u8]) -> Part {
    match group.len() {
        0 => Part::default(),
        count => Part {
            from: kiosk.last,
            count,
        },
    }
}

/// What stands in an area before anything is written there.
pub const JUNK: u8 = 0xa5;

/// More bytes than the largest group has.
const SPARE: usize = 128;

/// Long enough for several rounds, short enough to be opened at every length.
const BOUND: usize = 900;

/// What a caller owns.
#[derive(Clone)]
pub struct Lent {
    pub kiosk: Kiosk,
    pub table: Vec<u64>,
    pub journal: Vec<u8>,
}

impl Lent {
    /// Nothing created yet.
    pub fn new(area: usize) -> Lent {
        Lent {
            kiosk: Kiosk::default(),
            table: vec![u64::MAX; TABLE],
            journal: vec![JUNK; area],
        }
    }

    /// Second's state, where it can hold this one.
    pub fn state(&self) -> Option<State> {
        state(&self.kiosk)
    }
}

/// Engines that are each held against second.
#[derive(Clone, Copy)]
pub struct Sides<'a>(pub &'a [Engine]);

impl Sides<'_> {
    pub fn create(&self, powers: &[u16], own: usize, height: u32, lent: &mut Lent) -> Made {
        let before = lent.journal.clone();
        let made = second::create(powers, own, height, &mut lent.journal);
        let right = Made {
            number: made.number.into(),
            used: made.used,
        };
        for engine in self.0 {
            let mut journal = before.clone();
            let is = (engine.create)(powers, own, height, &mut journal);
            assert_eq!(is, right, "{}: creating", engine.name);
            same(engine, "journal after creating", &journal, &lent.journal);
        }
        right
    }

    /// Opens the first `used` bytes; what is lent is as second leaves it.
    pub fn open(&self, used: usize, lent: &mut Lent) -> Reply {
        let before = lent.table.clone();
        let right = flat_reply(&second::open(&lent.journal, used, &mut lent.table));
        for engine in self.0 {
            let mut table = before.clone();
            let is = (engine.open)(&lent.journal, used, &mut table);
            assert_eq!(is, right, "{}: opening {used} bytes", engine.name);
            same(engine, "table after opening", &table, &lent.table);
        }
        lent.kiosk = right.kiosk;
        right
    }

    /// Opens and says it again in an area of so many bytes; gives the reply and the area, as second leaves it.
    pub fn again(&self, used: usize, lent: &mut Lent, room: usize) -> (Reply, Vec<u8>) {
        let before = lent.table.clone();
        let mut said = vec![JUNK; room];
        let right = second::say_again(&lent.journal, used, &mut lent.table, &mut said);
        let right = flat_reply(&right);
        for engine in self.0 {
            let (mut table, mut area) = (before.clone(), vec![JUNK; room]);
            let is = (engine.again)(&lent.journal, used, &mut table, &mut area);
            let name = engine.name;
            assert_eq!(is, right, "{name}: {used} bytes said again in {room}");
            same(engine, "table after saying it again", &table, &lent.table);
            same(engine, "area after saying it again", &area, &said);
        }
        lent.kiosk = right.kiosk;
        (right, said)
    }

    /// The reply, and the lines of the rules that fired.
    pub fn put(&self, input: &Input, lent: &mut Lent) -> (Reply, Vec<u8>) {
        let before = lent.kiosk;
        let copies: Vec<Lent> = self.0.iter().map(|_| lent.clone()).collect();
        let (right, fired) = right_put(input, lent);
        for (engine, mut copy) in self.0.iter().zip(copies) {
            let put = engine.put;
            let is = put(
                &before,
                &flat_input(input),
                &mut copy.table,
                &mut copy.journal,
            );
            assert_eq!(is, right, "{}: putting {input:?}", engine.name);
            same(engine, "table after putting", &copy.table, &lent.table);
            same(
                engine,
                "journal after putting",
                &copy.journal,
                &lent.journal,
            );
        }
        lent.kiosk = right.kiosk;
        (right, fired)
    }

    /// Only its start and the used length make the last group.
    pub fn last(&self, lent: &Lent) {
        let mut state = State::unopened();
        (state.used, state.last) = (lent.kiosk.used, lent.kiosk.last);
        let right = part(&lent.kiosk, second::last(&state, &lent.journal));
        for engine in self.0 {
            let is = (engine.last)(&lent.kiosk, &lent.journal);
            assert_eq!(is, right, "{}: the last group", engine.name);
        }
    }

    /// A kiosk that has created and opened its journal in a roomy area.
    pub fn opened(&self, market: &Market) -> Lent {
        let mut lent = Lent::new(second::roomy(market.powers.len()));
        let made = self.create(&market.powers, market.own, market.height, &mut lent);
        assert_eq!(
            (made.number, self.open(made.used, &mut lent).number),
            (0, 0)
        );
        lent
    }

    /// So many puts, or a few more than it takes to settle; gives how many. Each has room for its group and little more, so that
    /// comparing all that is lent takes less time; the journal stays within its roomy size all the same.
    pub fn deliver(
        &self,
        delivery: &mut Delivery,
        lent: &mut Lent,
        puts: usize,
        met: &mut Met,
    ) -> usize {
        let mut after_settling = 0;
        for done in 0..puts {
            if lent.kiosk.phase == flat::SETTLED {
                after_settling += 1;
                if after_settling > 3 {
                    return done;
                }
            }
            lent.journal.resize(lent.kiosk.used + SPARE, JUNK);
            let state = lent.state().expect("a state that calls left");
            let input = delivery.input(&state, &lent.table);
            let answer = self.put(&input, lent);
            assert!(lent.kiosk.used <= second::roomy(lent.kiosk.kiosks));
            self.last(lent);
            met.put(&answer);
            if answer.0.number == 0 {
                delivery.taken.push(input);
            }
        }
        puts
    }

    /// A delivery, and what is lent after so many of its puts.
    pub fn delivered(
        &self,
        seed: usize,
        kiosks: usize,
        puts: usize,
        met: &mut Met,
    ) -> (Delivery, Lent) {
        let mut delivery = Delivery::new(seed as u64, AIMS[seed % 4]);
        let mut lent = self.opened(&delivery.market(kiosks));
        self.deliver(&mut delivery, &mut lent, puts, met);
        (delivery, lent)
    }

    /// The same when the next group would go over `BOUND`, or nothing more comes.
    pub fn bounded(&self, seed: usize) -> (Delivery, Lent) {
        let met = &mut Met::default();
        let (mut delivery, mut lent) = self.delivered(seed, 1 + seed * 7 % 32, 1, met);
        let mut puts = 0;
        while lent.kiosk.used < BOUND - 98 && puts < 100 && lent.kiosk.phase != flat::SETTLED {
            self.deliver(&mut delivery, &mut lent, 1, met);
            puts += 1;
        }
        (delivery, lent)
    }
}

/// A state that second cannot hold is refused with 1.
fn right_put(input: &Input, lent: &mut Lent) -> (Reply, Vec<u8>) {
    match lent.state() {
        Some(state) => {
            let (reply, fired) =
                second::put_traced(&state, input, &mut lent.table, &mut lent.journal);
            (flat_reply(&reply), fired)
        }
        None => {
            let refused = Reply {
                number: 1,
                kiosk: lent.kiosk,
                ..Reply::default()
            };
            (refused, Vec::new())
        }
    }
}

/// Says the first place that differs.
fn same<T: PartialEq + std::fmt::Debug>(engine: &Engine, what: &str, is: &[T], right: &[T]) {
    if is != right {
        let at = is.iter().zip(right).position(|(is, right)| is != right);
        let at = at.unwrap_or(is.len().min(right.len()));
        let name = engine.name;
        panic!(
            "{name}: {what}: {:?} at {at}, second has {:?}",
            is.get(at),
            right.get(at)
        );
    }
}
