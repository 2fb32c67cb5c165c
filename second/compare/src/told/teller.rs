//! Puts each call to second, checks that it does what it is there for, and writes it down.

use super::file::File;
use super::scene::Scene;
use super::words;
use crate::terms::{flat_reply, state};
use flat::{Kiosk, Reply, TABLE};
use second::{Input, State};

#[derive(Default)]
pub struct Teller {
    pub file: File,
}

/// The bytes past a call's group, and past the used length where it is refused for something else than room.
const SPARE: usize = 2;

/// The longest group: six outputs.
const GROUP: usize = 26 + 6 * 12;

/// What stands in an area before anything is written there: never 0, so that a byte that is not kept shows.
fn filler(call: usize, length: usize) -> Vec<u8> {
    (0..length)
        .map(|place| ((7 * call + 3 * place) % 97 + 1) as u8)
        .collect()
}

impl Teller {
    /// An area of so many bytes for the next call.
    fn area(&self, scene: &Scene, length: usize) -> Vec<u8> {
        let mut area = filler(self.file.calls.count, length);
        let kept = scene.written.len().min(length);
        area[..kept].copy_from_slice(&scene.written[..kept]);
        area
    }

    /// An accepted call and the rules that fire in it; gives what it leaves.
    #[track_caller]
    pub fn fires(&mut self, rules: &[u8], scene: &Scene, input: Input) -> Scene {
        let state = state(&scene.kiosk).expect("a state of second's");
        // Once with room enough, and again with as much as its group needs.
        let mut roomy = self.area(scene, state.used + GROUP);
        let (first, fired) =
            second::put_traced(&state, &input, &mut scene.table.clone(), &mut roomy);
        assert_eq!((first.number, &fired[..]), (0, rules), "{input:?}");
        let before = self.area(scene, scene.area.unwrap_or(first.state.used + SPARE));
        let (mut table, mut journal) = (scene.table.clone(), before.clone());
        let reply = second::put(&state, &input, &mut table, &mut journal);
        assert_eq!(reply, first);
        let reply = flat_reply(&reply);
        self.file.calls.add(&[
            format!("puts {}", words::input(&input)),
            words::kiosk(&scene.kiosk),
            words::table(&scene.table),
            words::numbers(&before),
            words::reply(&reply),
            words::table(&table),
            words::numbers(&journal),
        ]);
        journal.truncate(reply.kiosk.used);
        Scene {
            kiosk: reply.kiosk,
            table,
            written: journal,
            area: None,
        }
    }

    /// A refused call: "leaves state, table and journal unchanged".
    #[track_caller]
    pub fn refuses(&mut self, number: u8, scene: &Scene, input: Input) {
        let before = self.refused_area(scene);
        let state = state(&scene.kiosk).expect("a state of second's");
        let (mut table, mut journal) = (scene.table.clone(), before.clone());
        let reply = second::put(&state, &input, &mut table, &mut journal);
        assert_eq!((reply.number, reply.place), (number, 0), "{input:?}");
        assert!(reply.outputs.is_empty() && reply.state == state);
        assert!(table == scene.table && journal == before);
        self.refusal(number, scene, &input, &before);
    }

    /// Refusal 1 for a number that second's state cannot hold: a phase or step that there is not, a settled round where
    /// not settled, or a mark that is neither 0 nor 1.
    #[track_caller]
    pub fn cannot_be(&mut self, scene: &Scene, input: Input) {
        assert!(state(&scene.kiosk).is_none());
        let before = self.refused_area(scene);
        self.refusal(1, scene, &input, &before);
    }

    fn refused_area(&self, scene: &Scene) -> Vec<u8> {
        self.area(
            scene,
            scene.area.unwrap_or_else(|| scene.kiosk.used + SPARE),
        )
    }

    fn refusal(&mut self, number: u8, scene: &Scene, input: &Input, journal: &[u8]) {
        self.file.calls.add(&[
            format!("refuses {number} {}", words::input(input)),
            words::kiosk(&scene.kiosk),
            words::table(&scene.table),
            words::numbers(journal),
        ]);
    }

    /// Opens the first `used` bytes with a table that holds something.
    #[track_caller]
    pub fn opens(&mut self, number: u8, journal: &[u8], used: usize) -> Reply {
        let mut table = vec![0; TABLE];
        let count = self.file.openings.count;
        table[137 * (count + 1) % TABLE] = 9 + count as u64;
        table[TABLE - 1] = 1;
        self.opens_in(number, journal, used, table)
    }

    #[track_caller]
    pub fn opens_in(&mut self, number: u8, journal: &[u8], used: usize, before: Vec<u64>) -> Reply {
        let mut table = before.clone();
        let reply = second::open(journal, used, &mut table);
        assert_eq!(reply.number, number);
        assert!(number == 0 || reply.state == State::unopened());
        let reply = flat_reply(&reply);
        self.file.openings.add(&[
            format!("opens {} {used}", words::numbers(journal)),
            words::table(&before),
            words::reply(&reply),
            words::table(&table),
        ]);
        reply
    }

    #[track_caller]
    pub fn creates(&mut self, number: u8, powers: &[u16], own: usize, height: u32, area: usize) {
        let before = filler(self.file.creatings.count, area);
        let mut journal = before.clone();
        let made = second::create(powers, own, height, &mut journal);
        assert_eq!(made.number, number);
        self.file.creatings.add(&[
            format!("creates {} {own} {height}", words::numbers(powers)),
            words::numbers(&before),
            format!("(made {number} {})", made.used),
            words::numbers(&journal),
        ]);
    }

    /// The last group of a state, in an area of so many bytes: where it starts, and how many bytes it has.
    #[track_caller]
    pub fn shows(&mut self, kiosk: &Kiosk, area: usize, (from, count): (usize, usize)) {
        // No two places of so short an area hold the same byte, so the bytes say where they stand.
        assert!(area <= 97);
        let journal = filler(0, area);
        let mut state = State::unopened();
        (state.used, state.last) = (kiosk.used, kiosk.last);
        assert_eq!(second::last(&state, &journal), &journal[from..from + count]);
        self.file.showings.add(&[format!(
            "shows {} {area} (part {from} {count})",
            words::kiosk(kiosk)
        )]);
    }
}
