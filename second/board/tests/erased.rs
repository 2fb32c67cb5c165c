//! The header's way to open a journal on erased flash, whose bytes are 0xFF until they are written: at every cut of journals with names that
//! end in 0xFF.

mod common;
use common::{delivered, times, SIDES};
use compare::{Lent, Met};
use flat::Reply;

const ERASED: u8 = 0xff;

/// The sheets of a delivery as names that end in 0xFF: all eight bytes, the last, and none.
fn renamed(name: u64) -> u64 {
    match name {
        40 => u64::MAX,
        41 => 0xff << 56,
        9 => 0xffff << 48 | 9,
        name => name,
    }
}

/// The place after the last byte that is not erased.
fn trimmed(lent: &Lent) -> usize {
    let last = lent.journal.iter().rposition(|&byte| byte != ERASED);
    last.map_or(0, |at| at + 1)
}

fn open(length: usize, lent: &mut Lent) -> Reply {
    board::open(&lent.journal, length, &mut lent.table)
}

/// The header's words.
fn open_erased(lent: &mut Lent) -> Reply {
    let left = trimmed(lent);
    let reply = open(left, lent);
    if reply.number != 0 || reply.kiosk.used == left {
        return reply;
    }
    for length in left + 1..=(left + 8).min(lent.journal.len()) {
        let reply = open(length, lent);
        if reply.kiosk.used == length {
            return reply;
        }
    }
    open(left, lent)
}

/// A delivery's journal with such names.
fn journal(seed: usize) -> Lent {
    let (mut delivery, mut lent) = delivered(seed, 1 + seed % 5, 0, &mut Met::default());
    for _ in 0..60 {
        let state = lent.state().expect("a state that calls left");
        let mut input = delivery.input(&state, &lent.table);
        (input.name, input.offer) = (renamed(input.name), renamed(input.offer));
        SIDES.put(&input, &mut lent);
        if lent.kiosk.used > 600 {
            break;
        }
    }
    lent
}

#[test]
fn every_cut() {
    let (mut cuts, mut whole_in_ff, mut lost, mut damaged) = (0, 0, 0, 0);
    for seed in 0..10 * times() {
        let written = journal(seed);
        for cut in 0..=written.kiosk.used {
            let mut flash = Lent::new(written.journal.len());
            flash.journal.fill(ERASED);
            flash.journal[..cut].copy_from_slice(&written.journal[..cut]);
            let is = open_erased(&mut flash);
            let header = 7 + 2 * written.kiosk.kiosks;
            if trimmed(&flash) < header {
                assert_eq!(is.number, 13);
                assert!(cut <= header, "a group stands behind the header");
                continue;
            }
            // The 0xFF that were still to be written stand there.
            let still = written.journal[cut..written.kiosk.used].iter();
            let stand = cut + still.take_while(|&&byte| byte == ERASED).count();
            let mut plain = flash.clone();
            let right = open(stand, &mut plain);
            assert_eq!(is, right, "seed {seed}, cut {cut}");
            assert_eq!((is.number, &flash.table), (0, &plain.table));
            cuts += 1;
            whole_in_ff += usize::from(
                right.kiosk.used == stand && flash.journal[..stand].ends_with(&[ERASED]),
            );
            // What the two shorter ways give: the erased bytes opened too, or all 0xFF left out.
            let area = flash.journal.len();
            damaged += usize::from(open(area, &mut flash).number == 14);
            let short = open(trimmed(&flash), &mut flash);
            lost += usize::from(short.kiosk.used < right.kiosk.used);
        }
    }
    println!("{cuts} cuts, {whole_in_ff} behind a whole group that ends in 0xFF; {lost} lose a group where all 0xFF are left out");
    assert!(whole_in_ff > 0 && lost > 0);
    assert_eq!(damaged, cuts);
}
