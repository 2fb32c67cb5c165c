//! Opening: a whole height, the header, and refusal 1. The groups are in `groups`.

use super::groups::{self, started};
use super::scene::{offering, Scene, LONG, MOST};
use super::teller::Teller;
use second::TABLE;
use std::collections::BTreeSet;

pub fn tell(tell: &mut Teller) {
    tell.file.openings.about("A whole height of four kiosks");
    whole_height(tell);
    tell.file.openings.about("13 and 14 in the header");
    headers(tell);
    header_order(tell);
    groups::tell(tell);
    tell.file
        .openings
        .about("1: the table's length and the used length");
    one(tell);
}

/// Opens all of these bytes, with two more in the area.
#[track_caller]
pub fn opens(tell: &mut Teller, number: u8, place: usize, bytes: &[u8]) {
    let journal = [bytes, &[24, 3]].concat();
    let reply = tell.opens(number, &journal, bytes.len());
    assert_eq!((reply.number, reply.place), (number.into(), place));
}

/// The bytes with some places changed.
pub fn changed(bytes: &[u8], changes: &[(usize, u8)]) -> Vec<u8> {
    let mut bytes = bytes.to_vec();
    for &(place, byte) in changes {
        bytes[place] = byte;
    }
    bytes
}

/// Four kiosks whose powers and height show their byte order. Round 0 is kiosk 1's turn.
pub fn four() -> Scene {
    Scene::opened(&[258, 515, 1, 772], 2, 0x0403_0209)
}

/// 15 bytes.
fn header() -> Vec<u8> {
    four().written
}

/// Every kind of input and output in a height of four kiosks.
fn height() -> Scene {
    let k = Scene::opened(&[300, 200, 299, 201], 3, u32::MAX - 1);
    let k = k.clone().after(k.start());
    // Kiosk 2 proposes; nobody backs it.
    let k = k.clone().after(offering(LONG, k.proposal(0, MOST, -1, 1)));
    let k = k.clone().after(k.prevote(0, 0, 0));
    let k = k.clone().after(k.prevote(1, 0, LONG));
    let k = k.clone().after(offering(MOST, k.timer(6, 0)));
    let k = k.clone().after(k.precommit(0, 0, MOST));
    let k = k.clone().after(k.precommit(1, 0, 0));
    // The own turn.
    let k = k.clone().after(offering(MOST - 1, k.timer(7, 0)));
    let k = k.clone().after(k.prevote(2, 1, MOST - 1));
    let k = k.clone().after(k.prevote(0, 1, MOST - 1));
    // Two are some in round 6, kiosk 0's.
    let k = k.clone().after(k.precommit(1, 6, 0));
    let k = k.clone().after(k.prevote(2, 6, 0));
    let k = k.clone().after(k.timer(5, 6));
    let k = k.clone().after(k.precommit(0, 1, MOST - 1));
    k.clone().after(k.precommit(2, 1, MOST - 1))
}

fn whole_height(tell: &mut Teller) {
    let whole = height();
    let bytes = &whole.written;
    assert_eq!(kinds(bytes), 14);
    let reply = tell.opens(0, bytes, bytes.len());
    assert_eq!(reply.kiosk, whole.kiosk);
    assert_eq!(reply.kiosk.phase, flat::SETTLED);
    // Without its last bytes it is as it was before that call.
    opens(tell, 0, 0, &bytes[..bytes.len() - 1]);
    opens(tell, 14, bytes.len(), &[bytes, &[24][..]].concat());
}

/// How many of the kinds of inputs and outputs a journal has.
fn kinds(bytes: &[u8]) -> usize {
    let text = String::from_utf8(second::listing(bytes)).expect("a listing");
    let words = text.lines().skip(1).map(|line| {
        let (first, rest) = line.split_once(' ').expect("words");
        let word = rest.split(' ').next();
        (first == "out", word)
    });
    // The last line is no call's.
    words.collect::<BTreeSet<_>>().len() - 1
}

/// "No first byte 13; .. too short 13".
fn headers(tell: &mut Teller) {
    let header = header();
    for cut in [0, 1, 8, 14] {
        opens(tell, 13, 0, &header[..cut]);
    }
    opens(tell, 0, 0, &header);
    tell.opens(0, &header, 15);
    let thirty_two = Scene::opened(&[1_000; 32], 31, u32::MAX).written;
    opens(tell, 0, 0, &thirty_two);
    opens(tell, 13, 0, &thirty_two[..70]);
    opens(tell, 14, 65, &changed(&thirty_two, &[(66, 32)]));
    opens(tell, 0, 0, &Scene::opened(&[1], 0, 0).written);
}

/// "N not 1 to 32, 14 at 0; too short 13; a bad power or total 14 at 1; a bad second section 14 at 1 + 2n."
fn header_order(tell: &mut Teller) {
    let header = header();
    opens(tell, 14, 0, &[0]);
    opens(tell, 14, 0, &[33]);
    opens(tell, 13, 0, &[32, 255, 255, 255]);
    opens(tell, 14, 0, &changed(&header, &[(0, 0), (9, 4)]));
    opens(tell, 14, 0, &changed(&header, &[(0, 33), (2, 255)]));
    opens(tell, 13, 0, &changed(&header, &[(0, 5), (2, 255)]));
    // 1,000 is 0x03e8; the first and the last of the roll.
    for low in [1, 7] {
        opens(tell, 0, 0, &changed(&header, &[(low, 0xe8), (low + 1, 3)]));
        let over = changed(&header, &[(low, 0xe9), (low + 1, 3)]);
        opens(tell, 14, 1, &over);
    }
    let powerless = Scene::opened(&[0, 1], 1, 5).written;
    opens(tell, 0, 0, &powerless);
    opens(tell, 14, 1, &changed(&powerless, &[(3, 0)]));
    opens(tell, 14, 1, &changed(&powerless, &[(3, 0), (5, 6)]));
    opens(tell, 14, 9, &changed(&header, &[(9, 4)]));
    opens(tell, 14, 9, &changed(&header, &[(9, 6)]));
    opens(tell, 14, 9, &changed(&header, &[(10, 4)]));
    opens(tell, 0, 0, &changed(&header, &[(10, 3)]));
    // With more after it, the header comes first.
    let more = [&header[..], &[23]].concat();
    opens(tell, 14, 9, &changed(&more, &[(9, 6)]));
    opens(tell, 14, 15, &more);
}

/// "1 for a wrong table length or a used length over the area, table unchanged".
fn one(tell: &mut Teller) {
    let bytes = started();
    let mut table = vec![0; TABLE];
    table[3] = 7;
    tell.opens_in(1, &bytes, 54, table.clone());
    tell.opens_in(1, &bytes, usize::MAX, table.clone());
    tell.opens_in(1, &[], 1, table.clone());
    for length in [1_039, 1_041, 4] {
        table.resize(length, 0);
        tell.opens_in(1, &bytes, 53, table.clone());
    }
    tell.opens_in(1, &bytes, 54, table);
    // An empty journal is none.
    tell.opens(13, &[], 0);
    tell.opens(13, &[4, 1], 0);
}
