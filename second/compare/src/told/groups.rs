//! Opening: groups that are whole, cut short or damaged.

use super::opening::{changed, four, opens};
use super::scene::{offering, Scene, LONG};
use super::teller::Teller;
use second::Input;

pub fn tell(tell: &mut Teller) {
    let openings = &mut tell.file.openings;
    openings.about("Groups that are whole, unfinished or damaged");
    first_group(tell);
    damage(tell);
    refused_inputs(tell);
    second_group(tell);
    settled(tell);
}

/// A header and the group of the start, which asks for a timer: 38 bytes from place 15 on.
pub fn started() -> Vec<u8> {
    let k = four();
    k.clone().after(offering(LONG, k.start())).written
}

/// "Fewer than 25 bytes left: unfinished if the first is 24"; "too few means unfinished".
fn first_group(tell: &mut Teller) {
    let bytes = started();
    assert_eq!(bytes.len(), 15 + 38);
    for left in [1, 24, 25, 26, 37, 38] {
        opens(tell, 0, 0, &bytes[..15 + left]);
    }
    // Whatever follows that byte.
    let spoilt = changed(&bytes, &[(16, 99), (15 + 7, 1)]);
    opens(tell, 0, 0, &spoilt[..15 + 24]);
    opens(tell, 14, 15, &spoilt[..15 + 25]);
    for first in [23, 25] {
        let bytes = changed(&bytes, &[(15, first)]);
        opens(tell, 14, 15, &bytes[..16]);
        opens(tell, 14, 15, &bytes);
    }
}

/// Its zeros, its count, its outputs: "as far as they go".
fn damage(tell: &mut Teller) {
    let bytes = started();
    for zero in [6, 7, 8] {
        let bytes = changed(&bytes, &[(15 + zero, 1)]);
        opens(tell, 14, 15, &bytes[..15 + 25]);
    }
    for count in [0, 2] {
        let bytes = changed(&bytes, &[(15 + 25, count)]);
        opens(tell, 14, 15, &bytes[..15 + 26]);
    }
    // Cut short after it; in the last byte.
    opens(tell, 14, 15, &changed(&bytes, &[(15 + 26, 5)])[..15 + 30]);
    opens(tell, 14, 15, &changed(&bytes, &[(15 + 29, 1)])[..15 + 30]);
    opens(tell, 14, 15, &changed(&bytes, &[(15 + 37, 1)]));
}

/// The group of an input that has no output.
fn group(input: Input) -> Vec<u8> {
    let Input {
        kind,
        sender,
        round,
        valid,
        verdict,
        name,
        offer,
        ..
    } = input;
    let head = [24, kind, sender, round, valid, verdict, 0, 0, 0];
    let tail = [name.to_le_bytes(), offer.to_le_bytes()].concat();
    [&head[..], &tail, &[0]].concat()
}

/// An input that is not accepted there, written as if it were.
fn refused_inputs(tell: &mut Teller) {
    let k = four();
    let before = [&k.written[..], &group(k.prevote(1, 0, 5))].concat();
    opens(tell, 14, 15, &before);
    let k = k.clone().after(k.start());
    let k = k.clone().after(k.prevote(0, 0, 5));
    let place = k.written.len();
    for refused in [
        k.start(),
        k.prevote(4, 0, 5),
        k.prevote(2, 0, 5),
        Input {
            sender: 3,
            ..k.proposal(0, 50, -1, 1)
        },
        k.prevote(0, 0, 5),
        k.prevote(0, 0, 6),
        k.timer(6, 0),
    ] {
        let bytes = [&k.written[..], &group(refused)].concat();
        opens(tell, 14, place, &bytes);
    }
    let bytes = [&k.written[..], &group(k.prevote(0, 1, 5))].concat();
    opens(tell, 0, 0, &bytes);
}

/// "Group damage: the place where the group starts"; what comes before is lost with it.
fn second_group(tell: &mut Teller) {
    let k = four();
    let k = k.clone().after(k.start());
    let from = k.written.len();
    let k = k.clone().after(k.proposal(0, LONG, -1, 1));
    let bytes = k.written.clone();
    opens(tell, 0, 0, &bytes);
    opens(tell, 0, 0, &bytes[..from + 10]);
    opens(tell, 14, from, &changed(&bytes, &[(from, 23)]));
    opens(tell, 14, from, &changed(&bytes, &[(bytes.len() - 1, 9)]));
    // The first group's damage is found before the second is looked at.
    let both = changed(&bytes, &[(from, 23), (from - 1, 9)]);
    opens(tell, 14, 15, &both);
    // Bytes past the used length are no part of the journal.
    tell.opens(0, &bytes, from);
    tell.opens(0, &bytes, from + 1);
}

/// "Nothing may follow settling: any byte there is damage."
fn settled(tell: &mut Teller) {
    let k = Scene::opened(&[1], 0, 7);
    let bytes = k.clone().after(offering(5, k.start())).written;
    assert_eq!(bytes.len(), 107);
    opens(tell, 0, 0, &bytes);
    opens(tell, 14, 107, &[&bytes[..], &[24]].concat());
    opens(tell, 0, 0, &bytes[..106]);
}
