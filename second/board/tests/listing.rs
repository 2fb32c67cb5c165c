//! The listing of journals, cut and damaged ones too, as second lists them.

mod common;
use common::*;
use compare::calls::JUNK;
use compare::{Met, Random};
use flat::{Page, ROOMY, TEXT};

/// The text area is written at its start alone.
fn check(journal: &[u8], text: &mut [u8]) -> Vec<u8> {
    let right = second::listing(journal);
    text.fill(JUNK);
    let page = board::list(journal, text);
    let expected = Page {
        number: 0,
        size: right.len(),
    };
    assert_eq!(page, expected);
    assert!(
        text[..page.size] == right,
        "{}",
        String::from_utf8_lossy(&text[..page.size])
    );
    assert!(
        text[page.size..].iter().all(|&byte| byte == JUNK),
        "after the text"
    );
    right
}

#[test]
fn journals() {
    let mut text = vec![0; TEXT];
    let mut random = Random(9);
    let mut met = Met::default();
    let mut check = |journal: &[u8]| {
        met.number(match check(journal, &mut text) {
            text if text.starts_with(b"refused 13") => 13,
            text if text.starts_with(b"refused 14 at") => 14,
            _ => 0,
        });
    };
    for seed in 0..64 * times() {
        let (_, mut lent) = delivered(
            seed,
            1 + seed % 32,
            20 + 4 * (seed % 32),
            &mut Met::default(),
        );
        let used = lent.kiosk.used;
        check(&lent.journal[..used]);
        for _ in 0..20 {
            let most = if random.once_in(4) { 30 } else { used };
            let at = random.below(most);
            check(&lent.journal[..at]);
            let is = lent.journal[at];
            lent.journal[at] ^= 1 << random.below(8);
            check(&lent.journal[..used]);
            lent.journal[at] = is;
        }
    }
    met.check_numbers("listings", [0, 13, 14]);
}

#[test]
fn ends_of_the_sizes() {
    let (_, lent) = delivered(0, 4, 60, &mut Met::default());
    let mut text = vec![0; TEXT + 1];
    check(&[], &mut text);
    check(&[24; ROOMY], &mut text);
    assert_eq!(check(&[24; ROOMY + 1], &mut text), b"refused 1\n");
    assert_eq!(check(&vec![0; 1 << 20], &mut text), b"refused 1\n");
    for room in [0, 1, TEXT - 1] {
        let text = &mut text[..room];
        text.fill(JUNK);
        let page = board::list(&lent.journal[..lent.kiosk.used], text);
        assert_eq!(
            page,
            Page {
                number: 12,
                size: 0
            }
        );
        assert!(text.iter().all(|&byte| byte == JUNK));
    }
}
