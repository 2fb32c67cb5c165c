//! The kept list of calls with their whole replies is the one that second gives today.

use std::path::Path;

/// `rt fmt` lays the file out: only its words count.
fn words(text: &str) -> Vec<&str> {
    text.split_whitespace().collect()
}

#[test]
fn the_told_calls_are_those_of_today() {
    let kept = Path::new(env!("CARGO_MANIFEST_DIR")).join("../crates/examples/proofs/Told.antt");
    let kept = std::fs::read_to_string(kept).expect("the kept list");
    let today = compare::told::text();
    let (kept, today) = (words(&kept), words(&today));
    let at = kept.iter().zip(&today).position(|(is, right)| is != right);
    let at = at.unwrap_or(kept.len().min(today.len()));
    assert!(
        kept == today,
        "Told.antt differs at word {at}: {:?}, today {:?}; `make told` writes it anew",
        kept.get(at),
        today.get(at)
    );
}
