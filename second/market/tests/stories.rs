//! The told stories are those kept in stories/, byte for byte.

mod common;
use common::played;
use market::story::{Story, NAMES};
use market::transcript::transcript;
use std::path::Path;

#[test]
fn every_story_is_told_as_it_is_kept() {
    for name in NAMES {
        let file = Path::new(env!("CARGO_MANIFEST_DIR")).join(format!("stories/{name}.txt"));
        let kept = std::fs::read_to_string(&file).expect("a kept story");
        let told = transcript(&played(&Story::told(name).expect("named")));
        let differing = kept
            .lines()
            .zip(told.lines())
            .find(|(kept, told)| kept != told);
        assert!(
            kept == told,
            "{name} is told otherwise than kept (`make stories` writes it anew): {differing:?}"
        );
    }
}

/// What each story is there to show, so that writing them anew cannot lose it.
#[test]
fn the_kept_stories_show_what_they_are_named_for() {
    let shows = [
        ("plain", "all settled in 1"),
        ("silent-proposer", "1 silent"),
        ("silent-proposer", "says prevote for nil"),
        ("power-cut", "LOSES POWER in the middle of the call"),
        ("power-cut", "has power again and opens its journal"),
        ("power-cut", "again it says prevote for sheet 101"),
        ("unsent-vote", "38 of the group's 38 bytes are in the file"),
        ("unsent-vote", "again it says prevote for sheet 101"),
        (
            "unsent-vote",
            "hears prevote of 2, round 0, sheet 101: accepted",
        ),
        ("two-faced-proposer", "BREAKS THE RULES: says proposal"),
        ("two-faced-proposer", "refused 9, heard otherwise"),
        ("left-behind", "kiosk 2 has not settled"),
        ("full-partition", "refused 12, no room"),
        ("full-partition", "has room again"),
        ("market-of-28", "rule-breakers hold 9 of 28"),
        ("market-of-28", "kiosks           19 settled, 0 left behind"),
        ("demo", "LOSES POWER in the middle of the call"),
        ("demo", "the radio loses it"),
    ];
    for (name, words) in shows {
        let file = Path::new(env!("CARGO_MANIFEST_DIR")).join(format!("stories/{name}.txt"));
        let kept = std::fs::read_to_string(&file).expect("a kept story");
        assert!(kept.contains(words), "{name} does not show `{words}`");
        assert!(kept.contains("disagreements    0"), "{name}");
    }
}
