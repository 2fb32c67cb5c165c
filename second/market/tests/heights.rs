//! Small heights drawn from seeds: the checks hold, the same seed is the same story, and too many rule-breakers are seen.

mod common;
use common::played;
use market::counts::Counts;
use market::page::page;
use market::story::{Story, Wishes};
use market::transcript::transcript;

const HEIGHTS: u64 = 24;

#[test]
fn drawn_heights_settle_on_one_sheet() {
    let mut sum = Counts::default();
    for seed in 1..=HEIGHTS {
        let story = Story::drawn(seed, Wishes::default());
        let played = played(&story);
        let honest = story.breakers.iter().all(Option::is_none);
        let agreeing = story.judges_bad == 0 && story.without_offer.is_none();
        if honest && agreeing {
            assert_eq!(
                played.counts.kiosks_left, 0,
                "seed {seed}: all keep the rules and judge alike, and not all settle"
            );
        }
        sum += &played.counts;
    }
    println!("{sum}");
    assert_eq!((sum.heights, sum.disagreements), (HEIGHTS, 0));
    let tried = [
        sum.cuts_between,
        sum.part_left,
        sum.whole_left,
        sum.said_again,
        sum.asked_again,
        sum.lies,
        sum.lost,
        sum.repeated,
        sum.refused[8],
        sum.refused[9],
        sum.refused[12],
    ];
    assert!(
        tried.iter().all(|&count| count > 0),
        "these heights do not try everything: {tried:?}"
    );
    assert!(sum.all_settled * 2 > HEIGHTS, "most heights settle");
}

#[test]
fn the_same_seed_is_the_same_story_byte_for_byte() {
    for seed in [3, 11] {
        let story = Story::drawn(seed, Wishes::default());
        let (one, other) = (played(&story), played(&story));
        assert_eq!(transcript(&one), transcript(&other), "seed {seed}");
        assert_eq!(page(&one), page(&other), "seed {seed}");
        assert_eq!(one.listings, other.listings, "seed {seed}");
    }
}

/// With half of the kiosks dishonest two sheets are settled, and the market says so: what the check looks for can happen.
#[test]
fn half_the_kiosks_dishonest_bring_two_sheets() {
    let wishes = Wishes {
        kiosks: Some(4),
        dishonest: Some(2),
        over_a_third: true,
    };
    let found = (1..=12)
        .map(|seed| played(&Story::drawn(seed, wishes)))
        .find(|played| played.disagreement.is_some());
    let text = transcript(&found.expect("in one of twelve heights"));
    assert!(text.contains("DISAGREEMENT: kiosk"), "{text}");
    assert!(text.contains("A THIRD OR MORE"), "{text}");
}
