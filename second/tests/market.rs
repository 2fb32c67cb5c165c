//! A market with liars of less than a third of the power settles on one sheet.

mod common;
use common::market::*;
use compare::Random;
use second::*;

#[test]
fn no_two_settle_on_different_sheets() {
    let mut random = Random(2024);
    let (mut several, mut late, mut cuts) = (0, 0, 0);
    for seed in 0..1_200 {
        let (powers, liars) = cast(&mut random);
        let mut market = Market::new(seed, powers, &liars);
        market.start(&market.keepers());
        market.part();
        for _ in 0..1_000 {
            market.disorder();
        }
        several += usize::from(market.settled.len() > 1);
        late += usize::from(!market.settled.is_empty() && market.keepers().iter().any(|&at| {
            matches!(market.bench(at).state.phase, Phase::Settled(round) if round > 0)
        }));
        cuts += market.cuts;
        for at in market.keepers() {
            market.bench(at).check_reopens();
        }
    }
    println!("several settled {several}, in a later round {late}, power cuts {cuts}");
    assert!(several > 200 && late > 40 && cuts > 4_000);
}

/// Without liars: some disorder in early rounds, then everything arrives before
/// a timer runs out, and all settle, on one sheet.
#[test]
fn without_liars_all_settle() {
    let mut random = Random(4048);
    for seed in 0..100 {
        let (mut powers, _) = cast(&mut random);
        powers.truncate(5);
        if powers.iter().all(|&power| power == 0) {
            powers[0] = 1;
        }
        let mut market = Market::new(seed, powers, &[]);
        market.start(&market.keepers());
        for _ in 0..random.below(200) {
            let highest = market
                .keepers()
                .iter()
                .map(|&at| market.bench(at).state.round)
                .max();
            if highest < Some(6) {
                market.disorder();
            }
        }
        loop {
            market.deliver_all();
            let unsettled: Vec<usize> = (market.keepers().into_iter())
                .filter(|&at| market.bench(at).state.phase == Phase::Running)
                .collect();
            if unsettled.is_empty() {
                break;
            }
            let mut went_on = false;
            for at in unsettled {
                for kind in [5, 6, 7] {
                    went_on |= market.timer(at, kind);
                }
            }
            assert!(went_on, "the market stands still");
            assert!(market
                .keepers()
                .iter()
                .all(|&at| market.bench(at).state.round < 15));
        }
        assert_eq!(market.settled.len(), market.powers.len());
    }
}
