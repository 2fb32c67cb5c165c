//! Heights to measure: kiosk 0 of so many hears all others vote, for nil until the last round, which settles.

use compare::inputs::{precommit, prevote, proposal, start, timer};
use compare::terms::flat_input;
use flat::{Input, Kiosk, RUNNING, TABLE};

const HEIGHT: u32 = 1;
const SHEET: u64 = 0x1234_5678_9abc_def0;

/// Lent things, and inputs that are accepted from there one after the other.
#[derive(Clone)]
pub struct Height {
    pub kiosk: Kiosk,
    pub table: Vec<u64>,
    pub journal: Vec<u8>,
    pub inputs: Vec<Input>,
}

/// At the beginning of the last round, whose inputs are still to come.
pub fn before(kiosks: u8, last_round: u8) -> Height {
    let others = 1..kiosks;
    let mut journal = vec![0; second::roomy(usize::from(kiosks))];
    let mut table = vec![0; TABLE];
    let mut kiosk = Kiosk::default();
    let made = fast::create(&vec![1; usize::from(kiosks)], 0, HEIGHT, &mut journal);
    fast::open(&journal, made.used, &mut table, &mut kiosk);
    let mut inputs = vec![start(HEIGHT, 0)];
    for round in 0..last_round {
        inputs.push(timer(HEIGHT, 5, round));
        inputs.extend(others.clone().map(|seat| prevote(HEIGHT, seat, round, 0)));
        inputs.extend(others.clone().map(|seat| precommit(HEIGHT, seat, round, 0)));
        inputs.push(timer(HEIGHT, 7, round));
    }
    let settling = inputs.len();
    let proposer = ((HEIGHT + u32::from(last_round)) % u32::from(kiosks)) as u8;
    inputs.push(proposal(HEIGHT, proposer, last_round, SHEET, -1, 1));
    inputs.extend(
        others
            .clone()
            .map(|seat| prevote(HEIGHT, seat, last_round, SHEET)),
    );
    inputs.extend(others.map(|seat| precommit(HEIGHT, seat, last_round, SHEET)));
    let mut inputs: Vec<Input> = inputs.iter().map(flat_input).collect();
    let rest = inputs.split_off(if last_round == 0 { 0 } else { settling });
    for input in inputs {
        assert_eq!(
            fast::put(&mut kiosk, &input, &mut table, &mut journal).number,
            0
        );
        assert_eq!(kiosk.phase, RUNNING);
    }
    let mut height = Height {
        kiosk,
        table,
        journal,
        inputs: rest,
    };
    let accepted = after(&height).1;
    height.inputs.truncate(accepted);
    height
}

/// The settled height, and how many of the inputs it took.
pub fn after(before: &Height) -> (Height, usize) {
    let mut height = before.clone();
    for (done, input) in before.inputs.iter().enumerate() {
        if height.kiosk.phase == flat::SETTLED {
            return (height, done);
        }
        assert_eq!(
            fast::put(
                &mut height.kiosk,
                input,
                &mut height.table,
                &mut height.journal
            )
            .number,
            0
        );
    }
    assert_eq!(height.kiosk.phase, flat::SETTLED);
    (height, before.inputs.len())
}
