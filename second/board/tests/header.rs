//! What the header says in numbers: lengths by kiosks and outputs, the stack, and what the library needs from C.

mod common;
use board::{BOARD, LIBRARY};
use common::{c, delivered, SIDES};
use compare::Met;
use std::process::Command;

/// The header's lengths beside the library's own, second's and those of 01.
#[test]
fn lengths() {
    let mut right = Vec::new();
    for kiosks in 1..=flat::KIOSKS {
        let mut journal = vec![0; 100];
        let made = (BOARD.create)(&vec![1; kiosks], 0, 1, &mut journal);
        right.push(format!("{kiosks} {} {}", made.used, second::roomy(kiosks)));
    }
    right.extend(group_lengths());
    let numbers = [flat::KIOSKS, flat::ROUNDS, flat::TABLE, flat::SENT];
    right.push(numbers.map(|number| number.to_string()).join(" "));
    right.push(format!(
        "71 98 {} {} {}",
        flat::AGAIN,
        flat::ROOMY,
        flat::TEXT
    ));
    right.extend(["8 8 8 8".into(), "1.1 1".into()]);
    let is = c::run(&["second/board/header.c"]);
    assert_eq!(is.lines().collect::<Vec<_>>(), right);
    assert_eq!(flat::ROOMY, second::roomy(flat::KIOSKS));
}

/// The length of a group by its number of outputs, from deliveries that have had each, and of a list: what stands behind the input.
fn group_lengths() -> Vec<String> {
    let mut lengths = [0; flat::SENT + 1];
    for seed in 0.. {
        if lengths.iter().all(|&length| length > 0) {
            break;
        }
        let (mut delivery, mut lent) = delivered(seed, 1 + seed % 4, 0, &mut Met::default());
        for _ in 0..40 {
            SIDES.deliver(&mut delivery, &mut lent, 1, &mut Met::default());
            let kiosk = lent.kiosk;
            if kiosk.last < kiosk.used {
                lengths[usize::from(lent.journal[kiosk.last + 25])] = kiosk.used - kiosk.last;
            }
        }
    }
    let line = |(k, length)| format!("{k} {length} {}", length - 25);
    lengths.into_iter().enumerate().map(line).collect()
}

/// The stack of each call is at most what the header says, and not 64 bytes less.
#[test]
fn stack() {
    print!(
        "{}",
        c::run(&["second/board/stack.c", "second/bench/stack.c"])
    );
}

/// "Two functions of C, memcpy and memset, and nothing else"; and the calls of the header.
#[test]
fn symbols() {
    let output = Command::new("nm").arg(LIBRARY).output().expect("nm");
    let text = String::from_utf8(output.stdout).expect("text");
    let of = |kind: &str| {
        let named = |line: &str| line.split_once(kind).map(|(_, name)| name.to_string());
        let mut names: Vec<_> = text.lines().filter_map(named).collect();
        names.sort();
        names
    };
    assert_eq!(of(" U "), ["memcpy", "memset"]);
    let header = include_str!("../../../include/slipcoacher.h");
    for name in of(" T ") {
        assert!(header.contains(&format!(" {name}(")), "{name}");
    }
    for data in [" D ", " d ", " B ", " b "] {
        assert_eq!(of(data), Vec::<String>::new(), "data that changes");
    }
}
