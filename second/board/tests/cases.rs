//! The fuzzer's kept cases, played again.

mod common;
use common::*;
use compare::bytes::play;
use std::path::Path;

#[test]
fn kept_cases() {
    let folder = Path::new(env!("CARGO_MANIFEST_DIR")).join("../fuzz/cases");
    let (mut cases, mut refused, mut calls) = (0, 0, 0);
    for entry in std::fs::read_dir(folder).expect("fuzz/cases") {
        let path = entry.unwrap().path();
        let bytes = std::fs::read(&path).unwrap();
        cases += 1;
        match std::panic::catch_unwind(|| play(SIDES, &bytes)) {
            Ok(Some(after)) => calls += after,
            Ok(None) => refused += 1,
            Err(_) => panic!("{}", path.display()),
        }
    }
    println!("{cases} cases, {refused} with a refused opening, {calls} calls after the others");
    assert!(refused > 0 && calls > 0);
}
