//! The program `second`: its listing, its usage text, and a closed pipe.

mod common;
use common::*;
use second::*;
use std::io::Write;
use std::process::{Command, Output as Ended, Stdio};

fn program(arguments: &[&str]) -> Command {
    let mut command = Command::new(env!("CARGO_BIN_EXE_second"));
    command
        .args(arguments)
        .stdin(Stdio::piped())
        .stdout(Stdio::piped())
        .stderr(Stdio::piped());
    command
}

fn run(arguments: &[&str], bytes: &[u8]) -> Ended {
    let mut child = program(arguments).spawn().unwrap();
    // The program may end without reading.
    let _ = child.stdin.take().unwrap().write_all(bytes);
    child.wait_with_output().unwrap()
}

fn journal() -> Vec<u8> {
    let mut bench = Bench::four();
    bench.outputs(&start(1, 9));
    bench.outputs(&proposal(1, 1, 0, 50, -1, 1));
    bench.journal[..bench.state.used].to_vec()
}

#[test]
fn prints_the_listing() {
    for bytes in [
        journal(),
        journal()[..60].to_vec(),
        Vec::new(),
        vec![33],
        vec![1; 28_499],
        vec![1; 28_500],
        vec![1; 300_000],
    ] {
        let ended = run(&["list"], &bytes);
        assert_eq!(ended.status.code(), Some(0));
        assert_eq!(ended.stdout, listing(&bytes));
        assert!(ended.stderr.is_empty());
    }
    assert_eq!(run(&["list"], &[33]).stdout, b"refused 14 at 0\n");
    assert_eq!(run(&["list"], &[1; 300_000]).stdout, b"refused 1\n");
}

#[test]
fn any_other_command_line_is_usage() {
    for arguments in [&[][..], &["List"], &["list", "list"], &["--help"], &[""]] {
        let ended = run(arguments, &journal());
        assert_eq!(ended.status.code(), Some(2));
        assert!(ended.stdout.is_empty());
        assert!(ended.stderr.starts_with(b"usage: "));
    }
}

#[test]
fn a_closed_pipe_is_no_panic() {
    let mut child = program(&["list"]).spawn().unwrap();
    drop(child.stdout.take());
    child.stdin.take().unwrap().write_all(&journal()).unwrap();
    let ended = child.wait_with_output().unwrap();
    assert_eq!(ended.status.code(), Some(1));
    assert!(!String::from_utf8_lossy(&ended.stderr).contains("panicked"));
}
