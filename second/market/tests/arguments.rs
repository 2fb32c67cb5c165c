//! The command line: statuses, and what is said of wrong arguments and of a node that does not do its work.

mod common;
use common::{Folder, MARKET};
use std::os::unix::fs::PermissionsExt;
use std::process::{Command, Output};

fn market(arguments: &[&str]) -> Output {
    Command::new(MARKET)
        .args(arguments)
        .output()
        .expect("the program starts")
}

fn said(output: &Output) -> String {
    String::from_utf8_lossy(&output.stderr).into_owned()
}

#[test]
fn help_fits_a_screen() {
    let help = market(&["--help"]);
    let text = String::from_utf8(help.stdout).expect("text");
    assert_eq!(help.status.code(), Some(0));
    assert!(
        text.starts_with("usage: market")
            && text.lines().count() <= 24
            && text.lines().all(|line| line.len() <= 120),
        "{text}"
    );
}

#[test]
fn wrong_arguments_are_said_with_status_2() {
    let cases: [(&[&str], &str); 12] = [
        (&["--loud"], "there is no option --loud"),
        (&["--seed"], "--seed wants a value"),
        (&["--seed", "first"], "--seed wants a number, not first"),
        (
            &["--kiosks", "33"],
            "--kiosks wants a number from 1 to 32, not 33",
        ),
        (&["--heights", "0"], "--heights wants a number from 1"),
        (
            &["--story", "none"],
            "there is no story none; there are plain",
        ),
        (
            &["--story", "plain", "--kiosks", "5"],
            "a story has its own kiosks",
        ),
        (
            &["--heights", "2", "--page", "page.html"],
            "--page draws one height",
        ),
        (&["--dishonest", "1"], "--dishonest wants --kiosks too"),
        (&["--kiosks", "4", "--dishonest", "2"], "say --over-a-third"),
        (
            &["--kiosks", "2", "--dishonest", "3", "--over-a-third"],
            "cannot be dishonest",
        ),
        (&["--node", " "], "command is empty"),
    ];
    for (arguments, why) in cases {
        let output = market(arguments);
        assert_eq!(output.status.code(), Some(2), "{arguments:?}");
        assert!(
            said(&output).contains(why) && said(&output).contains("usage: market"),
            "{arguments:?}: {}",
            said(&output)
        );
        assert!(output.stdout.is_empty());
    }
}

#[test]
fn a_node_that_does_not_start_is_said() {
    let output = market(&["--seed", "5", "--node", "/no/such/node"]);
    assert_eq!(output.status.code(), Some(1));
    assert!(
        said(&output).contains("`/no/such/node` does not start"),
        "{}",
        said(&output)
    );
}

/// A node that answers and writes nothing: the seed and the command that plays it again are said, with status 1.
#[test]
fn a_node_that_sends_before_it_writes_is_caught() {
    let folder = Folder::new("liar");
    let program = folder.0.join("node");
    let script = r#"#!/bin/sh
byte() { printf "\\$(printf %03o $(($1 % 256)))"; }
header() {
    own=$1 height=$2
    shift 2
    byte $#
    for power; do byte $power; byte $((power / 256)); done
    byte 5; byte $own; byte $height; byte $((height / 256)); byte 0; byte 0
}
case $1 in
create) file=$2; shift 2; header "$@" > "$file"; echo created $((3 + 2 * $#)) ;;
run-locked) echo again 0 0; while read line; do echo accepted 0; done ;;
esac
"#;
    std::fs::write(&program, script).expect("a file");
    std::fs::set_permissions(&program, PermissionsExt::from_mode(0o755)).expect("a program");
    let output = market(&[
        "--seed",
        "5",
        "--kiosks",
        "4",
        "--node",
        &program.display().to_string(),
    ]);
    assert_eq!(output.status.code(), Some(1));
    assert!(
        said(&output).contains("The height of seed 5: the file of kiosk"),
        "{}",
        said(&output)
    );
    assert!(
        said(&output).contains("run it again: market --seed 5 --kiosks 4"),
        "{}",
        said(&output)
    );
}
