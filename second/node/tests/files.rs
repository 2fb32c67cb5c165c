//! What happens to the file: cuts, kills, a full file system, failing calls.
use node::*;
use std::fs;
use std::path::Path;
use std::process::{Command, Stdio};
use std::thread::sleep;
use std::time::Duration;

const START: &str = "start 0 0 0 -1 0 9";
const PROPOSED: &str = "proposal 1 0 50 -1 1 9";
const SECOND: &str = "prevote 2 0 50 -1 0 9";

/// A journal whose last group, of the second prevote, has two outputs: its length before that group and after it.
fn two_prevotes(file: &Path) -> (usize, usize) {
    four(file);
    let mut run = Run::new(file);
    for line in [START, PROPOSED, "prevote 1 0 50 -1 0 9"] {
        run.put(line);
    }
    let before = fs::metadata(file).unwrap().len() as usize;
    assert_eq!(run.put(SECOND), "accepted 2; out ask-prevote 0 0 -1; out precommit 0 50 -1");
    assert_eq!(run.end().0, Some(0));
    (before, fs::metadata(file).unwrap().len() as usize)
}

#[test]
fn cut_at_every_byte() {
    let folder = Folder::new();
    let file = folder.path("j");
    let (before, after) = two_prevotes(&file);
    assert_eq!(after - before, 50);
    let whole = fs::read(&file).unwrap();
    for cut in before..=after {
        fs::write(&file, &whole[..cut]).unwrap();
        let again = node(&["run"], &file, &[], &format!("{SECOND}\n"));
        let expected = if cut < after {
            "again 1 0\nout prevote 0 50 -1\naccepted 2\nout ask-prevote 0 0 -1\nout precommit 0 50 -1\n"
        } else {
            "again 2 0\nout prevote 0 50 -1\nout precommit 0 50 -1\nrefused 8\n"
        };
        assert_eq!((again.out.as_str(), again.status), (expected, Some(0)), "cut at {cut}: {}", again.err);
        assert!(fs::read(&file).unwrap() == whole, "cut at {cut}");
    }
}

/// Whether these lines stand in those, in this order.
fn in_order(few: &[String], all: &[String]) -> bool {
    let mut rest = all.iter();
    few.iter().all(|f| rest.any(|a| a == f))
}

#[test]
fn says_it_again_after_a_kill() {
    let folder = Folder::new();
    let file = folder.path("j");
    four(&file);
    let prevoted = "out prevote 0 50 -1";
    let precommitted = "out precommit 0 0 -1";
    // Between the prevote and the precommit the prevote timer is open, and the propose timer is not any more; then the other way round.
    for (lines, first, next) in [
        (&[START][..], "again 0 0".into(), "out ask-propose 0 0 -1"),
        (&[PROPOSED, "prevote 1 0 50 -1 0 9", "prevote 2 0 0 -1 0 9"], "again 0 1; out ask-propose 0 0 -1".into(), "out ask-prevote 0 0 -1"),
        (&["timer-prevote 0 0 0 -1 0 9"], format!("again 1 1; {prevoted}; out ask-prevote 0 0 -1"), precommitted),
        (&["precommit 1 0 0 -1 0 9", "precommit 2 0 0 -1 0 9"], format!("again 2 0; {prevoted}; {precommitted}"), "out ask-precommit 0 0 -1"),
        (&["timer-precommit 0 0 0 -1 0 9"], format!("again 2 1; {prevoted}; {precommitted}; out ask-precommit 0 0 -1"), "out ask-propose 1 0 -1"),
        (&["proposal 2 1 60 -1 1 9"], format!("again 2 1; {prevoted}; {precommitted}; out ask-propose 1 0 -1"), "out prevote 1 60 -1"),
        (&[], format!("again 3 0; {prevoted}; {precommitted}; out prevote 1 60 -1"), ""),
    ] {
        let before = fs::read(&file).unwrap();
        let mut run = Run::new(&file);
        assert_eq!(run.first, Some(first));
        assert!(fs::read(&file).unwrap() == before, "the journal is touched");
        let answers: Vec<String> = lines.iter().map(|line| run.put(line)).collect();
        assert!(answers.last().map_or("", String::as_str).ends_with(next), "{answers:?}");
        run.child.kill().expect("kill -9");
        run.end();
    }
}

/// What a run says first, by the listing before it, its timers aside.
fn own_again(all: &[String]) -> Vec<String> {
    let outs: Vec<(&str, i32, &String)> = all
        .iter()
        .filter(|line| line.starts_with("out "))
        .map(|line| {
            let words: Vec<&str> = line.split(' ').collect();
            (words[1], words[2].parse().expect("a round"), line)
        })
        .collect();
    let entered = |out: &&(&str, i32, &String)| ["proposal", "ask-propose"].contains(&out.0);
    let now = outs.iter().rev().find(entered).map_or(0, |out| out.1);
    let said = |out: &&(&str, i32, &String)| ["proposal", "prevote", "precommit"].contains(&out.0) && [now - 1, now].contains(&out.1);
    outs.iter().filter(said).map(|out| out.2.clone()).collect()
}

#[test]
fn killed_at_random_moments() {
    let folder = Folder::new();
    let file = folder.path("j");
    let mut seed = Seed(7);
    let mut lines = vec![START.to_string()];
    for round in 0..16 {
        for kind in ["prevote", "precommit"] {
            lines.extend((1..4).map(|sender| format!("{kind} {sender} {round} 0 -1 0 9")));
        }
    }
    let (mut said, mut kills, mut answers) = (vec![], 0, 0);
    four(&file);
    while kills < 24 {
        let own = own_again(&listing(&file));
        let mut run = Run::new(&file);
        let again = run.first.clone().expect("what it says first");
        assert!(again.starts_with(&format!("again {} ", own.len())), "{again}");
        assert!(again.split("; ").skip(1).take(own.len()).eq(&own), "{again}, in the journal {own:?}");
        for i in (2..lines.len()).rev() {
            lines.swap(i, 1 + seed.below(i as u64) as usize);
        }
        run.tell(&(lines.join("\n") + "\n"));
        let first = run.line().expect("an answer");
        sleep(Duration::from_micros(seed.below(6000)));
        run.child.kill().expect("kill -9");
        kills += 1;
        let mut heard = vec![first];
        while let Some(line) = run.line() {
            heard.push(line);
        }
        run.end();
        answers += heard.len();
        said.extend(heard.into_iter().filter(|l| l.starts_with("out ")));
        let all = listing(&file);
        let outs: Vec<String> = all.iter().filter(|l| l.starts_with("out ")).cloned().collect();
        assert!(in_order(&said, &outs), "after kill {kills}: said {said:?}, in the journal {all:?}");
        if outs.iter().any(|l| l.starts_with("out settled")) || all.len() > 100 {
            fs::remove_file(&file).unwrap();
            four(&file);
            said.clear();
        }
    }
    assert!(answers > 2 * kills, "{answers} answers in {kills} runs");
}

/// The bytes kept and the bytes there, by the listing's last line.
fn ends_whole(file: &Path) {
    let all = listing(file);
    let end: Vec<&str> = all.last().unwrap().split(' ').collect();
    assert_eq!(end[1], end[3], "{all:?}");
    assert_eq!(end[3], fs::metadata(file).unwrap().len().to_string());
}

#[test]
fn past_a_limit_on_the_size() {
    let folder = Folder::new();
    let file = folder.path("j");
    let (before, after) = two_prevotes(&file);
    let whole = fs::read(&file).unwrap();
    fs::write(&file, &whole[..before]).unwrap();
    // The soft limit falls within the group, so that some of its bytes are written before the write fails.
    let limit = format!("--fsize={}:unlimited", before + 20);
    let mut run = Run::of(Command::new("prlimit").arg(limit).arg(launcher()).arg("run").arg(&file));
    for _ in 0..2 {
        assert_eq!(run.put(SECOND), "refused 12");
        assert_eq!(fs::metadata(&file).unwrap().len() as usize, before);
    }
    assert_eq!(run.put("prevote 1 0 50 -1 0 9"), "refused 8");
    let raised = Command::new("prlimit").args(["--fsize=unlimited", "--pid", &run.child.id().to_string()]).status();
    assert!(raised.expect("prlimit").success());
    assert_eq!(run.put(SECOND), "accepted 2; out ask-prevote 0 0 -1; out precommit 0 50 -1");
    assert_eq!(run.end().0, Some(0));
    assert_eq!(fs::metadata(&file).unwrap().len() as usize, after);
    assert!(fs::read(&file).unwrap() == whole);
}

/// A file system that is mounted until the end.
struct Mounted<'a>(&'a Path);

impl Drop for Mounted<'_> {
    fn drop(&mut self) {
        let _ = Command::new("umount").arg(self.0).status();
    }
}

#[test]
fn full_file_system() {
    let folder = Folder::new();
    let small = folder.path("small");
    fs::create_dir(&small).unwrap();
    let mounted = Command::new("mount").args(["-t", "tmpfs", "-o", "size=256k", "tmpfs"]).arg(&small).stderr(Stdio::null()).status();
    if !mounted.is_ok_and(|s| s.success()) {
        println!("no tmpfs can be mounted here: past_a_limit_on_the_size has the same, by a limit");
        return;
    }
    let _mounted = Mounted(&small);
    let file = small.join("j");
    let powers = vec!["1"; 32];
    assert_eq!(node(&["create"], &file, &[&["0", "1"], powers.as_slice()].concat(), "").out, "created 71\n");
    let filler = small.join("filler");
    let filled = fs::write(&filler, vec![0u8; 1 << 20]);
    assert!(filled.is_err(), "the file system takes all");
    let mut run = Run::new(&file);
    assert!(run.put(START).starts_with("accepted"));
    // Votes of later rounds, one of a round at a time: each is a group of 26 bytes or little more.
    let mut full = None;
    'votes: for sender in 1..32 {
        for round in 1..16 {
            for kind in ["prevote", "precommit"] {
                let line = format!("{kind} {sender} {round} {} -1 0 9", sender);
                let answer = run.put(&line);
                if answer == "refused 12" {
                    full = Some(line);
                    break 'votes;
                }
                assert!(answer.starts_with("accepted"), "{line}: {answer}");
            }
        }
    }
    let line = full.expect("a full file system");
    ends_whole(&file);
    assert_eq!(run.put(&line), "refused 12");
    fs::remove_file(&filler).unwrap();
    assert!(run.put(&line).starts_with("accepted"));
    assert_eq!(run.end().0, Some(0));
    ends_whole(&file);
}

/// The launcher under strace, with these words for it; None where strace cannot be used here.
fn traced(words: &[&str], log: &Path) -> Option<Command> {
    let tried = Command::new("strace").args(["-o", "/dev/null", "true"]).stderr(Stdio::null()).status();
    if !tried.is_ok_and(|s| s.success()) {
        println!("strace cannot be used here");
        return None;
    }
    let mut command = Command::new("strace");
    command.arg("-f").arg("-o").arg(log).args(words).arg(launcher());
    Some(command)
}

/// What a log of strace shows, in order: writes to the file, each fsync that answered 0, and answers on standard output.
#[derive(PartialEq, Debug)]
enum Call {
    /// The place of its first byte, and how many were written.
    Wrote(usize, usize),
    Synced,
    Said,
}

fn calls(log: &Path, answers: &[&str]) -> Vec<Call> {
    let text = fs::read_to_string(log).unwrap();
    let call = |line: &str| match line.split_once(' ').map_or("", |(_, call)| call.trim_start()) {
        c if c.starts_with("pwrite64(") => {
            let (asked, wrote) = c.rsplit_once(") = ")?;
            Some(Call::Wrote(asked.rsplit_once(", ")?.1.parse().ok()?, wrote.parse().ok()?))
        }
        c if c.starts_with("fsync(") && c.ends_with("= 0") => Some(Call::Synced),
        c if answers.iter().any(|answer| c.starts_with(&format!("write(1, \"{answer}"))) => Some(Call::Said),
        _ => None,
    };
    text.lines().filter_map(call).collect()
}

#[test]
fn durable_before_it_is_said() {
    let folder = Folder::new();
    let (file, log) = (folder.path("j"), folder.path("log"));
    let trace = ["-e", "trace=pwrite64,fsync,write"];
    let Some(mut command) = traced(&trace, &log) else { return };
    // The header, and then the folder that has the file's name; the answer goes to the launcher, which says it again.
    let made = told(command.arg("create").arg(&file).args(["0", "1", "1", "1", "1", "1"]), "");
    assert_eq!(made.out, "created 15\n", "{}", made.err);
    assert_eq!(calls(&log, &["created"]), [Call::Wrote(0, 15), Call::Synced, Call::Synced, Call::Said, Call::Said]);
    let mut run = Run::of(traced(&trace, &log).unwrap().arg("run").arg(&file));
    run.put(START);
    run.put(PROPOSED);
    run.end();
    let record = |at| [Call::Wrote(at, 38), Call::Synced, Call::Said];
    let all: Vec<Call> = [Call::Synced, Call::Said].into_iter().chain(record(15)).chain(record(53)).collect();
    assert_eq!(calls(&log, &["again", "accepted"]), all);
}

/// A block of a disk, which is written wholly or not at all.
const BLOCK: usize = 512;

#[test]
fn a_block_is_durable_before_the_next() {
    let folder = Folder::new();
    let (file, log) = (folder.path("j"), folder.path("log"));
    four(&file);
    let Some(mut command) = traced(&["-e", "trace=pwrite64,fsync,write"], &log) else { return };
    let mut run = Run::of(command.arg("run").arg(&file));
    run.put(START);
    // One vote of each later round, each in a group of 26 bytes: one of them crosses a block.
    for round in 1..16 {
        for kind in ["prevote", "precommit"] {
            assert_eq!(run.put(&format!("{kind} 1 {round} 5 -1 0 9")), "accepted 0");
        }
    }
    run.end();
    let all = calls(&log, &["accepted"]);
    let (mut end, mut crossing) = (15, 0);
    for (i, call) in all.iter().enumerate() {
        let Call::Wrote(at, size) = *call else { continue };
        assert_eq!(at, end, "not in byte order");
        assert_eq!(at / BLOCK, (at + size - 1) / BLOCK, "a write crosses a block");
        assert_eq!(all[i + 1], Call::Synced, "not durable before what follows");
        end += size;
        if all[i + 2] != Call::Said {
            assert_eq!(end % BLOCK, 0, "a write that ends before its group and its block");
            crossing += 1;
        }
    }
    assert_eq!((end, crossing), (15 + 38 + 30 * 26, end / BLOCK));
    ends_whole(&file);
}

#[test]
fn fsync_fails() {
    let folder = Folder::new();
    let (file, log) = (folder.path("j"), folder.path("log"));
    four(&file);
    // The first fsync is that of opening; the second is the record's.
    let Some(mut command) = traced(&["-e", "trace=fsync", "-e", "inject=fsync:error=EIO:when=2"], &log) else { return };
    let mut run = Run::of(command.arg("run").arg(&file));
    assert_eq!(run.put(START), "refused 12");
    assert_eq!(fs::metadata(&file).unwrap().len(), 15);
    assert_eq!(run.put(START), "accepted 1; out ask-propose 0 0 -1");
    run.end();
    ends_whole(&file);
    // Where the cut's fsync fails too, nothing more is said.
    let mut run = Run::of(traced(&["-e", "trace=fsync", "-e", "inject=fsync:error=EIO:when=2+"], &log).unwrap().arg("run").arg(&file));
    run.tell(&format!("{PROPOSED}\n{PROPOSED}\n"));
    assert_eq!(run.line(), None);
    let (_, err) = run.end();
    assert!(err.contains("nothing is known of the file"), "{err}");
    // Whatever is there, the next run cuts it where opening says.
    assert_eq!(Run::new(&file).put(PROPOSED), "accepted 1; out prevote 0 50 -1");
}

#[test]
fn cutting_fails() {
    let folder = Folder::new();
    let (file, log) = (folder.path("j"), folder.path("log"));
    let (before, after) = two_prevotes(&file);
    let whole = fs::read(&file).unwrap();
    // A whole group more than the file may hold on disk: nothing of it is said again.
    for (cut, call) in [(after, "fsync"), (before + 20, "fsync"), (before + 20, "ftruncate")] {
        fs::write(&file, &whole[..cut]).unwrap();
        let (trace, inject) = (format!("trace={call}"), format!("inject={call}:error=EIO:when=1"));
        let Some(mut command) = traced(&["-e", &trace, "-e", &inject], &log) else { return };
        let e = told(command.arg("run").arg(&file), &format!("{SECOND}\n"));
        assert_eq!(e.out, "", "{call} fails, {cut} bytes");
        assert!(!e.err.is_empty(), "{call} fails, {cut} bytes");
    }
}

#[test]
fn closed_output() {
    let folder = Folder::new();
    let file = folder.path("j");
    four(&file);
    let mut run = Run::new(&file);
    run.close_output();
    run.tell(&format!("{START}\n{PROPOSED}\n"));
    let (_, err) = run.end();
    // The record is durable and its answer unsent; the next line is not read any more.
    let last = node(&["last"], &file, &[], "");
    assert_eq!(last.out, "1 start 0 0 0 -1 0 9\nout ask-propose 0 0 -1\n", "{err}");
    ends_whole(&file);
    // Where what is said first goes to nobody, no line is read.
    let bytes = fs::read(&file).unwrap();
    let deaf = "\"$0\" run \"$1\" > /dev/full";
    told(Command::new("bash").arg("-c").arg(deaf).arg(launcher()).arg(&file), &format!("{PROPOSED}\n"));
    assert!(fs::read(&file).unwrap() == bytes);
}

#[test]
fn two_at_once() {
    let folder = Folder::new();
    let file = folder.path("j");
    four(&file);
    let mut first = Run::new(&file);
    first.put(START);
    let second = node(&["run"], &file, &[], &format!("{PROPOSED}\n"));
    assert_eq!((second.status, second.out.as_str()), (Some(1), ""));
    assert!(second.err.contains("another run holds it"), "{}", second.err);
    first.child.kill().unwrap();
    first.end();
    let mut third = Run::new(&file);
    assert_eq!(third.put(PROPOSED), "accepted 1; out prevote 0 50 -1");
    assert_eq!(third.end().0, Some(0));
}
