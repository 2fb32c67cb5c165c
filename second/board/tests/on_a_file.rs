//! include/loop.c on a real file: created, cut, torn, damaged, and with a write or an fsync that fails. What it answers and what its file
//! holds is what second says.

mod common;
use common::*;
use compare::again::list;
use compare::inputs::{precommit, prevote, proposal, start};
use compare::terms::flat_output;
use compare::{Aim, Delivery, Lent, Market};
use second::Input;
use std::io::{BufRead, BufReader, Read, Write};
use std::path::{Path, PathBuf};
use std::process::{Child, ChildStdout, Command, Stdio};
use std::sync::OnceLock;

const OFFER: u64 = 9;
const HEIGHT: u32 = 1;
const HEADER: usize = 15;

fn market(height: u32) -> Market {
    Market {
        powers: vec![1; 4],
        own: 0,
        height,
    }
}

/// A whole height of four kiosks, with inputs that are refused between.
fn story() -> Vec<Input> {
    let inputs = [
        prevote(HEIGHT, 1, 0, 50),
        start(HEIGHT, 0),
        proposal(HEIGHT, 1, 0, 50, -1, 1),
        proposal(HEIGHT, 1, 0, 51, -1, 1),
        prevote(HEIGHT, 1, 0, 50),
        prevote(HEIGHT, 2, 0, 50),
        precommit(HEIGHT, 1, 0, 50),
        precommit(HEIGHT, 4, 0, 50),
        precommit(HEIGHT, 2, 0, 50),
        precommit(HEIGHT, 3, 0, 50),
    ];
    inputs
        .map(|input| Input {
            offer: OFFER,
            ..input
        })
        .to_vec()
}

/// A file of its own for each test, not there yet.
fn fresh_file(name: &str) -> PathBuf {
    let path = Path::new(env!("CARGO_TARGET_TMPDIR")).join(name);
    let _ = std::fs::remove_file(&path);
    path
}

/// A loop that runs.
struct Loop {
    child: Child,
    answers: BufReader<ChildStdout>,
}

impl Loop {
    fn begin(file: &Path) -> Loop {
        Loop::where_fails(file, HEIGHT, "unlimited", "")
    }

    /// With files of at most `limit` bytes, and with the calls of fsync that fail. SIGXFSZ is ignored, so that a longer write fails.
    fn where_fails(file: &Path, height: u32, limit: &str, fsyncs: &str) -> Loop {
        static PROGRAM: OnceLock<PathBuf> = OnceLock::new();
        let files = ["include/loop.c", "second/board/failing.c"];
        let program = PROGRAM.get_or_init(|| c::build(&files, &["-Wl,--wrap=fsync"]));
        let limited = "trap '' XFSZ; exec prlimit --fsize=\"$0\": \"$@\"";
        let mut child = Command::new("bash")
            .args(["-c", limited, limit])
            .args(c::words(program))
            .arg(file)
            .args(["0", &height.to_string(), &OFFER.to_string()])
            .args(["1"; 4])
            .env("SLIP_FAILS", fsyncs)
            .stdin(Stdio::piped())
            .stdout(Stdio::piped())
            .stderr(Stdio::piped())
            .spawn()
            .expect("bash");
        let answers = BufReader::new(child.stdout.take().expect("a pipe"));
        Loop { child, answers }
    }

    /// From now on files may be of any length.
    fn unlimit(&self) {
        let pid = self.child.id().to_string();
        let args = ["--pid", &pid, "--fsize=unlimited:"];
        let raised = Command::new("prlimit").args(args).status();
        assert!(raised.expect("prlimit").success());
    }

    fn line(&mut self) -> String {
        let mut line = String::new();
        self.answers.read_line(&mut line).expect("a line");
        line.trim_end().to_string()
    }

    /// A line, and the outputs that it announces.
    fn answer(&mut self) -> Vec<String> {
        let first = self.line();
        let count = first
            .strip_prefix("outputs ")
            .map_or(0, |count| count.parse().expect("a count"));
        let mut lines = vec![first];
        lines.extend((0..count).map(|_| self.line()));
        lines
    }

    /// What it says at waking: the used length, the messages and the timers.
    fn woken(&mut self) -> Vec<String> {
        let first = vec![self.line()];
        [first, self.answer(), self.answer()].concat()
    }

    fn put(&mut self, i: &Input) -> Vec<String> {
        let stdin = self.child.stdin.as_mut().expect("a pipe");
        let (kind, sender, round) = (i.kind, i.sender, i.round);
        writeln!(
            stdin,
            "{kind} {sender} {round} {} {} {}",
            i.valid, i.verdict, i.name
        )
        .expect("a line taken");
        self.answer()
    }

    /// No more inputs: the rest of what it prints, what it says beside, and whether all went well.
    fn end(mut self) -> (String, String, bool) {
        drop(self.child.stdin.take());
        let mut rest = String::new();
        self.answers.read_to_string(&mut rest).expect("text");
        let output = self.child.wait_with_output().expect("an end");
        (
            rest,
            String::from_utf8_lossy(&output.stderr).into_owned(),
            output.status.success(),
        )
    }
}

/// What the loop prints, from the file given to its end.
fn run(file: &Path) -> (String, String, bool) {
    Loop::begin(file).end()
}

/// An answer as the loop prints it.
fn printed(number: u32, sent: &[flat::Output]) -> Vec<String> {
    if number != 0 {
        return vec![format!("refused {number}")];
    }
    let mut lines = vec![format!("outputs {}", sent.len())];
    lines.extend(
        sent.iter()
            .map(|o| format!("{} {} {} {}", o.kind, o.round, o.valid, o.name)),
    );
    lines
}

/// What it says at waking, by second's lists.
fn woken(lent: &Lent) -> Vec<String> {
    let used = lent.kiosk.used;
    let (_, said) = SIDES.again(used, &mut lent.clone(), flat::AGAIN);
    let (messages, rest) = list(&said);
    let (timers, _) = list(rest);
    let mut lines = vec![format!("awake {used}")];
    for outputs in [messages, timers] {
        let outputs: Vec<_> = outputs.iter().map(flat_output).collect();
        lines.extend(printed(0, &outputs));
    }
    lines
}

fn holds(file: &Path, lent: &Lent) -> bool {
    std::fs::read(file).expect("the file") == lent.journal[..lent.kiosk.used]
}

/// Puts an input to the loop and to second; what it printed and what the file holds is second's.
fn put_both(run: &mut Loop, file: &Path, lent: &mut Lent, input: &Input) {
    let reply = SIDES.put(input, lent).0;
    assert_eq!(
        run.put(input),
        printed(reply.number, &reply.sent[..reply.count]),
        "{input:?}"
    );
    assert!(holds(file, lent));
}

/// The story's file, and what is lent at its end.
fn told(file: &Path, inputs: &[Input]) -> Lent {
    let mut lent = SIDES.opened(&market(HEIGHT));
    let mut run = Loop::begin(file);
    assert_eq!(run.line(), "created 15");
    assert_eq!(run.woken(), woken(&lent));
    for input in inputs {
        put_both(&mut run, file, &mut lent, input);
    }
    assert_eq!(
        run.end(),
        (String::new(), "loop: refused 13 at 0\n".into(), true)
    );
    lent
}

#[test]
fn a_height() {
    let file = fresh_file("a_height");
    let lent = told(&file, &story());
    assert_eq!(lent.kiosk.phase, flat::SETTLED);
    // Settled: both votes are said again, no timer is open, and the vendor is told again.
    let (text, _, well) = run(&file);
    let right = "outputs 2\n2 0 0 50\n3 0 0 50\noutputs 0\noutputs 1\n7 0 0 50\n";
    assert!(well);
    assert_eq!(text, format!("awake {}\n{right}", lent.kiosk.used));
}

/// Many rounds, over several blocks of the disk, with inputs of all kinds and spoilt ones.
#[test]
fn many_blocks() {
    let file = fresh_file("many_blocks");
    let mut lent = told(&file, &[]);
    let mut delivery = Delivery::new(3, Aim::Drag);
    let mut run = Loop::begin(&file);
    run.woken();
    while lent.kiosk.used < 1_200 {
        let state = lent.state().expect("a state that calls left");
        let mut input = delivery.input(&state, &lent.table);
        (input.height, input.offer) = (HEIGHT, OFFER);
        put_both(&mut run, &file, &mut lent, &input);
    }
    assert!(run.end().2);
    assert_eq!(Loop::begin(&file).woken(), woken(&lent));
}

/// Cut at every byte of a group, killed between: it goes on from the groups before, and second agrees to the end.
#[test]
fn torn_tail() {
    let file = fresh_file("torn_tail");
    let story = story();
    let whole = told(&file, &story[..6]);
    let mut before = Lent::clone(&whole);
    assert_eq!(SIDES.open(whole.kiosk.last, &mut before).number, 0);
    for cut in whole.kiosk.last..whole.kiosk.used {
        std::fs::write(&file, &whole.journal[..cut]).expect("the file cut");
        let mut lent = before.clone();
        let mut run = Loop::begin(&file);
        assert_eq!(run.woken(), woken(&before));
        assert!(holds(&file, &before));
        put_both(&mut run, &file, &mut lent, &story[5]);
        assert_eq!(lent.kiosk, whole.kiosk);
        run.child.kill().expect("killed");
        run.child.wait().expect("an end");
    }
}

/// After waking what groups before the last have said comes again, and a timer that they asked for.
#[test]
fn taken_up() {
    let file = fresh_file("taken_up");
    let story = story();
    let lent = told(&file, &[story[1], story[4]]);
    let right = format!("awake {}\noutputs 0\noutputs 1\n4 0 0 0\n", lent.kiosk.used);
    assert_eq!(run(&file), (right, String::new(), true));
    let file = fresh_file("taken_up");
    let lent = told(&file, &story[..5]);
    let right = format!(
        "awake {}\noutputs 1\n2 0 0 50\noutputs 0\n",
        lent.kiosk.used
    );
    assert_eq!(run(&file), (right, String::new(), true));
}

/// A header that a cut left short is created again; after any other refusal the file stays.
#[test]
fn short_header_and_damage() {
    let file = fresh_file("short_header");
    let lent = told(&file, &story()[..3]);
    for cut in 0..HEADER {
        std::fs::write(&file, &lent.journal[..cut]).expect("the file cut");
        let right = (
            "created 15\nawake 15\noutputs 0\noutputs 0\n".into(),
            "loop: refused 13 at 0\n".into(),
            true,
        );
        assert_eq!(run(&file), right);
        assert!(std::fs::read(&file).expect("the file") == lent.journal[..HEADER]);
    }
    let stays = |bytes: &[u8], height, why: &str| {
        std::fs::write(&file, bytes).expect("the file");
        let (text, said, well) = Loop::where_fails(&file, height, "unlimited", "").end();
        assert!(
            text.is_empty() && said.contains(why) && !well,
            "{text}{said}"
        );
        assert!(
            std::fs::read(&file).expect("the file") == bytes,
            "{why}: the file is touched"
        );
    };
    let used = &lent.journal[..lent.kiosk.used];
    let damaged = |at: usize| {
        let mut bytes = used.to_vec();
        bytes[at] ^= 1;
        bytes
    };
    stays(&damaged(0), HEIGHT, "refused 14 at 11");
    stays(&damaged(HEADER + 3), HEIGHT, "refused 14 at 15");
    stays(
        &damaged(lent.kiosk.last + 30),
        HEIGHT,
        &format!("refused 14 at {}", lent.kiosk.last),
    );
    stays(
        &[used, &[0; flat::ROOMY]].concat(),
        HEIGHT,
        "refused 1 at 0",
    );
    stays(used, HEIGHT + 1, "of another kiosk");
}

/// A write that fails, in part or wholly: nothing is sent, the file is as before the call, and the same input is taken once there is room.
#[test]
fn failed_write() {
    let story = story();
    for over in [0, 1, 25, 49] {
        let file = fresh_file("failed_write");
        let mut lent = told(&file, &story[..5]);
        let limit = (lent.kiosk.used + over).to_string();
        let mut run = Loop::where_fails(&file, HEIGHT, &limit, "");
        run.woken();
        for _ in 0..2 {
            assert_eq!(run.put(&story[5]), ["not written"], "limit {limit}");
            assert!(holds(&file, &lent));
            put_both(&mut run, &file, &mut lent, &story[4]); // heard before
        }
        run.unlimit();
        for input in &story[5..] {
            put_both(&mut run, &file, &mut lent, input);
        }
        assert_eq!(lent.kiosk.phase, flat::SETTLED);
        assert!(run.end().2);
    }
}

/// The same of a start that proposes, in whose table nothing may stand when it is put again.
#[test]
fn failed_start() {
    let file = fresh_file("failed_start");
    let height = 4;
    let mut lent = SIDES.opened(&market(height));
    let mut run = Loop::where_fails(&file, height, "20", "");
    assert_eq!(run.line(), "created 15");
    run.woken();
    let start = start(height, OFFER);
    assert_eq!(run.put(&start), ["not written"]);
    run.unlimit();
    put_both(&mut run, &file, &mut lent, &start);
    assert_eq!(lent.journal[lent.kiosk.last + 26], 1);
    assert!(run.end().2);
}

/// An fsync that fails, behind a whole write: the group is cut off again. Where the cut's own fails, the loop stops and says nothing more.
/// The first call keeps the file's name, the second is of the cut at waking.
#[test]
fn failed_fsync() {
    let file = fresh_file("failed_fsync");
    let story = story();
    let mut lent = told(&file, &story[..5]);
    let mut run = Loop::where_fails(&file, HEIGHT, "unlimited", "c");
    run.woken();
    assert_eq!(run.put(&story[5]), ["not written"]);
    assert!(holds(&file, &lent));
    put_both(&mut run, &file, &mut lent, &story[5]);
    assert!(run.end().2);
    let mut run = Loop::where_fails(&file, HEIGHT, "unlimited", "cd");
    run.woken();
    assert_eq!(run.put(&story[6]), [""]);
    let (text, said, well) = run.end();
    assert!(text.is_empty() && said.contains("cutting the journal") && !well);
    // Nothing is sent where the journal as it was opened is not durable.
    let (text, said, well) = Loop::where_fails(&file, HEIGHT, "unlimited", "b").end();
    assert!(text.is_empty() && said.contains("cutting the journal") && !well);
    // The next start opens what is there, and goes on.
    let mut run = Loop::begin(&file);
    assert_eq!(run.woken(), woken(&lent));
    put_both(&mut run, &file, &mut lent, &story[6]);
    assert!(run.end().2);
}

/// A second loop on the file of one that runs is kept out; a killed one keeps nobody out.
#[test]
fn one_at_a_time() {
    let file = fresh_file("one_at_a_time");
    let mut first = Loop::begin(&file);
    first.line();
    first.line();
    let (text, _, well) = run(&file);
    assert!(text.is_empty() && !well);
    first.child.kill().expect("killed");
    first.child.wait().expect("an end");
    assert!(run(&file).2);
}
