//! The node program: its commands, a running one, and what the operating system does to it (kill, a limit on its file's size).

use crate::words::{Again, Answer, Output};
use std::fs::File;
use std::io::{self, BufRead, BufReader, Read, Write};
use std::os::fd::AsRawFd;
use std::os::unix::process::CommandExt;
use std::path::{Path, PathBuf};
use std::process::{Child, ChildStdin, ChildStdout, Command, Stdio};

/// The words that start the program, as `qemu-x86_64 crates/node/out/node`.
#[derive(Clone, Debug)]
pub struct Node(Vec<String>);

/// A node that runs on its journal. It is killed when it is dropped.
pub struct Running {
    child: Child,
    /// None once no more lines come.
    input: Option<ChildStdin>,
    output: BufReader<ChildStdout>,
    journal: PathBuf,
}

#[repr(C)]
struct Limit {
    now: u64,
    most: u64,
}

#[repr(C)]
struct Poll {
    file: i32,
    events: i16,
    came: i16,
}

extern "C" {
    fn prlimit(process: i32, resource: i32, new: *const Limit, old: *mut Limit) -> i32;
    fn signal(number: i32, handler: usize) -> usize;
    fn poll(files: *mut Poll, count: u64, milliseconds: i32) -> i32;
}

const SIGPIPE: i32 = 13;
const SIGXFSZ: i32 = 25;
const IGNORED: usize = 1;
const RLIMIT_FSIZE: i32 = 1;
const POLLIN: i16 = 1;

/// No answer takes so long; a node that is silent for so long hangs.
const PATIENCE: i32 = 60_000;

/// SLIP_NODE, else the program that rt compiles, as the project's folder has it.
pub fn usual() -> String {
    std::env::var("SLIP_NODE").unwrap_or_else(|_| "crates/node/out/node".into())
}

impl Node {
    /// From words with blanks between.
    pub fn new(command: &str) -> Option<Node> {
        let words: Vec<String> = command.split_whitespace().map(String::from).collect();
        if words.is_empty() {
            None
        } else {
            Some(Node(words))
        }
    }

    fn command(&self, word: &str, journal: &Path) -> Command {
        let mut command = Command::new(&self.0[0]);
        command.args(&self.0[1..]).arg(word).arg(journal);
        // What it says on standard error is kept beside the journal and shown where something breaks.
        let said = File::options()
            .create(true)
            .append(true)
            .open(said_by(journal));
        command.stderr(said.map_or(Stdio::null(), Stdio::from));
        // A full partition and a closed pipe are answers of a call, not ends of the program.
        unsafe {
            command.pre_exec(|| {
                signal(SIGXFSZ, IGNORED);
                signal(SIGPIPE, IGNORED);
                Ok(())
            });
        }
        command
    }

    fn say(&self, mut command: Command) -> io::Result<String> {
        let output = command
            .stdin(Stdio::null())
            .stdout(Stdio::piped())
            .spawn()
            .map_err(|error| self.missing(error))?;
        String::from_utf8(output.wait_with_output()?.stdout)
            .map_err(|_| io::Error::other("a node says bytes that are no text"))
    }

    fn missing(&self, error: io::Error) -> io::Error {
        io::Error::new(
            error.kind(),
            format!("`{}` does not start: {error}", self.0.join(" ")),
        )
    }

    /// Makes the journal; the answer is `created N` or `refused N`.
    pub fn create(
        &self,
        journal: &Path,
        own: usize,
        height: u32,
        powers: &[u16],
    ) -> io::Result<String> {
        let mut command = self.command("create", journal);
        command
            .arg(own.to_string())
            .arg(height.to_string())
            .args(powers.iter().map(u16::to_string));
        Ok(self.say(command)?.trim_end().to_string())
    }

    /// The whole listing.
    pub fn list(&self, journal: &Path) -> io::Result<String> {
        self.say(self.command("list", journal))
    }

    /// Runs it, and waits until it has opened its journal and cut the file: it says only then what it says first.
    pub fn run(&self, journal: &Path) -> io::Result<(Running, Again)> {
        let mut command = self.command("run-locked", journal);
        let mut child = command
            .stdin(Stdio::piped())
            .stdout(Stdio::piped())
            .spawn()
            .map_err(|error| self.missing(error))?;
        let (input, output) = (
            child.stdin.take().expect("asked for"),
            child.stdout.take().expect("asked for"),
        );
        let mut running = Running {
            child,
            input: Some(input),
            output: BufReader::new(output),
            journal: journal.to_path_buf(),
        };
        let first = running.line()?;
        let Some((messages, timers)) = first.strip_prefix("again ").and_then(two) else {
            return Err(running.trouble(&format!("does not open it: {first}")));
        };
        let again = Again {
            messages: running.outputs(messages)?,
            timers: running.outputs(timers)?,
        };
        Ok((running, again))
    }
}

/// Two numbers with a blank between.
fn two(text: &str) -> Option<(u8, u8)> {
    let (one, other) = text.split_once(' ')?;
    Some((one.parse().ok()?, other.parse().ok()?))
}

impl Running {
    fn send(&mut self, line: &str) -> io::Result<()> {
        let input = self.input.as_mut().expect("open until the end");
        let sent = input.write_all(format!("{line}\n").as_bytes());
        sent.map_err(|error| self.trouble(&format!("takes no more lines: {error}")))
    }

    fn line(&mut self) -> io::Result<String> {
        if self.output.buffer().is_empty() {
            let mut one = Poll {
                file: self.output.get_ref().as_raw_fd(),
                events: POLLIN,
                came: 0,
            };
            if unsafe { poll(&mut one, 1, PATIENCE) } == 0 {
                return Err(self.trouble("has not answered for a minute"));
            }
        }
        let mut line = String::new();
        self.output.read_line(&mut line)?;
        match line.strip_suffix('\n') {
            Some(line) => Ok(line.to_string()),
            None => Err(self.trouble("ended")),
        }
    }

    /// One input, and its whole answer.
    pub fn put(&mut self, line: &str) -> io::Result<Answer> {
        self.send(line)?;
        let first = self.line()?;
        let number = |word: &str| {
            first
                .strip_prefix(word)
                .and_then(|number| number.parse::<u8>().ok())
        };
        if let Some(number) = number("refused ") {
            return Ok(Answer::Refused(number));
        }
        let Some(count) = number("accepted ") else {
            return Err(self.trouble(&format!("answers `{line}` with `{first}`")));
        };
        Ok(Answer::Accepted(self.outputs(count)?))
    }

    /// So many out lines.
    fn outputs(&mut self, count: u8) -> io::Result<Vec<Output>> {
        let mut outputs = Vec::new();
        for _ in 0..count {
            let line = self.line()?;
            outputs
                .push(Output::read(&line).ok_or_else(|| self.trouble(&format!("says `{line}`")))?);
        }
        Ok(outputs)
    }

    /// From now on its files can grow to this length; None takes the limit away.
    pub fn limit(&self, length: Option<u64>) -> io::Result<()> {
        let limit = Limit {
            now: length.unwrap_or(u64::MAX),
            most: u64::MAX,
        };
        match unsafe {
            prlimit(
                self.child.id() as i32,
                RLIMIT_FSIZE,
                &limit,
                std::ptr::null_mut(),
            )
        } {
            0 => Ok(()),
            _ => Err(io::Error::last_os_error()),
        }
    }

    /// No more lines: the node ends by itself.
    pub fn end(mut self) -> io::Result<()> {
        drop(self.input.take());
        self.child.wait().map(drop)
    }

    /// kill -9.
    pub fn kill(mut self) -> io::Result<()> {
        self.child.kill()?;
        self.child.wait().map(drop)
    }

    fn trouble(&self, what: &str) -> io::Error {
        let mut said = String::new();
        let _ =
            File::open(said_by(&self.journal)).and_then(|mut file| file.read_to_string(&mut said));
        let said = if said.is_empty() {
            said
        } else {
            format!("; its standard error: {}", said.trim_end())
        };
        io::Error::other(format!(
            "the node of {} {what}{said}",
            self.journal.display()
        ))
    }
}

impl Drop for Running {
    fn drop(&mut self) {
        let _ = self.child.kill();
        let _ = self.child.wait();
    }
}

fn said_by(journal: &Path) -> PathBuf {
    journal.with_extension("stderr")
}
