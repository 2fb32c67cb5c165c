//! The node program from outside: bin/node on files in a folder of its own.
use std::fs;
use std::io::{BufRead, BufReader, Write};
use std::path::{Path, PathBuf};
use std::process::{Child, ChildStdin, ChildStdout, Command, Output, Stdio};
use std::sync::atomic::{AtomicUsize, Ordering};

/// The launcher. The program beside it is built by `make node`, or by `rt ci`.
pub fn launcher() -> PathBuf {
    let root = Path::new(env!("CARGO_MANIFEST_DIR")).join("../..").canonicalize().expect("the repository");
    let program = root.join("crates/node/out/node");
    assert!(program.exists(), "{} is missing: make node builds it", program.display());
    root.join("bin/node")
}

/// A folder that is removed at the end.
pub struct Folder(PathBuf);

impl Folder {
    pub fn new() -> Folder {
        static NEXT: AtomicUsize = AtomicUsize::new(0);
        let name = format!("slip-node-{}-{}", std::process::id(), NEXT.fetch_add(1, Ordering::Relaxed));
        let path = std::env::temp_dir().join(name);
        fs::create_dir_all(&path).expect("a folder");
        Folder(path)
    }

    pub fn path(&self, name: &str) -> PathBuf {
        self.0.join(name)
    }
}

impl Drop for Folder {
    fn drop(&mut self) {
        let _ = fs::remove_dir_all(&self.0);
    }
}

/// What a command ended with: its status, its output and its errors.
pub struct Ended {
    pub status: Option<i32>,
    pub out: String,
    pub err: String,
}

impl From<Output> for Ended {
    fn from(o: Output) -> Ended {
        Ended {
            status: o.status.code(),
            out: String::from_utf8(o.stdout).expect("text"),
            err: String::from_utf8(o.stderr).expect("text"),
        }
    }
}

fn spawned(command: &mut Command) -> Child {
    command.stdin(Stdio::piped()).stdout(Stdio::piped()).stderr(Stdio::piped()).spawn().expect("a process")
}

/// The launcher with these words, and this on its standard input.
pub fn told(command: &mut Command, input: &str) -> Ended {
    let mut child = spawned(command);
    // A run that is refused reads nothing.
    let _ = child.stdin.take().expect("its input").write_all(input.as_bytes());
    child.wait_with_output().expect("its end").into()
}

pub fn node(words: &[&str], file: &Path, more: &[&str], input: &str) -> Ended {
    told(Command::new(launcher()).args(words).arg(file).args(more), input)
}

/// A new journal of four kiosks of power 1, own number 0, height 1.
pub fn four(file: &Path) {
    let made = node(&["create"], file, &["0", "1", "1", "1", "1", "1"], "");
    assert_eq!((made.status, made.out.as_str()), (Some(0), "created 15\n"), "{}", made.err);
}

/// The listing of a journal that opens.
pub fn listing(file: &Path) -> Vec<String> {
    let all = node(&["list"], file, &[], "");
    assert_eq!(all.status, Some(0), "{} {}", all.out, all.err);
    all.out.lines().map(String::from).collect()
}

/// A run that is told one line at a time.
pub struct Run {
    pub child: Child,
    input: Option<ChildStdin>,
    output: Option<BufReader<ChildStdout>>,
    /// What it says before it is told anything, joined by `; `; nothing where it ends before.
    pub first: Option<String>,
}

impl Run {
    pub fn of(command: &mut Command) -> Run {
        let mut child = spawned(command);
        let input = child.stdin.take();
        let output = child.stdout.take().map(BufReader::new);
        let mut run = Run { child, input, output, first: None };
        run.first = run.answer();
        run
    }

    pub fn new(file: &Path) -> Run {
        Run::of(Command::new(launcher()).arg("run").arg(file))
    }

    /// Lines, of which the answers are not read yet. Fails where the run has ended.
    pub fn tell(&mut self, lines: &str) -> bool {
        self.input.as_mut().expect("an open input").write_all(lines.as_bytes()).is_ok()
    }

    /// The next whole line of its output.
    pub fn line(&mut self) -> Option<String> {
        let mut line = String::new();
        match self.output.as_mut().expect("an open output").read_line(&mut line) {
            Ok(n) if n > 0 && line.ends_with('\n') => Some(line.trim_end().to_string()),
            _ => None,
        }
    }

    /// The next line, and as many out lines as its counts say, joined by `; `.
    fn answer(&mut self) -> Option<String> {
        let first = self.line()?;
        let mut words = first.split(' ');
        let count: usize = match words.next() {
            Some("accepted" | "again") => words.map(|k| k.parse::<usize>().expect("a count")).sum(),
            _ => 0,
        };
        let mut all = vec![first];
        all.extend((0..count).map(|_| self.line().expect("an out line")));
        Some(all.join("; "))
    }

    /// The answer to one line.
    pub fn put(&mut self, line: &str) -> String {
        assert!(self.tell(&format!("{line}\n")), "the run has ended");
        self.answer().expect("an answer")
    }

    /// What it says from now on goes to nobody.
    pub fn close_output(&mut self) {
        drop(self.output.take());
    }

    /// No more lines; its status and what it wrote on standard error.
    pub fn end(mut self) -> (Option<i32>, String) {
        drop(self.input.take());
        let o = self.child.wait_with_output().expect("its end");
        (o.status.code(), String::from_utf8(o.stderr).expect("text"))
    }
}

/// The numbers of a seed, by a linear congruence.
pub struct Seed(pub u64);

impl Seed {
    pub fn below(&mut self, n: u64) -> u64 {
        self.0 = self.0.wrapping_mul(6364136223846793005).wrapping_add(1442695040888963407);
        (self.0 >> 33) % n
    }
}
