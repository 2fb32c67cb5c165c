//! `bench FILE`: put, open and again of the proved build and of fast, side by side; the table goes into FILE, the rest of it stays.

mod cold;
mod heights;
mod stack;

use compare::again::list;
use flat::Kiosk;
use heights::Height;
use std::fmt::Write;
use std::hint::black_box;
use std::path::Path;
use std::process::Command;
use std::time::Instant;

const BEGIN: &str = "<!-- table: `make bench` writes from here -->\n";
const END: &str = "<!-- to here -->\n";

#[derive(Clone, Copy, PartialEq)]
enum Engine {
    Board,
    Fast,
}

const ENGINES: [Engine; 2] = [Engine::Board, Engine::Fast];

/// One row: a call, on a height that is settled in an early or a late round.
struct Case {
    what: &'static str,
    kiosks: u8,
    round: u8,
    /// Settled; for put, and for again with an open timer, before its last round.
    height: Height,
}

fn cases() -> Vec<Case> {
    let mut cases = Vec::new();
    for what in ["put", "open", "again"] {
        for kiosks in [4, 28, 32] {
            for round in [0, 12] {
                let before = heights::before(kiosks, round);
                let settled = heights::after(&before).0;
                let heights = match what {
                    "put" => vec![before],
                    "again" if round > 0 => vec![settled, before],
                    _ => vec![settled],
                };
                cases.extend(heights.into_iter().map(|height| Case {
                    what,
                    kiosks,
                    round,
                    height,
                }));
            }
        }
    }
    cases
}

/// What a run works on, taken fresh from its case.
struct Lent {
    kiosk: Kiosk,
    table: Vec<u64>,
    journal: Vec<u8>,
    said: [u8; flat::AGAIN],
}

impl Case {
    fn lent(&self) -> Lent {
        Lent {
            kiosk: self.height.kiosk,
            table: self.height.table.clone(),
            journal: self.height.journal.clone(),
            said: [0; flat::AGAIN],
        }
    }

    fn restore(&self, lent: &mut Lent) {
        lent.kiosk = self.height.kiosk;
        lent.table.copy_from_slice(&self.height.table);
        lent.journal.copy_from_slice(&self.height.journal);
    }

    /// How many deliveries the case has; each of the others is one call.
    fn calls(&self) -> usize {
        if self.what == "put" {
            self.height.inputs.len()
        } else {
            1
        }
    }

    /// Groups of the journal that is read.
    fn groups(&self) -> usize {
        let mut at = 7 + 2 * usize::from(self.kiosks);
        let mut groups = 0;
        while at < self.height.kiosk.used {
            at += 26 + 12 * usize::from(self.height.journal[at + 25]);
            groups += 1;
        }
        groups
    }

    /// Timers that are asked for again.
    fn timers(&self) -> usize {
        let mut lent = self.lent();
        self.call(Engine::Fast, 0, &mut lent);
        list(list(&lent.said).1).0.len()
    }

    /// One call; every one is accepted.
    fn call(&self, engine: Engine, at: usize, lent: &mut Lent) {
        let used = self.height.kiosk.used;
        let number = match (self.what, engine) {
            ("put", Engine::Board) => {
                let input = &self.height.inputs[at];
                let reply = black_box(board::put(
                    &lent.kiosk,
                    input,
                    &mut lent.table,
                    &mut lent.journal,
                ));
                lent.kiosk = reply.kiosk;
                reply.number
            }
            ("put", Engine::Fast) => {
                let input = &self.height.inputs[at];
                black_box(fast::put(
                    &mut lent.kiosk,
                    input,
                    &mut lent.table,
                    &mut lent.journal,
                ))
                .number
            }
            ("open", Engine::Board) => {
                let reply = black_box(board::open(&lent.journal, used, &mut lent.table));
                lent.kiosk = reply.kiosk;
                reply.number
            }
            ("open", Engine::Fast) => {
                black_box(fast::open(
                    &lent.journal,
                    used,
                    &mut lent.table,
                    &mut lent.kiosk,
                ))
                .number
            }
            (_, Engine::Board) => {
                let reply = black_box(board::again(
                    &lent.journal,
                    used,
                    &mut lent.table,
                    &mut lent.said,
                ));
                lent.kiosk = reply.kiosk;
                reply.number
            }
            (_, Engine::Fast) => {
                black_box(fast::say_again(
                    &lent.journal,
                    used,
                    &mut lent.table,
                    &mut lent.said,
                    &mut lent.kiosk,
                ))
                .number
            }
        };
        assert_eq!(number, 0);
    }

    fn all(&self, engine: Engine, lent: &mut Lent) {
        for at in 0..self.calls() {
            self.call(engine, at, lent);
        }
    }

    /// Nanoseconds a call, the best of many runs over the same lent things.
    fn warm(&self, engine: Engine) -> f64 {
        let mut lent = self.lent();
        let began = Instant::now();
        let mut best = f64::MAX;
        let mut runs = 0;
        while runs < 20 || began.elapsed().as_millis() < 300 {
            self.restore(&mut lent);
            let from = Instant::now();
            self.all(engine, &mut lent);
            best = best.min(from.elapsed().as_nanos() as f64);
            runs += 1;
        }
        best / self.calls() as f64
    }

    /// The same after what is lent was flushed and others written over, before each call; the best of three.
    fn cold(&self, engine: Engine, large: &mut [u64]) -> f64 {
        let mut best = vec![f64::MAX; self.calls()];
        for _ in 0..3 {
            let mut lent = self.lent();
            for (at, best) in best.iter_mut().enumerate() {
                for word in large.iter_mut().step_by(8) {
                    *word = black_box(word.wrapping_add(1));
                }
                cold::flush(std::slice::from_ref(&lent.kiosk));
                cold::flush(&lent.table);
                cold::flush(&lent.journal);
                cold::flush(&lent.said);
                let from = Instant::now();
                self.call(engine, at, &mut lent);
                *best = best.min(from.elapsed().as_nanos() as f64);
            }
        }
        best.iter().sum::<f64>() / best.len() as f64
    }

    fn stack(&self, engine: Engine) -> usize {
        let deepest = |at| {
            let mut lent = self.lent();
            for earlier in 0..at {
                self.call(engine, earlier, &mut lent);
            }
            stack::used(|| self.call(engine, at, &mut lent))
        };
        (0..self.calls()).map(deepest).max().unwrap()
    }
}

/// What this calls is counted, by callgrind or in the emulator, and nothing else.
#[no_mangle]
#[inline(never)]
fn slip_measured(run: &mut dyn FnMut()) {
    run();
}

/// To be counted: each case with each engine once.
fn count() {
    for case in cases() {
        for engine in ENGINES {
            let mut lent = case.lent();
            slip_measured(&mut || case.all(engine, &mut lent));
        }
    }
}

/// Where an emulator runs this: its command that counts, after which come a file for the counts and a program.
fn emulator() -> Option<String> {
    std::env::var("SLIP_COUNTER").ok()
}

/// The instructions of each call of slip_measured; one dump of callgrind for each.
fn by_callgrind(calls: usize, folder: &Path, program: &Path) -> Vec<f64> {
    let out = folder.join("out");
    let status = Command::new("valgrind")
        .args([
            "--tool=callgrind",
            "--toggle-collect=slip_measured",
            "--dump-after=slip_measured",
            "-q",
        ])
        .arg(format!("--callgrind-out-file={}", out.display()))
        .arg(program)
        .arg("count")
        .status()
        .expect("valgrind");
    assert!(status.success(), "valgrind");
    let total = |part: usize| {
        let dump = std::fs::read_to_string(out.with_extension(part.to_string())).expect("a dump");
        let totals = dump.lines().find_map(|line| line.strip_prefix("totals: "));
        totals
            .and_then(|number| number.trim().parse().ok())
            .expect("totals")
    };
    (1..=calls).map(total).collect()
}

/// The same, a line for each. How much a copy takes depends on where it lies, and so on what stands on the stack before it: the environment
/// and the program's name, which are the same here wherever this runs.
fn by_emulator(counter: &str, folder: &Path, program: &Path) -> Vec<f64> {
    let out = folder.join("out");
    let status = Command::new("env")
        .arg("--ignore-environment")
        .args(counter.split_whitespace())
        .arg(&out)
        .arg(Path::new(".").join(program.file_name().expect("a name")))
        .arg("count")
        .current_dir(program.parent().expect("a folder"))
        .status()
        .expect("env");
    assert!(status.success(), "{counter}");
    let counts = std::fs::read_to_string(out).expect("the counts");
    counts
        .lines()
        .map(|line| line.parse().expect("a number"))
        .collect()
}

/// Instructions a call, for each case and engine in order.
fn instructions(cases: &[Case]) -> Vec<[f64; 2]> {
    let folder = std::env::temp_dir().join(format!("slip-bench-{}", std::process::id()));
    std::fs::create_dir_all(&folder).expect("a folder for the counts");
    let program = std::env::current_exe().expect("this program");
    let calls = ENGINES.len() * cases.len();
    let counts = match emulator() {
        Some(counter) => by_emulator(&counter, &folder, &program),
        None => by_callgrind(calls, &folder, &program),
    };
    std::fs::remove_dir_all(folder).expect("the folder");
    assert_eq!(counts.len(), calls);
    let mut counts = counts.into_iter();
    let mut each = |case: &Case| counts.next().expect("a count") / case.calls() as f64;
    cases
        .iter()
        .map(|case| ENGINES.map(|_| each(case)))
        .collect()
}

/// The text bytes of an archive, by `size`.
fn code(archive: &Path) -> usize {
    let output = Command::new("size")
        .arg("-t")
        .arg(archive)
        .output()
        .expect("size");
    let text = String::from_utf8_lossy(&output.stdout).into_owned();
    let totals = text
        .lines()
        .last()
        .and_then(|line| line.split_whitespace().next());
    totals
        .and_then(|number| number.parse().ok())
        .expect("the totals of size")
}

/// Where cargo put fast.
fn fast_archive() -> std::path::PathBuf {
    let program = std::env::current_exe().expect("this program");
    let folder = program.parent().expect("a folder").join("deps");
    let named = |path: &Path| {
        path.file_name()
            .is_some_and(|name| name.to_string_lossy().starts_with("libfast-"))
    };
    let mut found: Vec<_> = std::fs::read_dir(folder)
        .expect("deps")
        .map(|entry| entry.expect("an entry").path())
        .filter(|path| named(path) && path.extension().is_some_and(|kind| kind == "rlib"))
        .collect();
    found.sort_by_key(|path| {
        path.metadata()
            .and_then(|data| data.modified())
            .expect("a time")
    });
    found.pop().expect("libfast")
}

fn machine() -> String {
    let cpu = std::fs::read_to_string("/proc/cpuinfo").unwrap_or_default();
    let model = cpu
        .lines()
        .find_map(|line| line.strip_prefix("model name")?.split_once(": "));
    let cores = std::thread::available_parallelism().map_or(0, |cores| cores.get());
    format!(
        "{}, {cores} cores",
        model.map_or("unknown processor", |(_, model)| model)
    )
}

/// Cells of the table: what the proved build takes, what fast takes, and the ratio.
fn beside([board, fast]: [f64; 2]) -> String {
    format!(" {board:.0} | {fast:.0} | {:.2} |", board / fast)
}

fn table() -> String {
    let cases = cases();
    let mut large = vec![1; (32 << 20) / 8];
    let counts = instructions(&cases);
    let timed = emulator().is_none();
    let mut text = String::new();
    let mut line =
        |words: std::fmt::Arguments| writeln!(text, "{words}").expect("a string takes any text");
    if timed {
        line(format_args!(
            "Measured by `make bench` on: {}.\n",
            machine()
        ));
    } else {
        line(format_args!("Counted by `make bench` in an emulator of x86-64, without times: those of an emulator say nothing.\n"));
    }
    let (times, columns) = if timed {
        (
            " ns warm: board | fast | ratio | ns cold: board | fast | ratio |",
            13,
        )
    } else {
        ("", 7)
    };
    line(format_args!(
        "| call | kiosks | round | instructions: board | fast | ratio |{times} stack: board | fast |"
    ));
    line(format_args!("|---|{}", "---:|".repeat(columns)));
    for (case, counts) in cases.iter().zip(counts) {
        let mut times = String::new();
        if timed {
            times += &beside(ENGINES.map(|engine| case.warm(engine)));
            times += &beside(ENGINES.map(|engine| case.cold(engine, &mut large)));
        }
        let stack = ENGINES.map(|engine| case.stack(engine));
        let read = format!("{} groups, {} bytes", case.groups(), case.height.kiosk.used);
        let what = match case.what {
            "put" => format!("put, each of {}", case.calls()),
            "open" => format!("open {read}"),
            _ => format!("again {read}, timers {}", case.timers()),
        };
        line(format_args!(
            "| {what} | {} | {} |{}{times} {} | {} |",
            case.kiosks,
            case.round,
            beside(counts),
            stack[0],
            stack[1],
        ));
    }
    line(format_args!(
        "\nBytes of code (`size`): libboard.a {}, fast {}.",
        code(Path::new(board::LIBRARY)),
        code(&fast_archive())
    ));
    text
}

fn main() {
    let Some(file) = std::env::args().nth(1) else {
        panic!("usage: bench FILE");
    };
    if file == "count" {
        return count();
    }
    let page = std::fs::read_to_string(&file).expect("the page to write the table into");
    let (head, rest) = page
        .split_once(BEGIN)
        .expect("the mark where the table begins");
    let (_, tail) = rest.split_once(END).expect("the mark where the table ends");
    let table = table();
    print!("{table}");
    std::fs::write(&file, format!("{head}{BEGIN}\n{table}\n{END}{tail}"))
        .expect("the page written");
}
