//! The program: tells a height, or plays many and counts.

mod arguments;

use arguments::{read, Asked, USAGE};
use market::counts::Counts;
use market::height::{play, Failed, Played};
use market::story::{Story, NAMES};
use market::{page, transcript};
use std::io::{self, IsTerminal, Write};
use std::path::{Path, PathBuf};
use std::process::ExitCode;
use std::sync::atomic::{AtomicU64, Ordering};
use std::sync::Mutex;

fn main() -> ExitCode {
    let arguments: Vec<String> = match std::env::args_os()
        .skip(1)
        .map(|word| word.into_string())
        .collect()
    {
        Ok(arguments) => arguments,
        Err(word) => return wrong(&format!("{} is no text", word.to_string_lossy())),
    };
    if arguments.iter().any(|word| word == "--help") {
        return ended(say(USAGE));
    }
    let asked = match read(&arguments) {
        Ok(asked) => asked,
        Err(why) => return wrong(&why),
    };
    ended(run(&asked))
}

fn ended(result: Result<(), String>) -> ExitCode {
    match result {
        Ok(()) => ExitCode::SUCCESS,
        Err(why) => {
            eprintln!("market: {why}");
            ExitCode::FAILURE
        }
    }
}

/// On standard output, which may be closed.
fn say(text: &str) -> Result<(), String> {
    let written = io::stdout().write_all(text.as_bytes());
    written.map_err(|error| format!("standard output: {error}"))
}

fn write(file: &Path, text: &str) -> Result<(), String> {
    std::fs::write(file, text).map_err(|error| format!("{}: {error}", file.display()))
}

fn wrong(why: &str) -> ExitCode {
    eprint!("market: {why}\n\n{USAGE}");
    ExitCode::from(2)
}

fn run(asked: &Asked) -> Result<(), String> {
    let room = Room::new(asked.folder.as_deref()).map_err(|error| error.to_string())?;
    if let Some(stories) = &asked.write_stories {
        return write_stories(asked, &room, stories);
    }
    let story = match &asked.story {
        Some(name) => Story::told(name).expect("looked up"),
        None => Story::drawn(asked.seed, asked.wishes),
    };
    if asked.heights > 1 {
        return many(asked, &room);
    }
    let played = one(asked, &story, &room)?;
    say(&transcript::transcript(&played))?;
    match &asked.page {
        None => Ok(()),
        Some(file) => {
            write(file, &page::page(&played))?;
            say(&format!("page: {}\n", file.display()))
        }
    }
}

/// A folder for journals, removed at the end unless it was asked for.
struct Room {
    folder: PathBuf,
    kept: bool,
}

impl Room {
    fn new(asked: Option<&Path>) -> io::Result<Room> {
        let own = || std::env::temp_dir().join(format!("market.{}", std::process::id()));
        let room = Room {
            folder: asked.map_or_else(own, Path::to_path_buf),
            kept: asked.is_some(),
        };
        std::fs::create_dir_all(&room.folder)?;
        Ok(room)
    }
}

impl Drop for Room {
    fn drop(&mut self) {
        if !self.kept {
            let _ = std::fs::remove_dir_all(&self.folder);
        }
    }
}

/// Plays a height in a folder of its own, which is emptied first.
fn one(asked: &Asked, story: &Story, room: &Room) -> Result<Played, String> {
    let folder = room.folder.join(format!("height-{}", story.seed));
    let clear = || {
        if folder.exists() {
            std::fs::remove_dir_all(&folder)
        } else {
            Ok(())
        }
    };
    let emptied = clear().and_then(|()| std::fs::create_dir_all(&folder));
    emptied.map_err(|error| format!("{}: {error}", folder.display()))?;
    let played = play(story, &asked.node, &folder).map_err(|failed| told(asked, story, &failed))?;
    if !room.kept {
        clear().map_err(|error| format!("{}: {error}", folder.display()))?;
    }
    Ok(played)
}

/// What is broken and how to play it again; of a height that is told, what happened until then goes before.
fn told(asked: &Asked, story: &Story, failed: &Failed) -> String {
    if asked.heights == 1 {
        let lines: String = failed
            .moments
            .iter()
            .map(|moment| format!("{moment}\n"))
            .collect();
        let _ = say(&lines);
    }
    let again = again(asked, story);
    format!(
        "{}: {}\nmarket: run it again: {again}",
        story.title, failed.broken
    )
}

/// The command that plays this height again.
fn again(asked: &Asked, story: &Story) -> String {
    if let Some(name) = &asked.story {
        return format!("market --story {name}");
    }
    let mut command = format!("market --seed {}", story.seed);
    let wishes = asked.wishes;
    for (option, value) in [
        ("--kiosks", wishes.kiosks),
        ("--dishonest", wishes.dishonest),
    ] {
        if let Some(value) = value {
            command += &format!(" {option} {value}");
        }
    }
    if wishes.over_a_third {
        command += " --over-a-third";
    }
    command
}

/// Many heights; each worker takes the next seed. The sums do not depend on who played what.
fn many(asked: &Asked, room: &Room) -> Result<(), String> {
    let (next, done) = (AtomicU64::new(0), AtomicU64::new(0));
    let sum = Mutex::new(Counts::default());
    let broken: Mutex<Option<(u64, String)>> = Mutex::new(None);
    let bar = Bar {
        of: asked.heights,
        shown: io::stderr().is_terminal(),
    };
    let work = || loop {
        let place = next.fetch_add(1, Ordering::Relaxed);
        if place >= asked.heights || broken.lock().expect("no worker panics").is_some() {
            return;
        }
        let story = Story::drawn(asked.seed + place, asked.wishes);
        match one(asked, &story, room) {
            Ok(played) => *sum.lock().expect("no worker panics") += &played.counts,
            Err(why) => {
                let mut first = broken.lock().expect("no worker panics");
                if first.as_ref().is_none_or(|(earlier, _)| place < *earlier) {
                    *first = Some((place, why));
                }
            }
        }
        bar.show(done.fetch_add(1, Ordering::Relaxed) + 1);
    };
    std::thread::scope(|scope| {
        for _ in 0..asked.workers {
            scope.spawn(work);
        }
    });
    bar.end();
    if let Some((_, why)) = broken.into_inner().expect("no worker panics") {
        return Err(why);
    }
    say(&sum.into_inner().expect("no worker panics").to_string())
}

/// A progress bar on standard error, if that is a terminal.
struct Bar {
    of: u64,
    shown: bool,
}

impl Bar {
    fn show(&self, done: u64) {
        if self.shown {
            let full = (40 * done / self.of) as usize;
            eprint!(
                "\r[{}{}] {done} of {} heights",
                "#".repeat(full),
                ".".repeat(40 - full),
                self.of
            );
            let _ = io::stderr().flush();
        }
    }

    fn end(&self) {
        if self.shown {
            eprintln!();
        }
    }
}

fn write_stories(asked: &Asked, room: &Room, folder: &Path) -> Result<(), String> {
    std::fs::create_dir_all(folder).map_err(|error| format!("{}: {error}", folder.display()))?;
    for name in NAMES {
        let played = one(asked, &Story::told(name).expect("named"), room)?;
        let file = folder.join(format!("{name}.txt"));
        write(&file, &transcript::transcript(&played))?;
        say(&format!("{}\n", file.display()))?;
    }
    Ok(())
}
