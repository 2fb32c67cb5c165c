//! C programs against the header and the library, built and run as the machine needs it.

use board::LIBRARY;
use std::path::{Path, PathBuf};
use std::process::Command;

/// The LINKER or the RUNNER that cargo takes for x86-64 programs, where the environment names one.
fn named(word: &str) -> Option<String> {
    std::env::var(format!("CARGO_TARGET_X86_64_UNKNOWN_LINUX_GNU_{word}")).ok()
}

/// The program of C files, named from the project's folder; it has the name of the first. `more` is said to the compiler.
pub fn build(files: &[&str], more: &[&str]) -> PathBuf {
    let gcc = named("LINKER").unwrap_or("gcc".into());
    let project = Path::new(env!("CARGO_MANIFEST_DIR")).join("../..");
    let name = Path::new(files[0]).file_stem().expect("a name");
    let program = Path::new(env!("CARGO_TARGET_TMPDIR")).join(name);
    // Bound at the start: a call that is bound when it is first made takes a stack of its own.
    let built = Command::new(&gcc)
        .args([
            "-std=c11",
            "-pedantic",
            "-Wall",
            "-Wextra",
            "-Werror",
            "-O1",
        ])
        .arg("-I")
        .arg(project.join("include"))
        .args(files.iter().map(|file| project.join(file)))
        .arg(LIBRARY)
        .args(more)
        .args(["-Wl,-z,now", "-o"])
        .arg(&program)
        .status()
        .expect("gcc");
    assert!(built.success(), "{gcc} on {files:?}");
    program
}

/// The words that start a program: the runner, where there is one, and the program.
pub fn words(program: &Path) -> Vec<String> {
    let runner = named("RUNNER").unwrap_or_default();
    let words = runner.split_whitespace().map(String::from);
    words.chain([program.display().to_string()]).collect()
}

/// What a program of C files prints.
pub fn run(files: &[&str]) -> String {
    let words = words(&build(files, &[]));
    let output = Command::new(&words[0])
        .args(&words[1..])
        .output()
        .expect("the program");
    let text = String::from_utf8(output.stdout).expect("text");
    assert!(output.status.success(), "{files:?}: {text}");
    text
}
