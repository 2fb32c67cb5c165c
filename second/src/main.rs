//! The program: `second list` reads a journal on standard input and prints its
//! listing.

use std::ffi::OsString;
use std::io::{self, Read, Write};
use std::process::ExitCode;

const USAGE: &str = "usage: second list < JOURNAL\n";

fn main() -> ExitCode {
    let arguments: Vec<OsString> = std::env::args_os().skip(1).collect();
    if arguments != ["list"] {
        // A closed standard error leaves only the status.
        let _ = io::stderr().write_all(USAGE.as_bytes());
        return ExitCode::from(2);
    }
    match list() {
        Ok(()) => ExitCode::SUCCESS,
        Err(error) => {
            let _ = writeln!(io::stderr(), "second: {error}");
            ExitCode::FAILURE
        }
    }
}

/// Reads the whole input and keeps no more of it than tells that it is too long.
fn list() -> io::Result<()> {
    let mut input = io::stdin().lock();
    let mut bytes = Vec::new();
    let kept = second::roomy(second::SEATS) + 1;
    input.by_ref().take(kept as u64).read_to_end(&mut bytes)?;
    io::copy(&mut input, &mut io::sink())?;
    let mut output = io::stdout().lock();
    output.write_all(&second::listing(&bytes))?;
    output.flush()
}
