//! Takes the proved library from SLIP_LIB_DIR, or from lib/, where `make staticlib` leaves it: links it, or builds served.c with it
//! where the processor is not x86-64.

use std::path::{Path, PathBuf};
use std::process::Command;

const LINKER: &str = "CARGO_TARGET_X86_64_UNKNOWN_LINUX_GNU_LINKER";

fn main() {
    let from = std::env::var("SLIP_LIB_DIR").unwrap_or_else(|_| "../../lib".into());
    let folder = std::path::absolute(Path::new(&from)).expect("a folder");
    let library = folder.join("libboard.a");
    println!("cargo:rerun-if-env-changed=SLIP_LIB_DIR");
    println!("cargo:rerun-if-changed={}", library.display());
    if !library.is_file() {
        panic!(
            "{} is not there: run `make staticlib`, or set SLIP_LIB_DIR",
            library.display()
        );
    }
    println!("cargo:rustc-env=SLIP_LIBRARY={}", library.display());
    if std::env::var("CARGO_CFG_TARGET_ARCH").expect("a processor") == "x86_64" {
        println!("cargo:rustc-link-search=native={}", folder.display());
        println!("cargo:rustc-link-lib=static=board");
    } else {
        serve(&library);
    }
}

/// Without shared libraries, which an emulator would bind each time that it starts the program.
fn serve(library: &Path) {
    let program = PathBuf::from(std::env::var_os("OUT_DIR").expect("OUT_DIR")).join("served");
    println!("cargo:rerun-if-env-changed={LINKER}");
    println!("cargo:rerun-if-changed=served.c");
    println!("cargo:rerun-if-changed=../../include/slipcoacher.h");
    let gcc = std::env::var(LINKER).unwrap_or("x86_64-linux-gnu-gcc".into());
    let built = Command::new(&gcc)
        .args(["-std=c99", "-Wall", "-Wextra", "-Werror", "-O1", "-static"])
        .args(["-I", "../../include", "served.c"])
        .arg(library)
        .arg("-o")
        .arg(&program)
        .status()
        .expect(&gcc);
    assert!(built.success(), "{gcc} on served.c");
    println!("cargo:rustc-env=SLIP_SERVED={}", program.display());
}
