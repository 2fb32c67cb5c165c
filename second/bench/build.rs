//! Builds stack.c.

use std::path::PathBuf;
use std::process::Command;

fn main() {
    let object = PathBuf::from(std::env::var_os("OUT_DIR").expect("OUT_DIR")).join("stack.o");
    // The linker that cargo is told, where the machine is not the one that is built for.
    let gcc = std::env::var_os("RUSTC_LINKER").unwrap_or("gcc".into());
    println!("cargo:rerun-if-changed=stack.c");
    let mut command = Command::new(gcc);
    command.args(["-O1", "-Wall", "-Wextra", "-Werror", "-c", "stack.c", "-o"]);
    let status = command.arg(&object).status().expect("gcc");
    assert!(status.success(), "gcc");
    println!("cargo:rustc-link-arg-bins={}", object.display());
}
