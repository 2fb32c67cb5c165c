//! The node that the tests run, and a folder for each test.
#![allow(dead_code)]

use market::height::{play, Played};
use market::node::Node;
use market::story::Story;
use std::path::{Path, PathBuf};

pub const MARKET: &str = env!("CARGO_BIN_EXE_market");

/// The words that start the node; a test without one fails here, and says what to do.
pub fn command() -> String {
    let program = Path::new(env!("CARGO_MANIFEST_DIR")).join("../../crates/node/out/node");
    let command = std::env::var("SLIP_NODE").unwrap_or_else(|_| program.display().to_string());
    let program = command
        .split_whitespace()
        .last()
        .expect("SLIP_NODE is empty")
        .to_string();
    assert!(
        Path::new(&program).is_file(),
        "there is no node program at {program}: `make node` makes it, SLIP_NODE names another"
    );
    command
}

/// An empty folder that is removed at the end.
pub struct Folder(pub PathBuf);

impl Folder {
    pub fn new(name: &str) -> Folder {
        let folder =
            std::env::temp_dir().join(format!("market-test.{}.{name}", std::process::id()));
        let _ = std::fs::remove_dir_all(&folder);
        std::fs::create_dir_all(&folder).expect("a folder for the journals");
        Folder(folder)
    }
}

impl Drop for Folder {
    fn drop(&mut self) {
        let _ = std::fs::remove_dir_all(&self.0);
    }
}

/// Plays it, and fails where a check does.
pub fn played(story: &Story) -> Played {
    let folder = Folder::new(&format!("{}-{:?}", story.seed, std::thread::current().id()));
    let node = Node::new(&command()).expect("a command");
    play(story, &node, &folder.0)
        .unwrap_or_else(|failed| panic!("{} (seed {}): {}", story.title, story.seed, failed.broken))
}
