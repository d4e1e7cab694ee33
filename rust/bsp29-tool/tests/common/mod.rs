//! Running the tool in tests.

#![allow(dead_code)]

pub mod slow;

use std::path::PathBuf;
use std::process::{Command, Output};

/// The repository, in which the tool is run, so that its outputs name no folder above it.
pub fn root() -> PathBuf {
    PathBuf::from(concat!(env!("CARGO_MANIFEST_DIR"), "/../.."))
}

/// A folder for what a test writes, empty; its name from the repository on.
pub fn folder(name: &str) -> String {
    let folder = format!("rust/bsp29-tool/target/tests/{name}");
    let path = root().join(&folder);
    let _ = std::fs::remove_dir_all(&path);
    std::fs::create_dir_all(&path).unwrap();
    folder
}

/// Runs the tool.
pub fn run(args: &[&str]) -> Output {
    Command::new(env!("CARGO_BIN_EXE_bsp29")).args(args).current_dir(root()).output().unwrap()
}

/// The status that the tool ended with; a signal is no status.
pub fn status(output: &Output) -> i32 {
    output.status.code().expect("the tool ended by a signal")
}

/// Whether an output holds no control character but line breaks.
pub fn is_plain(bytes: &[u8]) -> bool {
    std::str::from_utf8(bytes).is_ok_and(|text| text.chars().all(|c| c == '\n' || !c.is_control()))
}
