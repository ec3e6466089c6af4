//! Without its archive, or for another target, the crate's build stops with a sentence that says what to do.

mod common;

use common::{root, scratch};
use std::process::Command;

/// What Cargo says of a build that fails.
fn failure(name: &str, words: &[&str]) -> String {
    let mut cargo = Command::new(env!("CARGO"));
    cargo.args(["check", "--offline", "--quiet", "-p", "zankezurt"]).args(words).current_dir(root());
    cargo.env("ZANKEZURT_ARCHIVE", scratch("no_archive")).env("CARGO_TARGET_DIR", scratch(name));
    let output = cargo.output().unwrap();
    assert!(!output.status.success());
    String::from_utf8(output.stderr).unwrap()
}

#[test]
fn a_missing_archive() {
    let said = failure("without_archive", &[]);
    assert!(said.contains("libmonitor_c.a: run `tools/build monitor_c` first"), "{said}");
}

#[test]
fn another_target() {
    let said = failure("another_target", &["--target", "aarch64-unknown-linux-gnu"]);
    assert!(said.contains("for x86-64 Linux and not for aarch64 linux"), "{said}");
}
