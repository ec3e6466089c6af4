//! Where things stand in the repository, and how C is compiled.
#![allow(dead_code)] // each test uses some of it

use std::ffi::OsStr;
use std::path::{Path, PathBuf};
use std::process::Command;
use std::{env, fs};

pub fn root() -> PathBuf {
    Path::new(env!("CARGO_MANIFEST_DIR")).join("..")
}

pub fn text(file: &str) -> String {
    fs::read_to_string(root().join(file)).unwrap()
}

/// A path of its own for what a test writes.
pub fn scratch(name: &str) -> PathBuf {
    Path::new(env!("CARGO_TARGET_TMPDIR")).join(name)
}

/// The archive that the bindings link, as `build.rs` finds it.
fn archive() -> PathBuf {
    let folder = env::var_os("ZANKEZURT_ARCHIVE").map_or_else(|| root().join("target/staticlib"), PathBuf::from);
    folder.join("libmonitor_c.a")
}

/// What the C compiler, strict and with the header's folder, makes of a source; the words follow the source.
fn compile(source: &str, words: &[&OsStr], name: &str) -> PathBuf {
    let built = scratch(name);
    let mut compiler = Command::new("cc");
    compiler.args(["-std=c99", "-pedantic", "-Wall", "-Wextra", "-Werror", "-I"]).arg(root().join("include"));
    compiler.arg(root().join(source)).args(words).arg("-o").arg(&built);
    assert!(compiler.status().unwrap().success());
    built
}

/// A program in C, linked with the archive.
pub fn build_program(source: &str, name: &str) -> PathBuf {
    compile(source, &[archive().as_os_str()], name)
}

/// A shared object in C, for LD_PRELOAD.
pub fn build_shared(source: &str, name: &str) -> PathBuf {
    compile(source, &["-shared".as_ref(), "-fPIC".as_ref()], name)
}

/// An example in Rust: Cargo builds them before the tests, in the folder beside theirs.
pub fn example(name: &str) -> PathBuf {
    let test = env::current_exe().unwrap();
    test.parent().and_then(Path::parent).unwrap().join("examples").join(name)
}
