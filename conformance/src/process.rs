//! The printing program as a process, and what is expected of it; and the program that prints vectors of the knowledge.

use oracle::program::Refused;
use std::io::Write;
use std::path::{Path, PathBuf};
use std::process::{Command, Output, Stdio};
use std::sync::OnceLock;
use std::{env, fs, thread};

/// The repository.
pub fn root() -> PathBuf {
    Path::new(env!("CARGO_MANIFEST_DIR")).join("..")
}

/// `target/bin/release_sheet` of the repository, or what ZANKEZURT_PROGRAM says.
pub fn program() -> PathBuf {
    built("release_sheet", "ZANKEZURT_PROGRAM")
}

/// `target/bin/knowledge_vectors` of the repository, or what ZANKEZURT_KNOWLEDGE_VECTORS says.
pub fn knowledge_vectors() -> PathBuf {
    built("knowledge_vectors", "ZANKEZURT_KNOWLEDGE_VECTORS")
}

/// `target/bin/compile_rule` of the repository, or what ZANKEZURT_COMPILE_RULE says.
pub fn compile_rule() -> PathBuf {
    built("compile_rule", "ZANKEZURT_COMPILE_RULE")
}

fn built(name: &str, variable: &str) -> PathBuf {
    let beside = || root().join("target/bin").join(name);
    let program = env::var(variable).map_or_else(|_| beside(), PathBuf::from);
    assert!(program.exists(), "no {}: run `tools/build {name}` first", program.display());
    program
}

/// What the printing program does with this standard input.
pub fn printed(input: &[u8]) -> Output {
    printed_by(&program(), input)
}

/// What a program does with this standard input, which reaches it through a pipe and in pieces.
pub fn printed_by(program: &Path, input: &[u8]) -> Output {
    let mut command = Command::new(program);
    command.stdin(Stdio::piped()).stdout(Stdio::piped()).stderr(Stdio::piped());
    let mut child = command.spawn().unwrap();
    let mut stdin = child.stdin.take().unwrap();
    let output = thread::scope(|scope| {
        // The program may end before it has read everything, where the policy is refused.
        scope.spawn(move || input.chunks(1 + input.len() / 3).all(|piece| stdin.write_all(piece).is_ok()));
        child.wait_with_output().unwrap()
    });
    assert!(output.status.success(), "{output:?} for {input:?}");
    output
}

/// Why a call is refused, in the program's words: the third column of the README's table of refusals, by number.
fn reason(number: u8) -> &'static str {
    static README: OnceLock<String> = OnceLock::new();
    let readme = README.get_or_init(|| fs::read_to_string(root().join("README.md")).unwrap());
    let row = format!("| {number} | ");
    let row = readme.lines().find(|line| line.starts_with(&row)).unwrap_or_else(|| panic!("no row {number}"));
    row.split(" | ").nth(2).unwrap()
}

/// The lines on standard error for what is refused.
pub fn told(refused: &[Refused]) -> String {
    let line = |Refused { message, start, refusal }: &Refused| {
        let what = message.map_or("card".to_string(), |number| format!("slip {number}"));
        let reason = reason(refusal.number);
        format!("{what} at byte {start} refused {} at {}: {reason}\n", refusal.number, refusal.place)
    };
    refused.iter().map(line).collect()
}

/// The bytes as text.
pub fn show(text: &[u8]) -> String {
    String::from_utf8_lossy(text).into_owned()
}

/// A standard input, and where in it each message ends.
pub struct Input {
    pub bytes: Vec<u8>,
    pub policy_end: usize,
    pub ends: Vec<usize>,
}

pub fn input(policy: &[u8], messages: &[Vec<u8>]) -> Input {
    let mut bytes = (policy.len() as u16).to_le_bytes().to_vec();
    bytes.extend(policy);
    let policy_end = bytes.len();
    let mut ends = Vec::new();
    for message in messages {
        bytes.push(message.len() as u8);
        bytes.extend(message);
        ends.push(bytes.len());
    }
    Input { bytes, policy_end, ends }
}
