//! The commands of docs/EMBEDDING.md run as they stand there, print what it says, and no call outgrows its planned stack.

mod common;

use common::{root, text};
use std::process::Command;

const DOCUMENT: &str = "docs/EMBEDDING.md";

/// A block between fences: its language, and its lines.
type Block = (String, String);

fn blocks(document: &str) -> Vec<Block> {
    let fenced = document.split("\n```").skip(1).step_by(2);
    fenced
        .map(|block| block.split_once('\n').unwrap())
        .map(|(language, lines)| (language.to_string(), format!("{lines}\n")))
        .collect()
}

/// The prover, the build and these tests are run by the gate itself.
fn is_of_the_gate(commands: &str) -> bool {
    ["rt ", "tools/build ", "cargo test "].iter().any(|command| commands.starts_with(command))
}

/// What commands print, in the repository's root; they must succeed.
fn shell(commands: &str) -> String {
    let output = Command::new("sh").args(["-e", "-c", commands]).current_dir(root()).output().unwrap();
    assert!(output.status.success(), "{commands}{}", String::from_utf8_lossy(&output.stderr));
    String::from_utf8(output.stdout).unwrap()
}

#[test]
fn the_commands_run() {
    let blocks = blocks(&text(DOCUMENT));
    for (i, (language, commands)) in blocks.iter().enumerate() {
        if language != "sh" || is_of_the_gate(commands) {
            continue;
        }
        let printed = shell(commands);
        if let Some((_, expected)) = blocks.get(i + 1).filter(|(language, _)| language == "text") {
            assert_eq!(printed, *expected, "{commands}");
        }
    }
}

/// The plan for a call in the document's table, in bytes.
fn plan(document: &str, call: &str) -> usize {
    let row = document.lines().find(|line| line.starts_with(&format!("| `{call}` |"))).unwrap();
    let kibibytes = row.trim_end_matches(" KiB |").rsplit(' ').next().unwrap();
    1024 * kibibytes.parse::<usize>().unwrap()
}

#[test]
fn no_call_outgrows_its_stack() {
    let document = text(DOCUMENT);
    for line in shell("bench/stack/run").lines() {
        let [call, bound, painted] = line.split(' ').collect::<Vec<_>>()[..] else { panic!("{line}") };
        let [bound, painted]: [usize; 2] = [bound, painted].map(|bytes| bytes.parse().unwrap());
        assert!(painted <= bound && bound <= plan(&document, call), "{line}");
    }
}
