//! What the README shows and asks a script to do.

use conformance::process::{compile_rule, root, show, told};
use oracle::program::run;
use std::fs;
use std::process::Command;

/// The lines of the README that are code, by their paragraphs.
fn code() -> Vec<String> {
    let readme = fs::read_to_string(root().join("README.md")).unwrap();
    let paragraphs = readme.split("\n\n").filter(|paragraph| paragraph.starts_with("    "));
    paragraphs.map(|paragraph| paragraph.lines().map(|line| line[4..].to_string() + "\n").collect()).collect()
}

#[test]
fn the_demo_is_shown_as_it_is_printed() {
    let text = fs::read_to_string(root().join("demo/bakery.txt")).unwrap();
    let refused = told(&run(&fs::read(root().join("demo/bakery.bin")).unwrap()).refused);
    assert!(code().contains(&text) && code().contains(&refused));
}

/// What a paragraph of the README prints, on standard output and on standard error.
fn run_in_shell(script: &str) -> [String; 2] {
    let output = Command::new("sh").arg("-c").arg(script).current_dir(root()).output().unwrap();
    [show(&output.stdout), show(&output.stderr)]
}

/// The commands of the section on rules as text print what the paragraphs behind them show.
#[test]
fn a_rule_is_typed_and_its_sheet_is_printed() {
    let code = code();
    let at = code.iter().position(|paragraph| paragraph.contains("demo/frame.py")).unwrap();
    assert!(compile_rule().exists());
    assert_eq!(run_in_shell(&code[at]), [code[at + 1].clone(), String::new()]);
    assert_eq!(run_in_shell(&code[at + 2]), [String::new(), code[at + 3].clone()]);
}

/// What the script that asks whether a sheet is whole prints, with this in place of the demo's input.
fn script(input: &str) -> String {
    let code = code();
    let script = code.iter().find(|paragraph| paragraph.contains("echo whole")).unwrap();
    let [printed, _] = run_in_shell(&script.replace("demo/bakery.bin", input));
    printed
}

/// In one test, since the script writes its files.
#[test]
fn the_script_tells_a_whole_sheet_from_a_cut_one() {
    assert_eq!(script("demo/bakery.bin"), "whole\n");
    assert_eq!(script("/dev/null"), "whole\n");
    assert_eq!(script("/"), "");
}
