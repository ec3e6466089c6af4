//! The examples of the small shift, in C and in Rust, print its sheet; the one that writes prints what it writes, the one
//! that makes policies of typed rules what they become, and the one of a shift that is known whole its sheet with its blanks.

mod common;

use common::{build_program, text};
use std::path::Path;
use std::process::Command;

/// A policy with the small shift's rule, two of that shift's messages, and the verdicts after them.
const WRITTEN: &str = "\
policy 01 01 04 00 02 01 01 31 08 02 00
message 0C 01 00 01 00 00 00 00
message 0E 02 00 02 00 01 00 00 00 01
0 0 broken
2 0 kept
";

/// The small shift's rule as text and its policy; the same unfinished, with its interval turned round, and of a mark that there is not.
const TYPED: &str = "\
(true since[0,2] m0)
 01 01 04 00 03 00 01 01 35 04 01 02 00
(true since[0,2] m0
                   ^ refused 13
(true since[2,0] m0)
           ^ refused 14
(true since[0,2] m1)
                  ^ refused 14
";

/// A rule that looks 2 minutes ahead and one that looks back, in 6 minutes of which 0, 2, 3 and 4 are busy: at minute 4 the first may be
/// blank, and is.
const FULL: &str = "\
rule 0: reach 2, sure up to minute 3
rule 1: reach 0, sure up to minute 5
0 0 kept
0 1 broken
2 0 kept
2 1 kept
3 0 broken
3 1 kept
4 0 blank
4 1 kept
";

fn assert_prints(program: &Path, expected: &str) {
    let output = Command::new(program).output().unwrap_or_else(|why| panic!("{}: {why}", program.display()));
    assert!(output.status.success());
    assert_eq!(String::from_utf8(output.stdout).unwrap(), expected);
}

fn assert_prints_the_small_shift(program: &Path) {
    assert_prints(program, &text("demo/small-shift.txt"));
}

#[test]
fn the_example_in_c() {
    assert_prints_the_small_shift(&build_program("examples/small_shift.c", "small_shift_c"));
}

#[test]
fn the_example_that_writes_in_c() {
    assert_prints(&build_program("examples/written_shift.c", "written_shift_c"), WRITTEN);
}

#[test]
fn the_example_of_typed_rules_in_c() {
    assert_prints(&build_program("examples/typed_rule.c", "typed_rule_c"), TYPED);
}

#[test]
fn the_example_of_a_full_sheet_in_c() {
    assert_prints(&build_program("examples/full_sheet.c", "full_sheet_c"), FULL);
}

#[cfg(feature = "alloc")]
#[test]
fn the_example_in_rust() {
    assert_prints_the_small_shift(&common::example("small_shift"));
}
