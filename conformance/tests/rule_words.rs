//! What the program `compile_rule` prints, and what it tells of a text that is refused.

use conformance::process::{compile_rule, show};
use std::fs::File;
use std::io::Write;
use std::os::fd::OwnedFd;
use std::os::unix::net::UnixDatagram;
use std::process::{Command, Stdio};
use std::time::Duration;

/// Standard output and standard error of the program.
fn compiled(sizes: &[&str], text: &[u8]) -> (Vec<u8>, String) {
    let mut command = Command::new(compile_rule());
    command.args(sizes).stdin(Stdio::piped()).stdout(Stdio::piped()).stderr(Stdio::piped());
    let mut child = command.spawn().unwrap();
    // The program ends before it has read anything, where its arguments are wrong.
    let _ = child.stdin.take().unwrap().write_all(text);
    let output = child.wait_with_output().unwrap();
    assert!(output.status.success());
    (output.stdout, show(&output.stderr))
}

const SIZES: [&str; 3] = ["8", "2", "480"];

/// Texts, with a refusal's number, its place and its words.
const UNREADABLE: [(&str, &str); 50] = [
    ("", "13 at 0: expected a term"),
    ("x", "13 at 0: expected a term"),
    (" m1", "13 at 0: expected a term"),
    ("\u{7}m1", "13 at 0: expected a term"),
    ("größer", "13 at 0: expected a term"),
    ("m1\n", "13 at 2: expected the end"),
    ("(", "13 at 1: expected a term"),
    ("()", "13 at 1: expected a term"),
    ("(m1 or ", "13 at 7: expected a term"),
    ("(m1 or  m2)", "13 at 7: expected a term"),
    ("not  m1", "13 at 4: expected a term"),
    ("t", "13 at 1: expected true"),
    ("tx", "13 at 1: expected true"),
    ("trud", "13 at 3: expected true"),
    ("no", "13 at 2: expected not"),
    ("nuts", "13 at 1: expected not"),
    ("not", "13 at 3: expected a space"),
    ("nothing", "13 at 3: expected a space"),
    ("m", "13 at 1: expected a number"),
    ("m x", "13 at 1: expected a number"),
    ("m1 ", "13 at 2: expected the end"),
    ("m0x", "13 at 2: expected the end"),
    ("truer", "13 at 4: expected the end"),
    ("(m1 or m2) or m3", "13 at 10: expected the end"),
    ("m01", "13 at 2: a number has no leading zero"),
    ("m00", "13 at 2: a number has no leading zero"),
    ("(m0", "13 at 3: expected a space"),
    ("(m1)", "13 at 3: expected a space"),
    ("((m1 or m2)", "13 at 11: expected a space"),
    ("(m1  or m2)", "13 at 4: expected or, and, since or until"),
    ("(m1 xor m2)", "13 at 4: expected or, and, since or until"),
    ("((m1 or m2) x", "13 at 12: expected or, and, since or until"),
    ("(m1 o m2)", "13 at 5: expected or"),
    ("(m1 ant m2)", "13 at 6: expected and"),
    ("(m1 sinse m2)", "13 at 7: expected since"),
    ("(m1 unti", "13 at 8: expected until"),
    ("(m1 orm2)", "13 at 6: expected a space"),
    ("(m1 andm2)", "13 at 7: expected a space"),
    ("(m1 untill[0,1] m2)", "13 at 9: expected \"[\""),
    ("(m1 since [0,1] m2)", "13 at 9: expected \"[\""),
    ("(m1 since[,1] m2)", "13 at 10: expected a number"),
    ("(m1 since[0, 1] m2)", "13 at 12: expected a number"),
    ("(m1 since[0;1] m2)", "13 at 11: expected \",\""),
    ("(m1 since[01,2] m2)", "13 at 11: a number has no leading zero"),
    ("(m1 since[10,1x] m2)", "13 at 14: expected \"]\""),
    ("(m1 since[0,01] m2)", "13 at 13: a number has no leading zero"),
    ("(m1 since[0,1]m2)", "13 at 14: expected a space"),
    ("(m1 or m2 or m3)", "13 at 9: expected \")\""),
    ("(true or (m1 and m2)", "13 at 20: expected \")\""),
    ("(m1 or m2x)", "13 at 9: expected \")\""),
];

const TOO_MUCH: [(&str, &str); 10] = [
    ("m8", "14 at 1: mark 8 of 8"),
    ("(m1 or m9)", "14 at 8: mark 9 of 8"),
    ("m12345678901234567890", "14 at 1: mark 12345678901234567890 of 8"),
    ("m123456789012345678901", "14 at 1: mark 12345678901234567890.. of 8"),
    ("(m1 since[2000,3000] m2)", "14 at 10: bound 2000 above 1023"),
    ("(m1 since[3,1024", "14 at 12: bound 1024 above 1023"),
    ("(m1 until[5,3] m2)", "14 at 9: interval from 5 to 3"),
    ("(m1 until[2000,3] m2)", "14 at 9: interval from 2000 to 3"),
    ("(m1 until[2000,0]", "14 at 9: interval from 2000 to 0"),
    ("(m9 until[2000,0] m2)", "14 at 2: mark 9 of 8"),
];

/// Texts at the limits of terms and of brackets.
fn long() -> Vec<(String, &'static str)> {
    let nots = |n: usize, rest: &str| "not ".repeat(n) + rest;
    vec![
        (nots(64, ""), "14 at 256: more than 64 terms"),
        (nots(64, "m1"), "14 at 256: more than 64 terms"),
        (nots(64, "5"), "14 at 256: more than 64 terms"),
        (nots(40, &"(".repeat(25)), "14 at 184: more than 64 terms"),
        (nots(63, ""), "13 at 252: expected a term"),
        ("(".repeat(32), "13 at 32: expected a term"),
        ("(".repeat(33), "14 at 32: brackets nested deeper than 32"),
        ("(m1 or ".repeat(32) + "(m2 or m3)", "14 at 224: brackets nested deeper than 32"),
        ("(m1 or ".repeat(31) + "m2 or", "13 at 219: expected \")\""),
    ]
}

/// The text as it is shown, a caret under the place, and the words.
fn told(text: &str, words: &str) -> String {
    let place: usize = words.split([' ', ':']).nth(2).unwrap().parse().unwrap();
    let shown: String = text.bytes().map(|byte| if (32..127).contains(&byte) { byte as char } else { '?' }).collect();
    format!("{shown}\n{}^ {words}\n", " ".repeat(place))
}

#[test]
fn the_place_and_what_was_expected_there_are_told() {
    let short = UNREADABLE.iter().chain(&TOO_MUCH).map(|(text, words)| (text.to_string(), *words));
    for (text, words) in short.chain(long()) {
        for newline in ["\n", "\r\n"] {
            let (printed, refused) = compiled(&SIZES, (text.clone() + newline).as_bytes());
            assert_eq!((printed, refused), (vec![], told(&text, words)));
        }
    }
}

#[test]
fn sizes_out_of_range_are_told() {
    let ranges = "2 at 0: marks 1 to 32, stations 1 to 16, minutes 1 to 1024\n".to_string();
    for sizes in
        [["0", "1", "1"], ["33", "1", "1"], ["1", "17", "1"], ["1", "1", "1025"], ["1", "1", "99999999999999999999999"]]
    {
        assert_eq!(compiled(&sizes, b"x"), (vec![], ranges.clone()));
    }
}

#[test]
fn wrong_arguments_and_a_text_that_is_too_long_are_told() {
    let usage = "usage: compile_rule MARKS STATIONS MINUTES < RULE > CARD\n".to_string();
    for sizes in [
        &[][..],
        &["8"],
        &["8", "2"],
        &["8", "2", "480", "1"],
        &["8", "2", "x"],
        &["8", "", "480"],
        &["-8", "2", "480"],
    ] {
        assert_eq!(compiled(sizes, b"m1"), (vec![], usage.clone()));
    }
    let long = "the text is longer than 65536 bytes\n".to_string();
    assert_eq!(compiled(&SIZES, &[b'('; 65537]), (vec![], long));
    let (printed, refused) = compiled(&SIZES, &[b'('; 65536]);
    assert!(
        printed.is_empty()
            && refused.ends_with("(\n                                ^ 14 at 32: brackets nested deeper than 32\n")
    );
}

/// What is told of a text, by writes. Each write is a datagram of its own.
fn pieces(text: &[u8]) -> Vec<String> {
    let (reader, writer) = UnixDatagram::pair().unwrap();
    reader.set_read_timeout(Some(Duration::from_secs(20))).unwrap();
    let mut command = Command::new(compile_rule());
    command.args(SIZES).stdin(Stdio::piped()).stdout(Stdio::null()).stderr(OwnedFd::from(writer));
    let mut child = command.spawn().unwrap();
    drop(command);
    child.stdin.take().unwrap().write_all(text).unwrap();
    let mut pieces: Vec<String> = Vec::new();
    while pieces.last().is_none_or(|piece| pieces.len() < 3 || piece != "\n") {
        let mut piece = vec![0; 1 << 17];
        let size = reader.recv(&mut piece).unwrap();
        pieces.push(show(&piece[..size]));
    }
    assert!(child.wait().unwrap().success());
    pieces
}

/// So an error output that takes only a part of a refusal has what there is room for.
#[test]
fn each_piece_of_a_refusal_is_written_by_itself() {
    let start = ["(m1 or m9)", "\n", "        ", "^ ", "14", " at ", "8", ": "];
    let mark = ["mark ", "9", " of ", "8", "\n"];
    assert_eq!(pieces(b"(m1 or m9)"), [&start[..], &mark].concat());
    let interval = ["interval from ", "1024", " to ", "2", "\n"];
    assert_eq!(pieces(b"(m0 since[1024,2] m1)")[8..], interval);
    let long = pieces(&[b'('; 65536]);
    assert_eq!((long[0].len(), long.len()), (65536, 10));
}

#[test]
fn one_newline_at_the_end_is_no_part_of_the_text() {
    let (policy, refused) = compiled(&SIZES, b"(m1 or m2)");
    assert!(!policy.is_empty() && refused.is_empty());
    assert_eq!(compiled(&SIZES, b"(m1 or m2)\n"), (policy.clone(), String::new()));
    assert_eq!(compiled(&SIZES, b"(m1 or m2)\r\n"), (policy, String::new()));
    assert_eq!(compiled(&SIZES, b"m1\n\n").1, told("m1\n", "13 at 2: expected the end"));
}

#[test]
fn an_input_that_cannot_be_read_is_told() {
    let output = Command::new(compile_rule()).args(SIZES).stdin(File::open("/").unwrap()).output().unwrap();
    assert!(output.stdout.is_empty() && output.stderr.starts_with(b"input cut: "));
}
