//! The printing program where its input or its output pauses, fails or is closed.

use conformance::process::{input, program, root, show, told};
use oracle::policy::MOST_MINUTES;
use oracle::program::run;
use std::fs::{File, OpenOptions};
use std::io::{PipeWriter, Read, Write};
use std::os::fd::{AsRawFd, OwnedFd};
use std::os::unix::fs::OpenOptionsExt;
use std::os::unix::net::UnixDatagram;
use std::process::{Command, Output, Stdio};
use std::time::Duration;
use std::{env, fs, io, process, thread};

/// One component that observes at every minute of the longest trace, under 8 rules that always hold: 8,192 lines, more
/// than a pipe holds, and one message that is refused.
fn many_verdicts() -> Vec<u8> {
    let policy = [[1, 1, 0x00, 0x04, 8].as_slice(), &[0x20; 8]].concat();
    let message = |minute: u16| [&[6][..], &minute.to_le_bytes(), &(minute + 1).to_le_bytes()].concat();
    let mut messages = vec![vec![4, 1, 0], vec![0]];
    messages.extend((1..MOST_MINUTES as u16).map(message));
    input(&policy, &messages).bytes
}

/// An end of a pipe, opened again so that it never waits.
fn impatient(end: &impl AsRawFd, options: &mut OpenOptions) -> File {
    const NON_BLOCKING: i32 = 0o4000;
    options.custom_flags(NON_BLOCKING).open(format!("/proc/self/fd/{}", end.as_raw_fd())).unwrap()
}

const PAUSE: Duration = Duration::from_millis(200);

/// An input that never waits and pauses between its pieces is read to its end.
#[test]
fn an_input_that_would_block() {
    let (reader, mut writer) = io::pipe().unwrap();
    let input = fs::read(root().join("demo/bakery.bin")).unwrap();
    let mut command = Command::new(program());
    command.stdin(impatient(&reader, OpenOptions::new().read(true))).stdout(Stdio::piped()).stderr(Stdio::piped());
    let child = command.spawn().unwrap();
    drop((reader, command));
    for piece in input.chunks(60) {
        thread::sleep(PAUSE);
        writer.write_all(piece).unwrap();
    }
    drop(writer);
    let output = child.wait_with_output().unwrap();
    let expected = run(&input);
    assert_eq!((show(&output.stdout), show(&output.stderr)), (expected.text, told(&expected.refused)));
}

/// An output that never waits is written whole to a reader that is slow.
#[test]
fn an_output_that_would_block() {
    let (mut reader, writer) = io::pipe().unwrap();
    let input = many_verdicts();
    let mut command = Command::new(program());
    command.stdin(Stdio::piped()).stdout(impatient(&writer, OpenOptions::new().write(true))).stderr(Stdio::null());
    let mut child = command.spawn().unwrap();
    drop((writer, command));
    child.stdin.take().unwrap().write_all(&input).unwrap();
    thread::sleep(PAUSE);
    let mut text = String::new();
    reader.read_to_string(&mut text).unwrap();
    assert!(child.wait().unwrap().success());
    assert_eq!(text, run(&input).text);
}

/// Of a sheet that is written in pieces each piece ends with a line. Each write is a datagram of its own.
#[test]
fn a_long_sheet_is_written_in_lines() {
    let (reader, writer) = UnixDatagram::pair().unwrap();
    reader.set_read_timeout(Some(100 * PAUSE)).unwrap();
    let input = many_verdicts();
    let mut command = Command::new(program());
    command.stdin(Stdio::piped()).stdout(OwnedFd::from(writer)).stderr(Stdio::null());
    let mut child = command.spawn().unwrap();
    drop(command);
    child.stdin.take().unwrap().write_all(&input).unwrap();
    let expected = run(&input).text;
    let mut text = Vec::new();
    let mut pieces = 0;
    while text.len() < expected.len() {
        let mut piece = vec![0; 2 * expected.len()];
        let size = reader.recv(&mut piece).unwrap();
        text.extend(&piece[..size]);
        assert_eq!(text.last(), Some(&b'\n'));
        pieces += 1;
    }
    assert!(child.wait().unwrap().success());
    assert_eq!(show(&text), expected);
    assert!(pieces > 1);
}

/// What the program does where its input is a file and its output goes to a file.
fn between(command: &mut Command, input: File, output: impl Into<Stdio>) -> Output {
    command.stdin(input).stdout(output).stderr(Stdio::piped()).spawn().unwrap().wait_with_output().unwrap()
}

fn bakery() -> File {
    File::open(root().join("demo/bakery.bin")).unwrap()
}

/// An input that cannot be read is said to be cut, and what came before counts as all of it.
#[test]
fn an_input_that_fails() {
    let output = between(&mut Command::new(program()), File::open("/").unwrap(), Stdio::piped());
    assert_eq!(show(&output.stdout), run(&[]).text);
    assert_eq!(show(&output.stderr), "input cut: Is a directory\n".to_string() + &told(&run(&[]).refused));
}

/// The lines about the bakery's refusal, and that the output was cut.
fn output_cut(why: &str) -> String {
    let input = fs::read(root().join("demo/bakery.bin")).unwrap();
    format!("{}output cut: {why}\n", told(&run(&input).refused))
}

/// An output that takes nothing is said to be cut.
#[test]
fn an_output_that_is_full() {
    let full = OpenOptions::new().write(true).open("/dev/full").unwrap();
    let output = between(&mut Command::new(program()), bakery(), full);
    assert!(output.status.success());
    assert_eq!(show(&output.stderr), output_cut("No space left on device"));
}

/// A pipe's end whose other end is closed.
fn closed_pipe() -> PipeWriter {
    io::pipe().unwrap().1
}

/// Where nobody reads the output, it is said to be cut: the program ignores SIGPIPE, as every program of Rattle's does, and
/// also where that was ignored before.
#[test]
fn an_output_that_is_closed() {
    let alone = between(&mut Command::new(program()), bakery(), closed_pipe());
    assert!(alone.status.success());
    assert_eq!(show(&alone.stderr), output_cut("Broken pipe"));
    let mut shell = Command::new("sh");
    shell.args(["-c", "trap '' PIPE; exec \"$0\""]).arg(program());
    let told = between(&mut shell, bakery(), closed_pipe());
    assert!(told.status.success());
    assert_eq!(show(&told.stderr), output_cut("Broken pipe"));
}

/// After a write that failed nothing more is written, so that what is printed has no gap.
#[test]
fn nothing_follows_a_cut() {
    let path = env::temp_dir().join(format!("zankezurt-cut-{}", process::id()));
    let mut shell = Command::new("sh");
    shell.args(["-c", "trap '' XFSZ; ulimit -f 8; exec \"$0\" > \"$1\""]).arg(program()).arg(&path);
    let mut child = shell.stdin(Stdio::piped()).stderr(Stdio::piped()).spawn().unwrap();
    child.stdin.take().unwrap().write_all(&many_verdicts()).unwrap();
    let output = child.wait_with_output().unwrap();
    let written = fs::read_to_string(&path).unwrap();
    fs::remove_file(&path).unwrap();
    assert!(!written.is_empty() && run(&many_verdicts()).text.starts_with(&written));
    assert!(!written.contains("taken") && show(&output.stderr).ends_with("output cut: File too large\n"));
}
