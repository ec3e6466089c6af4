//! The journal example: whatever the moment of a power cut, every message that was acknowledged is found after it, and once the radios have
//! sent again what was not acknowledged the sheet is the one without the cut. Two radios send at once.
#![cfg(feature = "alloc")]

mod common;

use common::{build_shared, example, root, scratch, text};
use std::collections::BTreeSet;
use std::fs;
use std::io::{BufRead, BufReader};
use std::os::unix::process::ExitStatusExt;
use std::path::{Path, PathBuf};
use std::process::{Child, Command, ExitStatus, Stdio};
use std::sync::OnceLock;
use zankezurt::Shift;

const SLOT: usize = 32;
const SIGKILL: i32 = 9;
const CONTRADICTED: usize = 5;

/// When the power is cut, and what then becomes of bytes that are not on the disk.
#[derive(Clone, Copy, Debug, Default)]
struct Cut {
    /// At which write, truncation or sync of the journal.
    at: usize,
    /// How many of the bytes stay.
    keep: usize,
    /// The others read as zeros, and are not missing.
    zeros: bool,
    /// The power stays, and the write, truncation or sync fails.
    error: bool,
}

/// What becomes of a slot that is not on the disk: nothing of it stays, a part, or all.
const LOSSES: [(usize, bool); 8] =
    [(0, false), (1, false), (11, false), (29, false), (31, false), (32, false), (0, true), (5, true)];

/// A hub in a folder of its own, with a policy, a journal and two radios.
struct Hub {
    folder: PathBuf,
    messages: BTreeSet<String>,
}

/// Two that are ill-formed: one has room in the journal, the other not.
const ILL_FORMED: [&[u8]; 2] = [&[0x00], &[0xFF; 40]];

/// What a run of the hub printed, until its end or the cut.
#[derive(Debug)]
struct Printed {
    status: ExitStatus,
    replayed: BTreeSet<String>,
    acknowledged: BTreeSet<String>,
    sheet: Vec<String>,
}

/// The bakery's policy and its messages. The last one contradicts another, `CONTRADICTED`.
fn bakery() -> (Vec<u8>, Vec<Vec<u8>>) {
    let bytes = fs::read(root().join("demo/bakery.bin")).unwrap();
    let length = u16::from_le_bytes([bytes[0], bytes[1]]).into();
    let (policy, mut rest) = bytes[2..].split_at(length);
    let mut messages = Vec::new();
    while let Some((&length, after)) = rest.split_first() {
        let (message, others) = after.split_at(length.into());
        messages.push(message.to_vec());
        rest = others;
    }
    (policy.to_vec(), messages)
}

/// What a radio brings: every other message, one that the other radio brings too, and the ill-formed ones.
fn brought(radio: usize, messages: &[Vec<u8>]) -> Vec<u8> {
    let own = messages.iter().enumerate().filter(|(i, _)| i % 2 == radio || *i == 4);
    framed(own.map(|(_, message)| &message[..]).chain(ILL_FORMED))
}

/// Each message after its length.
fn framed<'a>(messages: impl IntoIterator<Item = &'a [u8]>) -> Vec<u8> {
    messages.into_iter().flat_map(|message| [&[message.len() as u8], message].concat()).collect()
}

/// The sheet of the whole shift.
fn whole_sheet() -> Vec<String> {
    let printed = text("demo/bakery.txt");
    printed.lines().filter(|line| !line.starts_with("taken")).map(str::to_string).collect()
}

/// The sheet of a shift that took these messages and no others.
fn sheet_of<'a>(messages: impl IntoIterator<Item = &'a String>) -> Vec<String> {
    let mut shift = Shift::open(&bakery().0).unwrap();
    for message in messages {
        let _ = shift.receive(&bytes_of(message));
    }
    shift.verdicts().map(|(minute, rule, verdict)| format!("{minute} {rule} {verdict}")).collect()
}

fn hexadecimal(bytes: &[u8]) -> String {
    bytes.iter().map(|byte| format!("{byte:02x}")).collect()
}

fn bytes_of(digits: &str) -> Vec<u8> {
    (0..digits.len()).step_by(2).map(|i| u8::from_str_radix(&digits[i..i + 2], 16).unwrap()).collect()
}

/// The disk whose power is cut.
fn disk() -> &'static Path {
    static BUILT: OnceLock<PathBuf> = OnceLock::new();
    BUILT.get_or_init(|| build_shared("bindings/tests/power_cut.c", "power_cut.so"))
}

impl Hub {
    fn new(name: &str) -> Hub {
        let folder = scratch(name);
        fs::create_dir_all(&folder).unwrap();
        let (policy, mut messages) = bakery();
        messages.pop();
        fs::write(folder.join("policy"), policy).unwrap();
        let hub = Hub { folder, messages: messages.iter().map(|message| hexadecimal(message)).collect() };
        for (number, radio) in hub.radios().iter().enumerate() {
            fs::write(radio, brought(number, &messages)).unwrap();
        }
        hub.forget();
        hub
    }

    fn radios(&self) -> [PathBuf; 2] {
        [self.folder.join("radio 0"), self.folder.join("radio 1")]
    }

    fn journal(&self) -> PathBuf {
        self.folder.join("journal")
    }

    /// Removes the journal, if there is one.
    fn forget(&self) {
        let _ = fs::remove_file(self.journal());
    }

    fn command(&self, radios: &[PathBuf]) -> Command {
        let mut command = Command::new(example("journal"));
        command.arg(self.folder.join("policy")).arg(self.journal()).args(radios);
        command.stdout(Stdio::piped()).stderr(Stdio::null());
        command
    }

    /// Runs the hub on the disk, to its end or to the cut.
    fn run(&self, radios: &[PathBuf], cut: Option<Cut>) -> Printed {
        let mut command = self.command(radios);
        command.env("LD_PRELOAD", disk()).env("CUT_FILE", self.journal());
        if let Some(Cut { at, keep, zeros, error }) = cut {
            command.env("CUT_AT", at.to_string()).env("CUT_KEEP", keep.to_string());
            command.env("CUT_ZEROS", u8::from(zeros).to_string()).env("CUT_ERROR", u8::from(error).to_string());
        }
        let mut hub = command.spawn().unwrap();
        let lines: Vec<String> = lines(&mut hub).collect();
        Printed::of(&lines, hub.wait().unwrap())
    }

    /// Of these, what radios brought and a journal has room for.
    fn kept(&self, messages: &BTreeSet<String>) -> BTreeSet<String> {
        let ill_formed = hexadecimal(ILL_FORMED[0]);
        messages.iter().filter(|&message| self.messages.contains(message) || *message == ill_formed).cloned().collect()
    }

    /// After a cut: a restart finds all that was acknowledged and has its sheet, and a further one, in which the radios send all again, has the
    /// sheet of the whole shift.
    fn assert_recovers(&self, before: &Printed, context: &str) {
        let found = self.run(&[], None);
        assert!(found.finished(), "{context}");
        assert!(self.kept(&before.acknowledged).is_subset(&found.replayed), "{context}: {before:?} {found:?}");
        assert_eq!(self.kept(&found.replayed), found.replayed, "{context}");
        assert_eq!(found.sheet, sheet_of(&found.replayed), "{context}");
        assert_eq!(fs::metadata(self.journal()).unwrap().len() % SLOT as u64, 0, "{context}");

        let again = self.run(&self.radios(), None);
        assert!(again.finished() && again.acknowledged.is_superset(&self.messages), "{context}");
        assert_eq!(again.sheet, whole_sheet(), "{context}");
    }
}

impl Printed {
    fn of(lines: &[String], status: ExitStatus) -> Printed {
        let after = |word| lines.iter().filter_map(move |line| line.strip_prefix(word));
        // the radio's digit and a space, then the message
        let message = |told: &str| told[2..].split(':').next().unwrap().to_string();
        Printed {
            status,
            replayed: after("replayed ").map(str::to_string).collect(),
            acknowledged: after("acknowledged ").map(message).collect(),
            sheet: lines
                .iter()
                .filter(|line| line.starts_with(|letter: char| letter.is_ascii_digit()))
                .cloned()
                .collect(),
        }
    }

    /// It came to its end; else it was killed.
    fn finished(&self) -> bool {
        assert!(self.status.success() || self.status.signal() == Some(SIGKILL), "{self:?}");
        self.status.success()
    }

    /// It stopped by itself, before it took a message.
    fn stopped(&self) -> bool {
        self.status.code() == Some(1) && self.replayed.is_empty() && self.acknowledged.is_empty()
    }
}

/// The lines that a hub prints.
fn lines(hub: &mut Child) -> impl Iterator<Item = String> {
    BufReader::new(hub.stdout.take().unwrap()).lines().map(Result::unwrap)
}

/// A cut at every write, truncation and sync, with every loss.
#[test]
fn a_cut_at_every_point() {
    let hub = Hub::new("cut at every point");
    for (keep, zeros) in LOSSES {
        for at in 0.. {
            hub.forget();
            let cut = Cut { at, keep, zeros, ..Cut::default() };
            let before = hub.run(&hub.radios(), Some(cut));
            if before.finished() {
                assert_eq!(before.sheet, whole_sheet());
                assert!(at > 2 * hub.messages.len(), "{cut:?}");
                break;
            }
            hub.assert_recovers(&before, &format!("{cut:?}"));
        }
    }
}

/// A second cut, at every point of the start after a cut that tore a slot, and of what follows.
#[test]
fn a_cut_while_starting_again() {
    let hub = Hub::new("cut while starting again");
    let first = Cut { at: 8, keep: 11, ..Cut::default() };
    for (keep, zeros) in [(0, false), (11, false), (5, true)] {
        for at in 0.. {
            hub.forget();
            let mut before = hub.run(&hub.radios(), Some(first));
            assert_eq!(fs::metadata(hub.journal()).unwrap().len() % SLOT as u64, 11);
            let second = Cut { at, keep, zeros, ..Cut::default() };
            let between = hub.run(&hub.radios(), Some(second));
            before.acknowledged.extend(between.acknowledged.iter().cloned());
            hub.assert_recovers(&before, &format!("{second:?}"));
            if between.finished() {
                break;
            }
        }
    }
}

/// A write, truncation or sync that fails: the hub stops, and nothing that it acknowledged is lost.
#[test]
fn a_disk_that_fails() {
    let hub = Hub::new("disk that fails");
    for keep in [0, 11, 31] {
        for at in 0.. {
            hub.forget();
            let failure = Cut { at, keep, error: true, ..Cut::default() };
            let before = hub.run(&hub.radios(), Some(failure));
            hub.assert_recovers(&before, &format!("{failure:?}"));
            if before.status.success() {
                break;
            }
            assert_eq!(before.status.code(), Some(1));
        }
    }
}

/// Killed from outside, on the machine's own disk, after so many acknowledgements.
#[test]
fn killed_from_outside() {
    let hub = Hub::new("killed from outside");
    for count in 0..=hub.messages.len() {
        hub.forget();
        let mut child = hub.command(&hub.radios()).spawn().unwrap();
        let mut lines = lines(&mut child);
        let mut read: Vec<String> = lines.by_ref().take(count).collect();
        child.kill().unwrap();
        read.extend(lines);
        hub.assert_recovers(&Printed::of(&read, child.wait().unwrap()), &format!("after {count}"));
    }
}

/// Of two messages that contradict each other the first is taken, and after a restart it is the first again.
#[test]
fn contradicting_messages_keep_their_order() {
    let hub = Hub::new("contradicting");
    let messages = bakery().1;
    for (radio, i) in hub.radios().iter().zip([CONTRADICTED, messages.len() - 1]) {
        fs::write(radio, framed([&messages[0][..], &messages[i]])).unwrap();
    }
    for _ in 0..10 {
        hub.forget();
        let before = hub.run(&hub.radios(), None);
        assert_eq!(hub.run(&[], None).sheet, before.sheet);
    }
}

#[test]
fn a_damaged_slot_hides_no_other() {
    let hub = Hub::new("damaged slot");
    assert!(hub.run(&hub.radios(), None).finished());
    let whole = fs::read(hub.journal()).unwrap();
    for slot in (SLOT..whole.len()).step_by(SLOT) {
        let mut damaged = whole.clone();
        damaged[slot + slot / SLOT] ^= 0x10;
        fs::write(hub.journal(), &damaged).unwrap();
        let lost = hexadecimal(&whole[slot + 1..][..whole[slot].into()]);
        let found = hub.run(&[], None).replayed;
        assert!(hub.messages.iter().all(|message| *message == lost || found.contains(message)), "slot at {slot}");
        assert_eq!(hub.kept(&found), found, "slot at {slot}");
    }
}

/// The hub leaves alone, and does not run on, a file that is not its own journal.
#[test]
fn a_file_that_is_not_its_journal() {
    let hub = Hub::new("not its journal");
    assert!(hub.run(&hub.radios(), None).finished());
    let mut other = fs::read(hub.journal()).unwrap();
    other[10] ^= 1; // the policy's sum
    for file in [&other[..], b"notes", &other[..SLOT]] {
        fs::write(hub.journal(), file).unwrap();
        assert!(hub.run(&hub.radios(), None).stopped());
        assert_eq!(fs::read(hub.journal()).unwrap(), file);
    }
}

#[test]
fn one_hub_at_a_time() {
    let hub = Hub::new("one at a time");
    assert!(hub.run(&hub.radios(), None).finished());
    let journal = fs::File::open(hub.journal()).unwrap();
    journal.lock().unwrap();
    assert!(hub.run(&hub.radios(), None).stopped());
    journal.unlock().unwrap();
    assert!(hub.run(&hub.radios(), None).finished());
}
