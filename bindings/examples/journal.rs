//! A hub that a power cut doesn't make forget: every message is in a journal on disk before it is acknowledged.
//!
//!     journal POLICY JOURNAL [RADIO]...
//!
//! POLICY is a file with the encoded policy. The journal is made if there is none; what it holds is replayed, and each message of it is
//! printed. Each RADIO is a file, pipe or device that brings messages, each after one length byte, in a thread of its own. A printed line
//! acknowledges a message: it is on the disk, and taken or refused. (One that is too long to be taken is refused, and not kept.) When all
//! radios have ended the release sheet is printed. Any error ends the program.
//!
//! The journal is a row of slots of 32 bytes: the length of the message, the message, zeros, and the CRC-32 of those 28 bytes. The first slot
//! holds a sum of the policy in the place of a message. A slot that a power cut tore fails its CRC and is passed over, and since slots
//! stand at multiples of 32 it hides no other.

use std::error::Error;
use std::fmt;
use std::fs::{self, File};
use std::io::{self, BufRead, BufReader, Read, Write};
use std::path::Path;
use std::sync::{Mutex, MutexGuard};
use std::{env, process, thread};
use zankezurt::{Refusal, Shift};

const SLOT: usize = 32;
/// The bytes of a slot that its CRC covers.
const CHECKED: usize = SLOT - 4;

fn main() {
    let words: Vec<String> = env::args().skip(1).collect();
    let [policy, journal, radios @ ..] = &words[..] else {
        stop("usage: journal POLICY JOURNAL [RADIO]...");
    };
    if let Err(why) = run(Path::new(policy), Path::new(journal), radios) {
        stop(why);
    }
}

/// Ends the program, whatever its threads are waiting for. What was not acknowledged will be sent again.
fn stop(why: impl fmt::Display) -> ! {
    eprintln!("{why}");
    process::exit(1)
}

fn run(policy: &Path, journal: &Path, radios: &[String]) -> Result<(), Box<dyn Error>> {
    let hub = Mutex::new(Hub::open(&fs::read(policy)?, journal)?);
    thread::scope(|scope| {
        for (number, radio) in radios.iter().enumerate() {
            let hub = &hub;
            scope.spawn(move || listen(number, Path::new(radio), hub).unwrap_or_else(|why| stop(why)));
        }
    });
    for (minute, rule, verdict) in locked(&hub)?.shift.verdicts() {
        say(format_args!("{minute} {rule} {verdict}"))?;
    }
    Ok(())
}

/// Takes the messages of a radio, and acknowledges each with the lock given back.
fn listen(number: usize, radio: &Path, hub: &Mutex<Hub>) -> Result<(), Box<dyn Error>> {
    let mut radio = BufReader::new(File::open(radio)?);
    while let Some(message) = next_message(&mut radio)? {
        let answer = locked(hub)?.receive(&message)?;
        let told = answer.map_or_else(|refusal| refusal.to_string(), |_| "taken".to_string());
        say(format_args!("acknowledged {number} {}: {told}", hexadecimal(&message)))?;
    }
    Ok(())
}

/// The next message of a radio; one that its end cuts is given as it is.
fn next_message(radio: &mut impl BufRead) -> io::Result<Option<Vec<u8>>> {
    let Some(length) = radio.by_ref().bytes().next().transpose()? else {
        return Ok(None);
    };
    let mut message = Vec::new();
    radio.take(length.into()).read_to_end(&mut message)?;
    Ok(Some(message))
}

fn locked(hub: &Mutex<Hub>) -> Result<MutexGuard<'_, Hub>, &'static str> {
    hub.lock().map_err(|_| "another radio's thread has failed")
}

/// Prints a line, at once and in one piece: while another thread ends the program, `writeln!` would print it in several, and be cut off between two.
fn say(line: fmt::Arguments<'_>) -> io::Result<()> {
    io::stdout().write_all(format!("{line}\n").as_bytes())
}

fn hexadecimal(bytes: &[u8]) -> String {
    bytes.iter().map(|byte| format!("{byte:02x}")).collect()
}

/// The shift and its journal, under one lock: the order of the journal is the order of the takes.
struct Hub {
    journal: Journal,
    shift: Shift,
}

impl Hub {
    /// Opens a shift and takes what its journal holds. What was refused before the cut is refused again.
    fn open(policy: &[u8], path: &Path) -> Result<Hub, Box<dyn Error>> {
        let mut shift = Shift::open(policy)?;
        let (journal, bytes) = Journal::open(path, policy)?;
        for slot in bytes.chunks(SLOT).skip(1) {
            let Some(message) = slot_bytes(slot) else {
                say(format_args!("passed over a torn or damaged slot"))?;
                continue;
            };
            let _ = shift.receive(message);
            say(format_args!("replayed {}", hexadecimal(message)))?;
        }
        Ok(Hub { journal, shift })
    }

    /// Keeps a message, then takes it: after this no power cut loses it. A message that has no room in a slot is longer than any that is
    /// taken, and need not be kept.
    fn receive(&mut self, message: &[u8]) -> io::Result<Result<usize, Refusal>> {
        if let Some(slot) = slot_of(message) {
            self.journal.append(&slot)?;
        }
        Ok(self.shift.receive(message))
    }
}

struct Journal {
    file: File,
    /// A write or sync has failed.
    failed: bool,
}

impl Journal {
    /// Opens the journal of a policy, or makes it; gives what it holds. A part of a slot at its end is cut off, so that the next slot stands
    /// at its place. All this is on the disk, the file's name too, before the first message is kept.
    fn open(path: &Path, policy: &[u8]) -> io::Result<(Journal, Vec<u8>)> {
        let mut file = File::options().read(true).append(true).create(true).open(path)?;
        file.try_lock()?; // one hub at a time
        let mut bytes = Vec::new();
        file.read_to_end(&mut bytes)?;
        let first = first_slot(policy);
        if is_being_made(&bytes, &first) {
            file.set_len(0)?;
            file.write_all(&first)?;
        } else if bytes.starts_with(&first) {
            file.set_len((bytes.len() - bytes.len() % SLOT) as u64)?;
        } else {
            return Err(io::Error::new(io::ErrorKind::InvalidData, "this is not the journal of this policy"));
        }
        file.sync_all()?;
        sync_folder(path)?;
        Ok((Journal { file, failed: false }, bytes))
    }

    /// The slot is on the disk once this returns. After an error nobody knows how much of it is, so nothing is appended any more, by no
    /// radio: the hub has to stop and start again.
    fn append(&mut self, slot: &[u8; SLOT]) -> io::Result<()> {
        if self.failed {
            return Err(io::Error::other("the journal has failed"));
        }
        let done = self.file.write_all(slot).and_then(|()| self.file.sync_data());
        self.failed = done.is_err();
        done
    }
}

/// No message is in it yet: it is new, or the power was cut while its first slot was written, and the rest of that is missing or zeros.
fn is_being_made(bytes: &[u8], first: &[u8; SLOT]) -> bool {
    bytes.len() <= SLOT && bytes.iter().zip(first).all(|(&byte, &whole)| byte == whole || byte == 0)
}

/// The name of a file that was made is on the disk once its folder is.
fn sync_folder(path: &Path) -> io::Result<()> {
    let folder = path.parent().filter(|folder| !folder.as_os_str().is_empty());
    File::open(folder.unwrap_or(Path::new(".")))?.sync_all()
}

/// The slot that says whose journal it is.
fn first_slot(policy: &[u8]) -> [u8; SLOT] {
    let mut mark = *b"zankezurt\0\0\0\0";
    mark[9..].copy_from_slice(&crc32(policy).to_le_bytes());
    slot_of(&mark).expect("13 bytes have room")
}

/// A slot with these bytes, if they have room in it.
fn slot_of(bytes: &[u8]) -> Option<[u8; SLOT]> {
    let mut slot = [0; SLOT];
    slot[1..CHECKED].get_mut(..bytes.len())?.copy_from_slice(bytes);
    slot[0] = bytes.len() as u8;
    let sum = crc32(&slot[..CHECKED]);
    slot[CHECKED..].copy_from_slice(&sum.to_le_bytes());
    Some(slot)
}

/// The bytes in a slot; none if it is torn or damaged.
fn slot_bytes(slot: &[u8]) -> Option<&[u8]> {
    let (checked, sum) = slot.split_at_checked(CHECKED)?;
    let (&length, room) = checked.split_first()?;
    let whole = sum == crc32(checked).to_le_bytes();
    room.get(..length.into()).filter(|_| whole)
}

/// The CRC-32 of Ethernet and zip. That of zeros is not 0, so a slot that reads as zeros is damaged.
fn crc32(bytes: &[u8]) -> u32 {
    let shifted = |sum: u32, _| if sum & 1 == 1 { sum >> 1 ^ 0xEDB8_8320 } else { sum >> 1 };
    !bytes.iter().fold(!0, |sum, &byte| (0..8).fold(sum ^ u32::from(byte), shifted))
}
