//! How long the random tests run, on all cores, and what they have seen.

use oracle::generate::Random;
use oracle::policy::Policy;
use oracle::write::Line;
use oracle::{Answer, Look, PacketAnswer, Refusal};
use std::collections::BTreeMap;
use std::sync::atomic::{AtomicUsize, Ordering};
use std::{env, panic, thread};

/// How often each thing was seen, by its name.
#[derive(Debug, Default)]
pub struct Seen(BTreeMap<String, usize>);

impl Seen {
    pub fn add(&mut self, what: &str, times: usize) {
        match self.0.get_mut(what) {
            Some(count) => *count += times,
            None => _ = self.0.insert(what.to_string(), times),
        }
    }

    pub fn one(&mut self, what: &str) {
        self.add(what, 1);
    }

    /// Whether the call was done, accepted or refused, and why.
    pub fn answer(&mut self, call: &str, answer: Answer) {
        match answer {
            Answer::Done => self.one(&format!("{call} done")),
            Answer::Received(_) => self.one(&format!("{call} accepted")),
            Answer::Refused(refusal) => self.one(&format!("{call} refused {}", refusal.number)),
        }
    }

    /// Whether the packet was empty, taken whole or refused, and why, and how many of its messages were taken.
    pub fn packet(&mut self, packet: &[u8], answer: PacketAnswer) {
        let kind = if packet.is_empty() { "empty packet" } else { "packet" };
        match answer.refusal {
            None => self.one(&format!("{kind} whole")),
            Some(refusal) => self.one(&format!("{kind} refused {}", refusal.number)),
        }
        match answer.taken {
            0 => self.one("packet took none"),
            1 => self.one("packet took one"),
            _ => self.one("packet took many"),
        }
    }

    pub fn look(&mut self, look: Look) {
        match look {
            Look::Verdict(verdict) => self.one(&format!("lookup {verdict:?}")),
            Look::Refused(refusal) => self.one(&format!("lookup refused {}", refusal.number)),
        }
    }

    /// Whether it was written or refused, and why.
    pub fn writing(&mut self, what: &str, answer: Result<usize, Refusal>) {
        match answer {
            Ok(_) => self.one(&format!("{what} written")),
            Err(refusal) => self.one(&format!("{what} refused {}", refusal.number)),
        }
    }

    /// The kinds of the policy's lines.
    pub fn kinds(&mut self, policy: &Policy) {
        for subformula in &policy.subformulas {
            self.one(&format!("kind {}", Line::from(subformula).kind));
        }
    }

    /// Each of the twelve kinds.
    pub fn every_kind_at_least(&self, times: usize) {
        (0..12).for_each(|kind| self.at_least(times, &format!("kind {kind}")));
    }

    /// The verdicts that stand on a sheet.
    pub fn verdicts(&mut self, verdicts: &[u8]) {
        self.add("kept", verdicts.iter().filter(|code| **code == 1).count());
        self.add("broken", verdicts.iter().filter(|code| **code == 2).count());
    }

    pub fn at_least(&self, times: usize, what: &str) {
        let count = self.0.get(what).copied().unwrap_or(0);
        assert!(count >= times, "{what}: seen {count} times, not {times}, of {:?}", self.0);
    }

    fn join(mut self, other: Seen) -> Seen {
        for (what, times) in other.0 {
            self.add(&what, times);
        }
        self
    }
}

/// The factor in `ZANKEZURT_ROUNDS`, 1 if it is not set.
fn factor() -> usize {
    let number = |text: String| text.parse().expect("ZANKEZURT_ROUNDS is a number");
    env::var("ZANKEZURT_ROUNDS").map_or(1, number)
}

/// Runs the jobs from 0 on, `jobs` times the factor of them, each with its own random sequence from `seed` + its number.
/// Gives, and prints, what all of them have seen.
pub fn run(seed: u64, jobs: usize, job: impl Fn(usize, &mut Random, &mut Seen) + Sync) -> Seen {
    let jobs = jobs * factor();
    let next = AtomicUsize::new(0);
    let work = || {
        let mut seen = Seen::default();
        loop {
            let number = next.fetch_add(1, Ordering::Relaxed);
            if number >= jobs {
                return seen;
            }
            job(number, &mut Random::new(seed + number as u64), &mut seen);
        }
    };
    let seen = thread::scope(|scope| {
        let cores = thread::available_parallelism().map_or(1, usize::from);
        let workers: Vec<_> = (0..cores).map(|_| scope.spawn(work)).collect();
        let seen = workers.into_iter().map(|worker| worker.join().unwrap_or_else(|why| panic::resume_unwind(why)));
        seen.fold(Seen::default(), Seen::join)
    });
    println!("{:?}", seen.0);
    seen
}
