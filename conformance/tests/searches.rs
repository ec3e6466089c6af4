//! The library's search outwards from a minute, through the program that prints vectors of the knowledge: quiet, busy
//! or open, between which places, and how many were read are what the oracle says. And one search a gap is enough.

use conformance::inputs::{self, Size};
use conformance::process::{knowledge_vectors, printed_by, show};
use conformance::rounds::{self, Seen};
use oracle::generate::{self, Random};
use oracle::knowledge::{known_busy, known_quiet, search, sound, Search, NOT_KNOWN};
use oracle::policy::MOST_MINUTES;
use oracle::Buffers;
use std::mem;

/// How many bytes of its standard input the program reads.
const MOST_INPUT: usize = 65_536;

/// The line that asks the program for a search: the minute, the number of places and the run, 2 bytes each.
fn vector(run: &[u16], minute: usize) -> String {
    let heading = [minute, run.len()].map(|number| number as u16);
    let bytes = heading.iter().chain(run).flat_map(|word| word.to_le_bytes());
    let digits: Vec<String> = bytes.map(|byte| format!("{byte:02X}")).collect();
    format!("?{}\n", digits.join(" "))
}

/// The known numbers of a run, each with its place, and the next one with its own.
fn steps(run: &[u16]) -> Vec<[(usize, usize); 2]> {
    let known: Vec<usize> = (0..run.len()).filter(|place| run[*place] != NOT_KNOWN).collect();
    let number = |place: usize| (place, usize::from(run[place]));
    known.windows(2).map(|pair| [number(pair[0]), number(pair[1])]).collect()
}

/// The known numbers of the run never fall: the library promises whether a minute is quiet.
fn never_falls(run: &[u16]) -> bool {
    steps(run).iter().all(|[(_, v), (_, w)]| v <= w)
}

/// They never rise by more than one a place: the library promises whether a minute is busy.
fn never_jumps(run: &[u16]) -> bool {
    steps(run).iter().all(|[(a, v), (b, w)]| *w <= v + (b - a))
}

/// The answers that the library may give: one alone, where it promises both.
fn answers(run: &[u16], found: Search) -> Vec<&'static str> {
    let quiet = |answer| !never_falls(run) || (answer == "quiet") == found.quiet;
    let busy = |answer| !never_jumps(run) || (answer == "busy") == found.full;
    ["quiet", "busy", "open"].into_iter().filter(|answer| quiet(*answer) && busy(*answer)).collect()
}

/// What it is to print after the answer: the place before is 0, and the place at or after `-`, where there is none.
fn places(found: Search) -> String {
    let before = found.before.unwrap_or(0);
    let after = found.after.map_or("-".to_string(), |place| place.to_string());
    format!("{before} {after} {}", found.reads)
}

/// Vectors for the program, at most as many as it reads, and the lines of which it is to print one for each of them.
#[derive(Default)]
struct Batch {
    vectors: String,
    lines: Vec<Vec<String>>,
}

impl Batch {
    /// Adds a search. Where there is no more room, the earlier ones are compared first.
    fn add(&mut self, run: &[u16], minute: usize, seen: &mut Seen) {
        let vector = vector(run, minute);
        if self.vectors.len() + vector.len() > MOST_INPUT {
            self.compare();
        }
        let found = search(run, minute);
        let answers = answers(run, found);
        self.vectors += &vector;
        self.lines.push(answers.iter().map(|answer| format!("{answer} {}", places(found))).collect());
        seen.one(&answers.join(" or "));
        tell(found, seen);
    }

    /// Runs the program, which must print one of the oracle's lines for each vector and no others, and starts again
    /// without vectors.
    fn compare(&mut self) {
        let Batch { vectors, lines } = mem::take(self);
        let printed = show(&printed_by(&knowledge_vectors(), vectors.as_bytes()).stdout);
        let mut printed: Vec<&str> = printed.split('\n').collect();
        assert_eq!((printed.pop(), printed.len()), (Some(""), lines.len()), "{vectors}");
        for ((vector, printed), lines) in vectors.lines().zip(printed).zip(lines) {
            assert!(lines.iter().any(|line| line == printed), "program {printed}, oracle {lines:?}\n{vector}");
        }
    }
}

fn tell(found: Search, seen: &mut Seen) {
    match (found.before, found.after) {
        (None, _) => seen.one("none before"),
        (_, None) => seen.one("none after"),
        _ if found.reads == 2 => seen.one("neighbours"),
        _ if found.full => seen.one("full gap"),
        _ if found.quiet => seen.one("level gap"),
        _ => seen.one("other gap"),
    }
    if found.reads == MOST_MINUTES + 1 {
        seen.one("longest run read whole");
    }
}

/// What is known in a run.
#[derive(Clone, Copy)]
enum Kind {
    /// Every place.
    Full,
    /// The first place alone.
    Empty,
    /// Eight places together, again every 60 places.
    Bunched,
    /// The first place, and each other place once in so many.
    Sparse(usize),
    /// Each place but the first once in so many. The numbers may rise by more than one a minute, as in no sound record.
    Headless(usize),
    /// Each place once in so many. The numbers may fall, as in no sound record, and do not rise by more than one a
    /// minute.
    Falling(usize),
}

const KINDS: [Kind; 13] = [
    Kind::Full,
    Kind::Empty,
    Kind::Bunched,
    Kind::Sparse(2),
    Kind::Sparse(4),
    Kind::Sparse(20),
    Kind::Sparse(200),
    Kind::Headless(1),
    Kind::Headless(4),
    Kind::Headless(40),
    Kind::Falling(1),
    Kind::Falling(4),
    Kind::Falling(40),
];

impl Kind {
    fn knows(self, random: &mut Random, place: usize) -> bool {
        match self {
            Kind::Full => true,
            Kind::Empty => place == 0,
            Kind::Bunched => place % 60 < 8,
            Kind::Sparse(times) => place == 0 || random.once_in(times),
            Kind::Headless(times) => place != 0 && random.once_in(times),
            Kind::Falling(times) => random.once_in(times),
        }
    }

    /// The number of the first place.
    fn first(self) -> usize {
        match self {
            Kind::Falling(_) => 20 * MOST_MINUTES,
            _ => 0,
        }
    }

    /// A number one minute after another one, which has an observation or none.
    fn next(self, random: &mut Random, number: usize, observed: bool) -> usize {
        match (self, observed) {
            (Kind::Headless(_), true) => number + random.between(1, 60),
            (Kind::Falling(_), false) if random.once_in(3) => number - random.between(1, 20),
            _ => number + usize::from(observed),
        }
    }
}

/// A random run of so many minutes. Of one whose known numbers neither fall nor jump the library promises the oracle's
/// answer, and of others a part of it.
fn run(random: &mut Random, kind: Kind, minutes: usize) -> Vec<u16> {
    let seldom = random.pick(&[1, 2, 5, 20, 2_000]);
    let mut number = kind.first();
    let mut run = vec![number as u16];
    for _ in 0..minutes {
        let observed = random.once_in(seldom);
        number = kind.next(random, number, observed);
        run.push(number as u16);
    }
    for (place, cell) in run.iter_mut().enumerate() {
        if !kind.knows(random, place) {
            *cell = NOT_KNOWN;
        }
    }
    run
}

/// A run with at most so many places is searched for every minute.
const FEW: usize = 40;

/// The minutes to search a run for: every one, or the first, the last and random ones. Minute M is among them: none is
/// known at or after it.
fn minutes(random: &mut Random, places: usize) -> Vec<usize> {
    if places <= FEW {
        return (0..places).collect();
    }
    let between = (0..6).map(|_| random.below(places));
    [0, places - 2, places - 1].into_iter().chain(between).collect()
}

/// How many runs each job searches, of at most how many minutes.
const RUNS: [(usize, usize); 3] = [(30, FEW - 1), (10, 300), (4, MOST_MINUTES)];

#[test]
fn random_runs() {
    let seen = rounds::run(6_000_000, 4 * KINDS.len(), |number, random, seen| {
        let mut batch = Batch::default();
        for (runs, most) in RUNS {
            for _ in 0..runs {
                let shorter = random.between(0, most);
                let length = random.pick(&[shorter, most]);
                let run = run(random, KINDS[number % KINDS.len()], length);
                minutes(random, run.len()).into_iter().for_each(|minute| batch.add(&run, minute, seen));
            }
        }
        batch.compare();
    });
    for what in ["quiet", "busy", "open", "quiet or open", "busy or open"] {
        seen.at_least(1_000, what);
    }
    for what in ["none before", "none after", "neighbours", "full gap", "level gap", "other gap"] {
        seen.at_least(1_000, what);
    }
    seen.at_least(50, "longest run read whole");
}

/// The lines as they are written, and answers that are worked by hand.
#[test]
fn runs_by_hand() {
    const N: u16 = NOT_KNOWN;
    let cases: [(&[u16], usize, &str, &str); 9] = [
        (&[0, N, 1, N, N], 2, "?02 00 05 00 00 00 FF FF 01 00 FF FF FF FF", "open 2 - 3"),
        (&[0, N, 1, N, 1], 2, "?02 00 05 00 00 00 FF FF 01 00 FF FF 01 00", "quiet 2 4 3"),
        (&[0, N, 1, N, 1], 1, "?01 00 05 00 00 00 FF FF 01 00 FF FF 01 00", "open 0 2 3"),
        (&[0, N, 2, 3], 1, "?01 00 04 00 00 00 FF FF 02 00 03 00", "busy 0 2 3"),
        (&[0, 1], 0, "?00 00 02 00 00 00 01 00", "busy 0 1 2"),
        (&[0, 0], 0, "?00 00 02 00 00 00 00 00", "quiet 0 1 2"),
        (&[0], 0, "?00 00 01 00 00 00", "open 0 - 1"),
        (&[N, N, 258], 0, "?00 00 03 00 FF FF FF FF 02 01", "open 0 2 3"),
        (&[65533, N], 0, "?00 00 02 00 FD FF FF FF", "open 0 - 2"),
    ];
    let mut batch = Batch::default();
    for (run, minute, line, printed) in cases {
        assert_eq!(vector(run, minute), format!("{line}\n"));
        batch.add(run, minute, &mut Seen::default());
        assert_eq!(batch.lines.last(), Some(&vec![printed.to_string()]));
    }
    batch.compare();
}

const SIZES: [Size; 3] = [Size::Tiny, Size::Small, Size::Medium];

/// By the oracle alone: a minute of a sound record is known busy exactly if it is so by some component's search, and
/// known quiet exactly if it is so by each, and the minutes of a gap have one answer.
#[test]
fn one_search_a_gap_is_enough() {
    let seen = rounds::run(6_500_000, 60 * SIZES.len(), |number, random, seen| {
        let policy = inputs::policy(random, SIZES[number % SIZES.len()]);
        let trace = inputs::trace(random, &policy, 4);
        let mut buffers = Buffers::sized(&policy);
        generate::sound_knowledge(random, &policy, &trace, &mut buffers);
        assert!(sound(&policy, &buffers));
        for minute in 0..policy.minutes {
            let found = |component| search(buffers.run(&policy, component), minute);
            let busy = (0..policy.components).any(|component| found(component).full);
            let quiet = (0..policy.components).all(|component| found(component).quiet);
            let known = (known_busy(&policy, &buffers, minute), known_quiet(&policy, &buffers, minute));
            assert_eq!(known, (busy, quiet), "{minute} {policy:?} {buffers:?}");
            seen.one(match known {
                (true, _) => "known busy",
                (_, true) => "known quiet",
                _ => "open",
            });
        }
        (0..policy.components).for_each(|component| gaps(buffers.run(&policy, component), seen));
        gaps(&run(random, KINDS[number % KINDS.len()], 200), seen);
    });
    for what in ["known busy", "known quiet", "open", "one minute", "full gap", "level gap", "other gap", "to the end"]
    {
        seen.at_least(200, what);
    }
}

/// All minutes from a known place on to the next, or to the run's end, have the answer of the first of them. Where
/// numbers never fall it is quiet exactly if the two places' numbers are equal, and where they never jump it is busy
/// exactly if the second is as many more as there are minutes.
fn gaps(run: &[u16], seen: &mut Seen) {
    let known: Vec<usize> = (0..run.len()).filter(|place| run[*place] != NOT_KNOWN).collect();
    for (i, &place) in known.iter().enumerate() {
        let next = known.get(i + 1).copied();
        let found = search(run, place);
        assert_eq!((found.before, found.after), (Some(place), next), "{run:?}");
        let rise = |next: usize| usize::from(run[next]).checked_sub(usize::from(run[place]));
        let level = next.is_some_and(|next| rise(next) == Some(0));
        let full = next.is_some_and(|next| rise(next) == Some(next - place));
        assert!(!never_falls(run) || found.quiet == level, "{place} {run:?}");
        assert!(!never_jumps(run) || found.full == full, "{place} {run:?}");
        for minute in place..next.unwrap_or(run.len()) {
            assert_eq!(search(run, minute), found, "{minute} {run:?}");
        }
        seen.one(match next {
            None => "to the end",
            Some(next) if next - place == 1 => "one minute",
            _ if full => "full gap",
            _ if level => "level gap",
            _ => "other gap",
        });
    }
}
