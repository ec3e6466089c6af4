//! Random texts of rules, the same for the same seed: terms within, at and past the limits, and damage.

use crate::generate::Random;
use crate::policy::{HIGHEST_BOUND, MOST_SUBFORMULAS};

/// How the numbers of a text are picked.
#[derive(Clone, Copy, Debug)]
pub struct Numbers {
    /// How many propositions there are.
    pub propositions: usize,
    /// The highest bound that is right.
    pub bound: usize,
    /// A number is at, near or past the end of its range, or an interval crossed, once in so many times; 0 for never.
    pub stray: usize,
}

impl Numbers {
    fn strays(&self, random: &mut Random) -> bool {
        self.stray != 0 && random.once_in(self.stray)
    }

    fn proposition(&self, random: &mut Random) -> String {
        if self.strays(random) {
            return near(random, self.propositions - 1);
        }
        random.below(self.propositions).to_string()
    }

    /// An interval with its brackets.
    fn interval(&self, random: &mut Random) -> String {
        if self.strays(random) {
            return stray_interval(random);
        }
        let upper = random.between(0, self.bound);
        let lower = random.between(0, upper);
        format!("[{lower},{upper}]")
    }
}

/// A number at, just below or just past the highest; one of any length; or one that would be in its range if it were cut to
/// so many bits.
fn near(random: &mut Random, highest: usize) -> String {
    match random.below(6) {
        0 | 1 => numeral(random),
        2 => {
            let within = random.between(0, highest) as u128;
            ((1 << random.pick(&[8, 10, 16, 31, 32, 63, 64])) + within).to_string()
        }
        _ => random.pick(&[highest.saturating_sub(1), highest, highest + 1, highest + 2, 10 * highest + 9]).to_string(),
    }
}

/// From 1 to 40 digits, the first of them not 0 where more follow.
fn numeral(random: &mut Random) -> String {
    let first = if random.once_in(8) { 0 } else { random.between(1, 9) };
    let more = if first == 0 { 0 } else { random.below(40) };
    (0..more).fold(first.to_string(), |digits, _| digits + &random.below(10).to_string())
}

/// An interval with lower above, at or below upper, both in their range or not.
fn stray_interval(random: &mut Random) -> String {
    let (one, other) = (near(random, HIGHEST_BOUND), near(random, HIGHEST_BOUND));
    let (low, high) = (random.below(HIGHEST_BOUND).to_string(), random.between(1, HIGHEST_BOUND).to_string());
    match random.below(6) {
        0 => format!("[{one},{other}]"),
        1 => format!("[{one},{one}]"),
        2 => format!("[{one},{low}]"),
        3 => format!("[{low},{one}]"),
        // One more or one less in the last digit, however long the number is.
        4 => format!("[{one}1,{one}{}]", random.below(3)),
        _ => format!("[{low},{high}]"),
    }
}

/// A term that has so many terms in it, itself among them, and brackets that nest at most so deep.
pub fn term(random: &mut Random, terms: usize, depth: usize, numbers: &Numbers) -> String {
    if terms == 1 {
        return leaf(random, numbers);
    }
    if terms == 2 || depth == 0 || random.once_in(5) {
        return format!("not {}", term(random, terms - 1, depth, numbers));
    }
    let first = random.between(1, terms - 2);
    // Often one of the two terms is a leaf.
    let first = random.pick(&[1, first, terms - 2]);
    let left = term(random, first, depth - 1, numbers);
    let join = join(random, numbers);
    format!("({left} {join} {})", term(random, terms - 1 - first, depth - 1, numbers))
}

fn leaf(random: &mut Random, numbers: &Numbers) -> String {
    if random.once_in(5) {
        return "true".to_string();
    }
    format!("m{}", numbers.proposition(random))
}

fn join(random: &mut Random, numbers: &Numbers) -> String {
    match random.below(6) {
        0 => "or".to_string(),
        1 => "and".to_string(),
        2 | 3 => format!("since{}", numbers.interval(random)),
        _ => format!("until{}", numbers.interval(random)),
    }
}

/// A term of brackets that nest so deep, on the left, on the right or on both sides, some of them after a "not".
pub fn nested(random: &mut Random, depth: usize, numbers: &Numbers) -> String {
    let sides = random.pick(&[&[true][..], &[false], &[true, false]]);
    let nots = random.once_in(2);
    let mut term = leaf(random, numbers);
    for _ in 0..depth {
        if nots && random.once_in(12) {
            term = format!("not {term}");
        }
        let (join, leaf) = (join(random, numbers), leaf(random, numbers));
        term = if random.pick(sides) { format!("({term} {join} {leaf})") } else { format!("({leaf} {join} {term})") };
    }
    term
}

/// A text of the grammar, of any kind: few terms or many, about 64 of them, brackets that nest about 32 deep, or a long
/// run of "not".
pub fn grammatical(random: &mut Random, numbers: &Numbers) -> String {
    match random.below(12) {
        0..=5 => {
            let terms = random.between(1, 12);
            term(random, terms, 12, numbers)
        }
        6 | 7 => {
            let terms = random.between(1, MOST_SUBFORMULAS);
            let depth = random.between(0, 31);
            term(random, terms, depth, numbers)
        }
        8 | 9 => {
            let terms = random.between(MOST_SUBFORMULAS - 1, MOST_SUBFORMULAS + 2);
            let depth = random.pick(&[0, 5, 30, 60]);
            term(random, terms, depth, numbers)
        }
        10 => {
            let depth = random.between(30, 34);
            nested(random, depth, numbers)
        }
        _ => {
            let nots = random.between(58, 68);
            let terms = random.between(1, 5);
            "not ".repeat(nots) + &term(random, terms, 5, numbers)
        }
    }
}

/// The pieces of texts of the grammar, parted by bars.
const PIECES: &str = "true|t|m|m1|m0|not |not|(|)| or | and | since[| until[|[|,|]|] | |0|1|9|1023|1024|(m1 or |\
    (m1 since[5,|(true until[2000,";

fn piece(random: &mut Random) -> &'static [u8] {
    let pieces: Vec<&str> = PIECES.split('|').collect();
    random.pick(&pieces).as_bytes()
}

/// The bytes of texts of the grammar.
const LETTERS: &[u8] = b"abcdefilmnorstu()[], 0123456789";

/// Pieces in any order, one in three times after the beginning of a text of the grammar.
fn pieces(random: &mut Random, numbers: &Numbers) -> Vec<u8> {
    let mut text = Vec::new();
    if random.once_in(3) {
        text = grammatical(random, numbers).into_bytes();
        text.truncate(random.below(text.len()));
    }
    for _ in 0..random.below(8) {
        text.extend(piece(random));
    }
    text
}

/// One byte changed, inserted or dropped, a piece inserted, a stretch repeated, or the text cut.
fn damage(random: &mut Random, text: &mut Vec<u8>) {
    let place = random.below(text.len() + 1);
    let any = random.word() as u8;
    let byte = if random.once_in(4) { any } else { random.pick(LETTERS) };
    match random.below(6) {
        0 => text.truncate(place),
        1 => text.insert(place, byte),
        2 => _ = text.splice(place..place, piece(random).to_vec()),
        3 => {
            let end = random.between(place, text.len().min(place + 9));
            let stretch = text[place..end].to_vec();
            _ = text.splice(place..place, stretch);
        }
        _ if place == text.len() => text.push(byte),
        4 => _ = text.remove(place),
        _ => text[place] = byte,
    }
}

/// Where the terms of a text of the grammar start.
fn starts(text: &[u8]) -> Vec<usize> {
    let starts = |place: &usize| *place == 0 || b"( ".contains(&text[place - 1]) && b"tmn(".contains(&text[*place]);
    (0..text.len()).filter(starts).collect()
}

/// A text that ends, or has a piece of anything, at the start of its 64th term, its 65th or one near them.
fn cut_at_the_last_term(random: &mut Random, numbers: &Numbers) -> Vec<u8> {
    let terms = random.between(MOST_SUBFORMULAS + 3, MOST_SUBFORMULAS + 20);
    let depth = random.pick(&[0, 3, 12, 25]);
    let mut text = term(random, terms, depth, numbers).into_bytes();
    let last = random.pick(&[MOST_SUBFORMULAS - 2, MOST_SUBFORMULAS - 1, MOST_SUBFORMULAS, MOST_SUBFORMULAS + 1]);
    text.truncate(starts(&text)[last]);
    match random.below(3) {
        0 => (),
        1 => text.extend(piece(random)),
        _ => text.push(random.word() as u8),
    }
    text
}

/// Brackets that are mostly not closed: about 32 of them, with some terms and joins in between, and a piece.
fn opened(random: &mut Random, numbers: &Numbers) -> Vec<u8> {
    let (seldom, brackets) = (random.between(3, 40), random.between(30, 34));
    let mut text = String::new();
    for _ in 0..brackets {
        if random.once_in(seldom) {
            text += random.pick(&["not ", "(m0 or ", "((m0 or true) and ", "(not m0 since[0,1] "]);
        }
        text.push('(');
    }
    if random.once_in(2) {
        text += &leaf(random, numbers);
    }
    [text.as_bytes(), piece(random)].concat()
}

/// A text to offer: of the grammar, or damaged, or pieces, or noise.
pub fn rule(random: &mut Random, numbers: &Numbers) -> Vec<u8> {
    match random.below(19) {
        0..=5 => grammatical(random, numbers).into_bytes(),
        6..=9 => {
            let mut text = grammatical(random, numbers).into_bytes();
            text.truncate(random.below(text.len() + 1));
            text
        }
        10..=12 => {
            let mut text = grammatical(random, numbers).into_bytes();
            (0..random.between(1, 3)).for_each(|_| damage(random, &mut text));
            text
        }
        13 | 14 => pieces(random, numbers),
        15 | 16 => cut_at_the_last_term(random, numbers),
        17 => opened(random, numbers),
        _ => {
            let (any, length) = (random.once_in(2), random.below(20));
            let byte = |_| if any { random.word() as u8 } else { random.pick(LETTERS) };
            (0..length).map(byte).collect()
        }
    }
}

/// Numbers of which some, or none, are stray.
pub fn numbers(random: &mut Random) -> Numbers {
    let any = random.between(1, 32);
    let propositions = random.pick(&[1, 4, 10, 11, 32, any]);
    let bound = random.pick(&[0, 3, 99, HIGHEST_BOUND]);
    Numbers { propositions, bound, stray: random.pick(&[0, 0, 0, 3, 10, 40]) }
}
