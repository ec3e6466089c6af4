//! Prints what a take, a packet, a text that is written, a rule typed as text and the reaches of rules cost: `bench`. `bench packet COUNT`
//! prints a packet of that many messages alone, `bench kinds` the takes under abbreviations alone, `bench writing` the writers alone,
//! `bench rules` the rules typed as text alone, `bench reaches` the reaches alone, `bench take NAME COUNT` only makes the takes, with a full
//! record or with that of a third word: `full`, `empty` or `bunched`, and with lines of the kinds of a fourth: `primitive` or `abbreviated`,
//! `bench rule NAME COUNT` only reads the rule of that name so many times, `bench reach NAME COUNT` only asks for the reaches under the policy
//! of that name, and `bench placed OLD.. NEW..` compares the takes of two archives, each linked at the same places.

use bench::contender::{Contender, ALL};
use bench::demo;
use bench::growth::{added, points, slope, Point};
use bench::instructions;
use bench::packet;
use bench::placed::Placed;
use bench::reaches;
use bench::rules::{self, Typed};
use bench::timing::{in_turns, ratios, under_each, Spread, Take};
use bench::workload::{Kinds, Record, Shape, Workload, LARGEST};
use bench::writing;
use std::env::args;

/// How many times over each is measured, beside the others and in the growth.
const SAMPLES: usize = 201;
const GROWTH_SAMPLES: usize = 1_001;
/// How many messages the packet has.
const PACKET: usize = 64;
/// Bytes from one of the places at which an archive is linked to the next.
const PLACE: usize = 16;
/// The minutes of a trace with which the growth is measured.
const MINUTES: [usize; 5] = [64, 128, 256, 512, 1024];
const MICRO: f64 = 1e6;
const NANO: f64 = 1e9;
/// Those whose takes are quick: all but the direct readings.
const QUICK: [Contender; 3] = [Contender::Monitor, Contender::Plain, Contender::Floor];

fn main() {
    let words: Vec<String> = args().skip(1).collect();
    match words.iter().map(String::as_str).collect::<Vec<_>>()[..] {
        [] => report(),
        ["take", name, count] => takes(name, count, Record::Full.name(), Kinds::Primitive.name()),
        ["take", name, count, record] => takes(name, count, record, Kinds::Primitive.name()),
        ["take", name, count, record, kinds] => takes(name, count, record, kinds),
        ["packet", count] => packets(count.parse().expect("a count")),
        ["kinds"] => abbreviations(),
        ["writing"] => written(),
        ["rules"] => typed(),
        ["rule", name, count] => compile(name, count.parse().expect("a count")),
        ["reaches"] => reached(),
        ["reach", name, count] => reach(name, count.parse().expect("a count")),
        ["placed", ref libraries @ ..] if libraries.len() % 2 == 0 => placed(libraries),
        _ => panic!(
            "usage: bench [take NAME COUNT [RECORD [KINDS]] | packet COUNT | kinds | writing | rules | rule NAME COUNT | \
             reaches | reach NAME COUNT | placed OLD.. NEW..]"
        ),
    }
}

fn takes(name: &str, count: &str, record: &str, kinds: &str) {
    let contender = ALL.into_iter().find(|contender| contender.name() == name).expect("a contender's name");
    let record = Record::ALL.into_iter().find(|other| other.name() == record).expect("a record's name");
    let kinds = Kinds::ALL.into_iter().find(|other| other.name() == kinds).expect("a name of kinds");
    let mut workload = Workload::new(&Shape { kinds, ..LARGEST }, record);
    for _ in 0..count.parse().expect("a count") {
        contender.take(&mut workload);
    }
}

fn report() {
    compare(Record::Full, Kinds::Primitive, &ALL);
    packets(PACKET);
    count(Record::Full, Kinds::Primitive);
    for record in [Record::Empty, Record::Bunched] {
        compare(record, Kinds::Primitive, &QUICK);
        count(record, Kinds::Primitive);
    }
    abbreviations();
    grow("minutes", &MINUTES, Record::Full, |minutes| Shape { minutes, ..LARGEST });
    // with one line the record's check and the time points are most of a take, and a search for each minute would show
    grow("minutes", &MINUTES, Record::Empty, |minutes| Shape { minutes, subformulas: 1, rules: 1, ..LARGEST });
    grow("subformulas", &[1, 2, 4, 8, 16, 32, 64], Record::Full, |subformulas| {
        // one rule, and one proposition: each further line is a since or an until
        Shape { components: 1, subformulas, rules: 1, spacing: 64, ..LARGEST }
    });
    written();
    typed();
    reached();
}

/// Takes under lines that are abbreviations, and under the demo's rules with them and without.
fn abbreviations() {
    for record in Record::ALL {
        compare(record, Kinds::Abbreviated, &QUICK);
        count(record, Kinds::Abbreviated);
    }
    under_the_demo(Contender::Monitor);
    under_the_demo(Contender::Plain);
}

/// The monitor beside others, with a record and lines of some kinds.
fn compare(record: Record, kinds: Kinds, contenders: &[Contender]) {
    let Shape { propositions, components, minutes, subformulas, .. } = LARGEST;
    println!(
        "A take: {propositions} propositions, {components} components, {minutes} minutes, {subformulas} {} subformulas, {} record\n",
        kinds.name(),
        record.name()
    );
    let measured: Vec<&dyn Take> = contenders.iter().map(|contender| contender as &dyn Take).collect();
    let times = in_turns(&measured, &mut Workload::new(&Shape { kinds, ..LARGEST }, record), SAMPLES);
    heading("monitor");
    for (contender, of_it) in contenders.iter().zip(&times) {
        row(contender.describe(), of_it, &times[0]);
    }
    println!();
}

/// The demo's rules with the abbreviations beside the same without them, with a full record.
fn under_the_demo(contender: Contender) {
    let mut workloads = [demo::short(), demo::long()].map(|policy| Workload::under(policy, Record::Full));
    let times = under_each(&contender, &mut workloads, SAMPLES);
    println!("A take under the demo's rules, full record: {}\n", contender.describe());
    let lines = workloads.each_ref().map(|workload| format!("{} lines", workload.policy.subformulas.len()));
    heading(&lines[0]);
    for (lines, of_it) in lines.iter().zip(&times) {
        row(lines, of_it, &times[0]);
    }
    println!();
}

/// The takes of two archives at each place, with each record, beside those in safe Rust: first those of the whole policy, and then under one
/// line, where the record's check and the time points are most of a take.
fn placed(libraries: &[&str]) {
    let archives: Vec<Placed> = libraries.iter().map(|path| Placed::load(path)).collect();
    let mut measured: Vec<&dyn Take> = vec![&Contender::Plain];
    measured.extend(archives.iter().map(|archive| archive as &dyn Take));
    for shape in [LARGEST, Shape { subformulas: 1, rules: 1, ..LARGEST }] {
        for record in Record::ALL {
            let Shape { minutes, subformulas, .. } = shape;
            println!("A take: {minutes} minutes, {subformulas} subformulas, {} record", record.name());
            let times = in_turns(&measured, &mut Workload::new(&shape, record), SAMPLES);
            let (old, new) = times[1..].split_at(libraries.len() / 2);
            for (place, (old, new)) in old.iter().zip(new).enumerate() {
                place_row(place * PLACE, old, new, &times[0]);
            }
            println!();
        }
    }
}

/// One place: the least times, each archive's over safe Rust, and the new one's over the old one's.
fn place_row(place: usize, old: &[f64], new: &[f64], plain: &[f64]) {
    let [before, after] = [old, new].map(|times| Spread::of(times.to_vec()).least() * MICRO);
    let [of_old, of_new] = [old, new].map(|times| three_digits(ratios(times, plain).median()));
    let ratio = ratios(new, old);
    let [middle, low, high] = [ratio.median(), ratio.quantile(0.25), ratio.quantile(0.75)].map(three_digits);
    println!(
        "at {place:>2}: least {before:.1} and {after:.1} µs, over safe Rust {of_old} and {of_new}, new / old {middle} ({low} to {high})"
    );
}

/// A packet beside the takes of its messages.
fn packets(count: usize) {
    let [at_once, one_by_one] = packet::in_turns(count, SAMPLES);
    heading("packet");
    row(&format!("a packet of {count} messages"), &at_once, &at_once);
    row("the same messages, one by one", &one_by_one, &at_once);
    println!();
}

/// The heading of a table of times, beside which stands what the first took over each.
fn heading(first: &str) {
    println!("{:<50} {:>12} {:>12} {:>12}  {first} / it: median (quartiles)", "", "least µs", "median µs", "most µs");
}

fn row(name: &str, times: &[f64], first: &[f64]) {
    let spread = Spread::of(times.to_vec());
    let ratio = ratios(first, times);
    let [least, median, most] = [spread.least(), spread.median(), spread.most()].map(|time| time * MICRO);
    let [middle, low, high] = [ratio.median(), ratio.quantile(0.25), ratio.quantile(0.75)].map(three_digits);
    println!("{name:<50} {least:>12.1} {median:>12.1} {most:>12.1}  {middle} ({low} to {high})");
}

/// The number with three digits that count.
fn three_digits(number: f64) -> String {
    let places = (2.0 - number.abs().log10().floor()).max(0.0) as usize;
    format!("{number:.places$}")
}

/// Instructions of one take with a record and lines of some kinds.
fn count(record: Record, kinds: Kinds) {
    let cells = LARGEST.minutes * LARGEST.subformulas;
    for contender in QUICK {
        match instructions::of_a_take(contender, record, kinds) {
            Ok(count) => {
                println!(
                    "{:<50} {count:>12} instructions, {:.1} a cell of the work sheet",
                    contender.describe(),
                    count as f64 / cells as f64
                )
            }
            Err(why) => println!("{:<50} not counted: {why}", contender.describe()),
        }
    }
    println!();
}

/// A policy of each number of lines, written, and the longest message.
fn written() {
    let policies = writing::policies(&[4, 8, 16, 32, 64], SAMPLES);
    println!("Writing a policy: so many subformulas, most of them with every field");
    for point in &policies {
        println!("{:>12} {:>12.3} µs", point.size, point.time * MICRO);
    }
    println!("slope on logarithmic scales: of what each doubling adds {:.3}", slope(&added(&policies)));
    println!(
        "Writing the longest message: {:.3} µs, with the longest policy read first\n",
        writing::message(SAMPLES) * MICRO
    );
}

/// Rules typed as text: those that are accepted, and those whose long numbers are read to their ends before they are refused.
fn typed() {
    println!("A rule typed as text");
    println!("{:<50} {:>12} {:>12} {:>12}", "", "bytes", "least µs", "ns a byte");
    typed_rows(&rules::accepted());
    for texts in [rules::long_propositions(), rules::long_intervals()] {
        let points = typed_rows(&texts);
        println!("slope on logarithmic scales: of the time {:.3}", slope(&points));
    }
    println!();
}

fn typed_rows(texts: &[Typed]) -> Vec<Point> {
    let points = rules::points(texts, SAMPLES);
    for (typed, point) in texts.iter().zip(&points) {
        let bytes = point.size as f64;
        let instructions = match instructions::of_a_rule(typed) {
            Ok(count) => format!("{count} instructions, {:.2} a byte", count as f64 / bytes),
            Err(why) => format!("not counted: {why}"),
        };
        let (time, a_byte) = (point.time * MICRO, point.time * NANO / bytes);
        println!("{:<50} {bytes:>12} {time:>12.3} {a_byte:>12.3}  {instructions}", typed.name);
    }
    points
}

/// Reads the rule of a name so many times.
fn compile(name: &str, count: usize) {
    let texts = [rules::accepted(), rules::long_propositions(), rules::long_intervals()];
    let typed = texts.iter().flatten().find(|typed| typed.name == name).expect("a rule's name");
    (0..count).for_each(|_| typed.compile());
}

/// The reaches of the rules of a small policy and of the largest.
fn reached() {
    println!("The reaches of rules");
    println!("{:<50} {:>12} {:>12} {:>12}", "", "rules", "bytes", "least µs");
    for asked in reaches::all() {
        let instructions = match instructions::of_reaches(&asked) {
            Ok(count) => format!("{count} instructions"),
            Err(why) => format!("not counted: {why}"),
        };
        let (rules, bytes, time) = (asked.reaches.len(), asked.policy.len(), asked.time(SAMPLES) * MICRO);
        println!("{:<50} {rules:>12} {bytes:>12} {time:>12.3}  {instructions}", asked.name);
    }
    println!();
}

/// Asks for the reaches under the policy of a name so many times.
fn reach(name: &str, count: usize) {
    let asked = reaches::all().into_iter().find(|asked| asked.name == name).expect("a policy's name");
    (0..count).for_each(|_| asked.ask());
}

/// Growth with one size, the others as they are.
fn grow(name: &str, sizes: &[usize], record: Record, shape: impl Fn(usize) -> Shape) {
    let shapes: Vec<(usize, Shape)> = sizes.iter().map(|&size| (size, shape(size))).collect();
    let measured = points(&shapes, record, GROWTH_SAMPLES);
    let Shape { components, subformulas, .. } = shapes[shapes.len() - 1].1;
    println!(
        "Growth with {name}: {components} components, at most {subformulas} subformulas, {} record",
        record.name()
    );
    for point in &measured {
        println!("{:>12} {:>12.2} µs", point.size, point.time * MICRO);
    }
    println!(
        "slope on logarithmic scales: of the time {:.3}, of what each doubling adds {:.3}\n",
        slope(&measured),
        slope(&added(&measured))
    );
}
