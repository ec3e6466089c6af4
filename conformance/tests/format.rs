//! The examples of docs/FORMAT.md, read out of the document: the archive and the program do with them what it says.

use conformance::inputs::{self, Size};
use conformance::process::{printed, root, show};
use oracle::generate::Random;
use oracle::reading::Verdict;
use oracle::write::{MessageFields, PolicyFields};
use oracle::{Answer, Buffers, Look, PacketAnswer, Refusal};
use std::fs;
use std::process::Command;

fn document() -> String {
    fs::read_to_string(root().join("docs/FORMAT.md")).unwrap()
}

/// The document from this heading to the next one.
fn section(title: &str) -> String {
    let document = document();
    let body = document.lines().skip_while(|line| *line != title).skip(1);
    let lines: Vec<&str> = body.take_while(|line| !line.starts_with('#')).collect();
    assert!(!lines.is_empty(), "no section {title}");
    lines.join("\n")
}

/// The blocks between fences.
fn blocks(section: &str) -> Vec<&str> {
    section.split("```").skip(1).step_by(2).map(|block| block.strip_prefix("text\n").unwrap()).collect()
}

/// Bytes in hexadecimal.
fn bytes(text: &str) -> Vec<u8> {
    text.split_whitespace().map(|byte| u8::from_str_radix(byte, 16).unwrap()).collect()
}

/// The bytes of a worked example: those before the first double space of each line.
fn worked(block: &str) -> Vec<u8> {
    block.lines().flat_map(|line| bytes(line.split("  ").next().unwrap())).collect()
}

/// The cells of each row of the table with this heading.
fn rows(section: &str, heading: &str) -> Vec<Vec<String>> {
    let cells = |row: &str| row.trim_matches('|').split('|').map(|cell| cell.trim().to_string()).collect();
    let body = section.lines().skip_while(|line| !line.starts_with(heading)).skip(2);
    let rows: Vec<Vec<String>> = body.take_while(|line| line.starts_with('|')).map(cells).collect();
    assert!(!rows.is_empty(), "no table {heading}");
    rows
}

fn worked_policy() -> Vec<u8> {
    worked(blocks(&section("### A worked policy"))[0])
}

/// The policy of the worked input.
fn small_policy() -> Vec<u8> {
    let input = worked(blocks(&section("## The printing program's input"))[0]);
    input[2..][..input[0] as usize].to_vec()
}

fn sized(policy: &[u8]) -> Buffers {
    Buffers::sized(&oracle::policy::read(policy).unwrap())
}

/// Buffers as a column of the document counts them.
fn counted(column: usize) -> Buffers {
    let rows = rows(&section("## The buffers"), "| buffer |");
    let cells = |row: usize| rows[row][column].replace(',', "").parse().unwrap();
    Buffers {
        numbers: vec![0; cells(0)],
        facts: vec![0; cells(1)],
        valuation: vec![0; cells(2)],
        verdicts: vec![0; cells(3)],
        origin: vec![0; cells(4)],
        extent: 0,
    }
}

/// A refusal as the document writes it, "7 at 3".
fn refusal(text: &str) -> Refusal {
    let (number, place) = text.split_once(" at ").unwrap();
    Refusal { number: number.parse().unwrap(), place: place.parse().unwrap() }
}

fn refused(text: &str) -> Answer {
    Answer::Refused(refusal(text))
}

/// A state under this policy after its opening.
fn opened(policy: &[u8]) -> Buffers {
    let mut buffers = sized(policy);
    assert_eq!(conformance::open(policy, &mut buffers), Answer::Done);
    buffers
}

/// The bytes in a cell of a table, none where it holds no code.
fn cell_bytes(cell: &str) -> Vec<u8> {
    cell.strip_prefix('`').map_or(Vec::new(), |code| bytes(code.strip_suffix('`').unwrap()))
}

#[test]
fn the_worked_policy_is_the_bakerys_and_opens_over_buffers_as_counted() {
    let policy = worked_policy();
    assert_eq!(policy, fs::read(root().join("demo/bakery.bin")).unwrap()[2..][..policy.len()]);
    assert_eq!(conformance::open(&policy, &mut counted(3)), Answer::Done);
}

#[test]
fn the_largest_policy_opens_over_buffers_as_counted() {
    let largest = inputs::policy(&mut Random::new(1), Size::Largest);
    let policy = oracle::generate::encode_policy(&largest);
    assert_eq!(conformance::open(&policy, &mut counted(4)), Answer::Done);
}

#[test]
fn the_worked_messages_are_taken() {
    let text = section("### A worked message");
    let words: Vec<&str> = text.split_whitespace().collect();
    assert!(words.join(" ").contains("2 verdicts stand: at minute 10 rule 0 is kept, and so is rule 1."));
    let policy = worked_policy();
    let mut buffers = opened(&policy);
    let messages: Vec<Vec<u8>> = blocks(&text).into_iter().map(worked).collect();
    assert_eq!(conformance::receive(&policy, &messages[0], &mut buffers), Answer::Received(2));
    for rule in [0, 1] {
        let look = conformance::lookup(&policy, &buffers.verdicts, rule, 10);
        assert_eq!(look, Look::Verdict(Verdict::Satisfied));
    }
    assert_eq!(conformance::receive(&policy, &messages[1], &mut buffers), Answer::Received(2));
}

/// Each line of the packet says at which byte its message starts.
#[test]
fn the_worked_packet_is_taken() {
    let text = section("### A worked packet");
    let words = text.split_whitespace().collect::<Vec<_>>().join(" ");
    assert!(words.contains("all 3 are taken, and 3 verdicts stand."));
    assert!(words.contains("the packet has 22 bytes: 2 are taken, and the answer is 7 at 22."));
    let (policy, packet) = (small_policy(), worked(blocks(&text)[0]));
    let mut start = 0;
    for line in blocks(&text)[0].lines() {
        assert!(line.contains(&format!("  byte {start}: ")), "{line}");
        start += worked(line).len();
    }
    let mut buffers = opened(&policy);
    let whole = conformance::receive_packet(&policy, &packet, &mut buffers);
    assert_eq!(whole, PacketAnswer { taken: 3, refusal: None });
    assert_eq!(buffers.verdicts.iter().filter(|code| **code != 0).count(), 3);
    let cut = conformance::receive_packet(&policy, &packet[..packet.len() - 1], &mut opened(&policy));
    assert_eq!(cut, PacketAnswer { taken: 2, refusal: Some(refusal("7 at 22")) });
}

#[test]
fn the_worked_input_prints_what_the_document_says() {
    let text = section("## The printing program's input");
    let blocks = blocks(&text);
    assert_eq!(show(&printed(&worked(blocks[0])).stdout), blocks[1]);
}

#[test]
fn the_policies_are_answered_as_the_document_says() {
    for row in rows(&section("## What is refused"), "| policy |") {
        let answer = conformance::open(&cell_bytes(&row[0]), &mut sized(&small_policy()));
        let expected = if row[1] == "done" { Answer::Done } else { refused(&row[1]) };
        assert_eq!(answer, expected, "{row:?}");
    }
}

#[test]
fn the_messages_are_answered_as_the_document_says() {
    let policy = small_policy();
    for row in rows(&section("## What is refused"), "| message |") {
        let answer = conformance::receive(&policy, &cell_bytes(&row[0]), &mut opened(&policy));
        let taken = matches!(answer, Answer::Received(_));
        assert!(if row[1] == "taken" { taken } else { answer == refused(&row[1]) }, "{row:?}: {answer:?}");
    }
}

#[test]
fn the_packets_are_answered_as_the_document_says() {
    let policy = small_policy();
    for row in rows(&section("## What is refused"), "| packet |") {
        let answer = conformance::receive_packet(&policy, &cell_bytes(&row[0]), &mut opened(&policy));
        let refusal = (row[2] != "no").then(|| refusal(&row[2]));
        assert_eq!(answer, PacketAnswer { taken: row[1].parse().unwrap(), refusal }, "{row:?}");
    }
}

#[test]
fn the_messages_are_written_as_the_document_says() {
    let policy = small_policy();
    for row in rows(&section("## Writing"), "| component |") {
        let number = |column: usize| row[column].parse().unwrap();
        let fields = MessageFields {
            component: number(0),
            alive: row[1] == "yes",
            minute: number(2),
            number: number(3),
            named: number(4) as u32,
            values: number(5) as u32,
        };
        let mut out = [0; 10];
        let answer = conformance::encode_message(&policy, &fields, &mut out).map(|length| out[..length].to_vec());
        let expected = if row[6].starts_with('`') { Ok(cell_bytes(&row[6])) } else { Err(refusal(&row[6])) };
        assert_eq!(answer, expected, "{row:?}");
    }
}

#[test]
fn the_reaches_are_answered_as_the_document_says() {
    for row in rows(&section("### The reach of a rule"), "| policy |") {
        let mut out = [0; 3];
        let answer = conformance::rule_reaches(&cell_bytes(&row[0]), &mut out).map(|rules| out[..rules].to_vec());
        let reaches = || row[1].split(", ").map(|reach| reach.parse().unwrap()).collect();
        let expected = if row[1].contains(" at ") { Err(refusal(&row[1])) } else { Ok(reaches()) };
        assert_eq!(answer, expected, "{row:?}");
    }
}

/// The bytes of a text in a cell: pieces with ", then " between them, each in code, some as often as the number before it says.
fn cell_text(cell: &str) -> Vec<u8> {
    if cell == "*(no byte)*" {
        return Vec::new();
    }
    let piece = |piece: &str| {
        let (times, code) = piece.split_once(" × ").map_or((1, piece), |(times, code)| (times.parse().unwrap(), code));
        code.strip_prefix('`').and_then(|code| code.strip_suffix('`')).unwrap().repeat(times)
    };
    cell.split(", then ").map(piece).collect::<String>().into_bytes()
}

/// What a call wrote, or why it wrote nothing.
type Compiled = Result<Vec<u8>, Refusal>;

fn compiled(text: &[u8], [propositions, components, minutes]: [usize; 3], room: usize) -> Compiled {
    let mut out = vec![0; room];
    let answer = conformance::compile_rule(text, propositions, components, minutes, &mut out);
    answer.map(|length| out[..length].to_vec())
}

/// The answer in a cell: the policy's bytes, how many they are, or a refusal.
fn is_answered(answer: &Compiled, cell: &str) -> bool {
    match cell.strip_suffix(" bytes") {
        Some(length) => answer.as_ref().is_ok_and(|policy| policy.len() == length.parse::<usize>().unwrap()),
        None if cell.starts_with('`') => *answer == Ok(cell_bytes(cell)),
        None => *answer == Err(refusal(cell)),
    }
}

#[test]
fn the_worked_rule_becomes_the_worked_policy() {
    let text = section("### A worked rule");
    let sentence = text.split_whitespace().collect::<Vec<_>>().join(" ");
    assert!(sentence
        .contains("With 1 proposition, 1 component and 4 minutes the text `(true since[0,2] m0)` becomes the policy"));
    let policy = compiled(b"(true since[0,2] m0)", [1, 1, 4], 517);
    assert_eq!(policy, Ok(small_policy()));
    assert_eq!(policy, Ok(worked(blocks(&text)[0])));
}

/// Whatever is accepted also opens.
#[test]
fn the_texts_are_answered_as_the_document_says() {
    for row in rows(&section("### A worked rule"), "| text | answer |") {
        let answer = compiled(&cell_text(&row[0]), [1, 1, 4], 517);
        assert!(is_answered(&answer, &row[1]), "{row:?}: {answer:?}");
        if let Ok(policy) = answer {
            opened(&policy);
        }
    }
}

#[test]
fn the_sizes_and_buffers_of_a_rule_are_answered_as_the_document_says() {
    for row in rows(&section("### A worked rule"), "| text | propositions |") {
        let number = |column: usize| row[column].parse().unwrap();
        let answer = compiled(&cell_text(&row[0]), [number(1), number(2), number(3)], number(4));
        assert!(is_answered(&answer, &row[5]), "{row:?}: {answer:?}");
    }
}

/// The last subformula is the text's own, and the one rule.
#[test]
fn the_terms_have_the_kinds_that_the_document_says() {
    for row in rows(&section("## The rule as text"), "| term | kind |") {
        let policy = compiled(&cell_text(&row[0]), [1, 1, 4], 517).unwrap();
        let lines = PolicyFields::from(&oracle::policy::read(&policy).unwrap()).lines;
        let (last, inner) = lines.split_last().unwrap();
        assert_eq!(last.kind.to_string(), row[1], "{row:?}");
        assert!(last.rule && inner.iter().all(|line| !line.rule), "{row:?}");
    }
}

/// The script is written from the document alone.
#[test]
fn the_script_writes_the_demo() {
    let output = Command::new("python3").arg(root().join("demo/make_bakery.py")).output().unwrap();
    assert!(output.status.success(), "{output:?}");
    assert_eq!(output.stdout, fs::read(root().join("demo/bakery.bin")).unwrap());
}
