//! The citations of docs/TRACE.md: each file is there, each name stands in its file, each label in what its program
//! prints; and every must-fail edit is cited.

use conformance::process::root;
use std::collections::BTreeSet;
use std::fs;

/// Folders whose paths are cited as they stand.
const AS_THEY_STAND: [&str; 7] = ["bench", "bindings", "conformance", "crates", "demo", "docs", "oracle"];

/// A file of the repository that is cited, with the names or the label that are to stand in it.
struct Citation {
    file: String,
    names: Vec<String>,
    label: Option<String>,
}

fn document() -> String {
    fs::read_to_string(root().join("docs/TRACE.md")).unwrap()
}

/// What stands between backticks, also where a line is broken in it.
fn spans(document: &str) -> Vec<String> {
    let pieces: Vec<&str> = document.split('`').collect();
    assert!(pieces.len() % 2 == 1, "a backtick without its other");
    pieces.into_iter().skip(1).step_by(2).map(|span| span.replace('\n', " ")).collect()
}

fn is_folder(name: &str) -> bool {
    !name.is_empty() && name.chars().all(|letter| letter.is_ascii_lowercase() || letter == '_')
}

/// Where a cited path stands: `crate/File` in the folder of its ending, any other path as it stands.
fn file_of(path: &str) -> Option<String> {
    let (first, rest) = path.split_once('/')?;
    if !is_folder(first) || rest.is_empty() {
        return None;
    }
    if AS_THEY_STAND.contains(&first) {
        return Some(path.to_string());
    }
    let folder = match rest.rsplit_once('.').map(|(_, ending)| ending) {
        _ if rest.contains('/') => "",
        Some("antt") => "specs/",
        Some("rt") => "src/",
        Some("edit") => "must-fail/",
        _ => "",
    };
    Some(format!("crates/{first}/{folder}{rest}"))
}

/// `program: "label"`.
fn label_of(span: &str) -> Option<Citation> {
    let (program, label) = span.split_once(": \"")?;
    let label = Some(label.strip_suffix('"')?.to_string());
    is_folder(program).then(|| Citation { file: format!("crates/{program}/stdout"), names: vec![], label })
}

/// `path` or `path: name, A.b`; none if the span is no citation.
fn citation_of(span: &str) -> Option<Citation> {
    if let Some(citation) = label_of(span) {
        return Some(citation);
    }
    let (path, names) = span.split_once(": ").unwrap_or((span, ""));
    let names = names.split([',', '.']).map(|name| name.trim().to_string()).filter(|name| !name.is_empty());
    Some(Citation { file: file_of(path)?, names: names.collect(), label: None })
}

fn in_word(letter: char) -> bool {
    letter.is_alphanumeric() || "_-·′".contains(letter)
}

/// Does the text have it, not as a part of a longer word?
fn stands(text: &str, sought: &str) -> bool {
    text.match_indices(sought).any(|(at, _)| {
        let before = text[..at].chars().next_back();
        let after = text[at + sought.len()..].chars().next();
        !before.is_some_and(in_word) && !after.is_some_and(in_word)
    })
}

/// The file without its comments and without what it takes from other files.
fn own_text(text: &str) -> String {
    let elsewhere = ["--", "//", "use ", "pub use ", "ghost use "];
    let own = |line: &&str| !elsewhere.iter().any(|start| line.trim_start().starts_with(start));
    text.lines().filter(own).collect::<Vec<_>>().join("\n")
}

/// What is wrong with a citation: the file, or the names or the label that do not stand in it.
fn wrong(citation: &Citation) -> Vec<String> {
    let Ok(text) = fs::read_to_string(root().join(&citation.file)) else {
        return vec![format!("no {}", citation.file)];
    };
    let own = own_text(&text);
    let names = citation.names.iter().filter(|name| !stands(&own, name));
    let labels = citation.label.iter().filter(|label| !stands(&text, label));
    names.chain(labels).map(|missing| format!("no {missing} in {}", citation.file)).collect()
}

/// Every must-fail edit.
fn edits() -> BTreeSet<String> {
    let folders = fs::read_dir(root().join("crates")).unwrap().map(|entry| entry.unwrap());
    let files = folders.flat_map(|entry| {
        let name = entry.file_name().into_string().unwrap();
        let files = fs::read_dir(entry.path().join("must-fail")).into_iter().flatten();
        files.map(move |file| format!("crates/{name}/must-fail/{}", file.unwrap().file_name().into_string().unwrap()))
    });
    files.filter(|file| file.ends_with(".edit")).collect()
}

#[test]
fn every_citation_stands() {
    let citations: Vec<Citation> = spans(&document()).iter().filter_map(|span| citation_of(span)).collect();
    let cited: usize = citations.iter().map(|citation| citation.names.len().max(1)).sum();
    println!("{} citations of {cited} names, labels and files", citations.len());
    let wrong: BTreeSet<String> = citations.iter().flat_map(wrong).collect();
    assert!(wrong.is_empty(), "docs/TRACE.md cites what is not there:\n{}", Vec::from_iter(wrong).join("\n"));
}

#[test]
fn every_must_fail_edit_is_cited() {
    let cited: BTreeSet<String> = spans(&document()).iter().filter_map(|span| Some(citation_of(span)?.file)).collect();
    let edits = edits();
    assert!(!edits.is_empty());
    let missing: Vec<&String> = edits.difference(&cited).collect();
    assert!(missing.is_empty(), "docs/TRACE.md does not cite:\n{missing:#?}");
}

/// A span that is read wrongly would be passed over.
#[test]
fn citations_are_read() {
    let read = |span: &str| citation_of(span).map(|citation| (citation.file, citation.names, citation.label));
    let names = |names: &[&str]| names.iter().map(|name| name.to_string()).collect::<Vec<_>>();
    let file = |file: &str| file.to_string();
    assert_eq!(
        read("mtl/Pins.antt: Pins.missing, pins"),
        Some((file("crates/mtl/specs/Pins.antt"), names(&["Pins", "missing", "pins"]), None))
    );
    assert_eq!(read("monitor_calls/lib.rt: open"), Some((file("crates/monitor_calls/src/lib.rt"), names(&["open"]), None)));
    assert_eq!(read("kleene/or.edit"), Some((file("crates/kleene/must-fail/or.edit"), names(&[]), None)));
    assert_eq!(read("oracle/src/brute.rs: at"), Some((file("oracle/src/brute.rs"), names(&["at"]), None)));
    assert_eq!(read("rows/proofs/Lib.antt"), Some((file("crates/rows/proofs/Lib.antt"), names(&[]), None)));
    assert_eq!(
        read("policy_vectors: \"K, until\""),
        Some((file("crates/policy_vectors/stdout"), names(&[]), Some(file("K, until"))))
    );
    assert_eq!(read("01 01 04 00"), None);
    assert_eq!(read("&mut [u16]"), None);
}
