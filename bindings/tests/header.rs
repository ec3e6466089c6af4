//! The header, the bindings, the archive and the documents agree: refusals and kinds of lines by name and number, the longest texts, the
//! most rules, and the version.

mod common;

use common::{build_program, text};
use std::process::Command;
use zankezurt::{kind, version, Reason, Sizes, MESSAGE_LENGTH, POLICY_LENGTH, VERSION};

/// Things by their numbers and names.
type Named = Vec<(u16, String)>;

/// Every reason of the bindings.
fn reasons() -> Named {
    Reason::ALL.map(|reason| (reason.number().into(), reason.to_string())).to_vec()
}

/// Every kind of the bindings.
fn kinds() -> Named {
    let kinds = [
        (kind::TRUE, "true"),
        (kind::PROPOSITION, "proposition"),
        (kind::NOT, "not"),
        (kind::OR, "or"),
        (kind::SINCE, "since"),
        (kind::UNTIL, "until"),
        (kind::AND, "and"),
        (kind::IMPLIES, "implies"),
        (kind::ONCE, "once"),
        (kind::HISTORICALLY, "historically"),
        (kind::EVENTUALLY, "eventually"),
        (kind::ALWAYS, "always"),
    ];
    kinds.map(|(number, name)| (number, name.to_string())).to_vec()
}

/// The constants of an enum in the header, without what their names start with.
fn constants(name: &str, start: &str) -> Named {
    let header = text("include/zankezurt.h");
    let (_, after) = header.split_once(&format!("enum {name} {{")).unwrap();
    let (constants, _) = after.split_once("};").unwrap();
    let constant = |line: &str| {
        let (name, rest) = line.trim().strip_prefix(start)?.split_once(" = ")?;
        let number = rest.split(|letter: char| !letter.is_ascii_digit()).next()?;
        Some((number.parse().unwrap(), name.to_lowercase().replace('_', " ")))
    };
    constants.lines().filter_map(constant).collect()
}

/// The first two cells of each row, below the heading of a table of four columns in a document.
fn rows(document: &str, heading: &str) -> Named {
    let document = text(document);
    let (_, table) = document.split_once(&format!("{heading}\n|---|---|---|---|\n")).unwrap();
    let row = |line: &str| {
        let mut cells = line.strip_prefix("| ")?.split(" | ");
        Some((cells.next()?.parse().unwrap(), cells.next()?.to_string()))
    };
    table.lines().map_while(row).collect()
}

#[test]
fn the_header_has_the_reasons_of_the_bindings() {
    let found = constants("zankezurt_refusal", "ZANKEZURT_");
    assert_eq!(found[0], (0, "accepted".to_string()));
    assert_eq!(found[1..], reasons());
}

#[test]
fn the_readme_has_the_reasons_of_the_bindings() {
    assert_eq!(rows("README.md", "| number | name | when | place |"), reasons());
}

#[test]
fn the_header_and_the_format_have_the_kinds_of_the_bindings() {
    assert_eq!(constants("zankezurt_kind", "ZANKEZURT_KIND_"), kinds());
    assert_eq!(rows("docs/FORMAT.md", "| kind | name | it is true at minute t if | fields besides kind |"), kinds());
}

/// The number for which the header defines a name.
fn defined(name: &str) -> usize {
    let header = text("include/zankezurt.h");
    let (_, after) = header.split_once(&format!("#define {name} ")).unwrap();
    after.split_whitespace().next().unwrap().parse().unwrap()
}

#[test]
fn the_header_has_the_longest_texts_of_the_bindings() {
    assert_eq!(defined("ZANKEZURT_POLICY_LENGTH"), POLICY_LENGTH);
    assert_eq!(defined("ZANKEZURT_MESSAGE_LENGTH"), MESSAGE_LENGTH);
}

#[test]
fn the_header_has_the_most_rules_of_the_bindings() {
    assert_eq!(defined("ZANKEZURT_MOST_RULES"), Sizes::LARGEST.rules);
}

#[test]
fn the_archive_is_of_the_bindings_version() {
    assert_eq!(version(), VERSION);
}

/// The header's version, the archive's, and calls with empty and NULL bytes, packets, states of other policies, fields to write, lines of
/// every kind, rules typed as text and the reaches of rules, from C; it stops at the first that is wrong.
#[test]
fn the_calls_from_c() {
    let said = Command::new(build_program("bindings/tests/calls.c", "calls")).output().unwrap();
    assert!(said.status.success(), "{}", String::from_utf8_lossy(&said.stderr));
    assert_eq!(String::from_utf8(said.stdout).unwrap(), format!("version {VERSION}\n"));
}
