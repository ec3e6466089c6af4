//! The texts that are measured: each is answered as it should, and the largest rules have as many lines as a rule of their kind can have.

use bench::rules::{accepted, long_intervals, long_propositions};
use oracle::policy;
use zankezurt::{compile_rule, POLICY_LENGTH};

#[test]
fn are_answered_as_they_should() {
    [accepted(), long_propositions(), long_intervals()].iter().flatten().for_each(|typed| typed.compile());
}

#[test]
fn have_as_many_lines_as_terms() {
    let lines = accepted().into_iter().map(|typed| {
        let mut out = [0; POLICY_LENGTH];
        let length = compile_rule(typed.text.as_bytes(), 32, 16, 1024, &mut out).unwrap();
        policy::read(&out[..length]).unwrap().subformulas.len()
    });
    assert_eq!(lines.collect::<Vec<_>>(), [3, 64, 63, 63]);
}

#[test]
fn refuse_one_term_more() {
    for typed in &accepted()[1..] {
        // 64 terms may be read of 63, and no more
        let not = if typed.name.starts_with("64") { "not " } else { "not not " };
        let text = format!("{not}{}", typed.text);
        assert!(compile_rule(text.as_bytes(), 32, 16, 1024, &mut [0; POLICY_LENGTH]).is_err(), "{}", typed.name);
    }
}
