//! The policies under which reaches are asked: each is answered as it should, and the larger has as many lines and rules as there can be.

use bench::reaches::all;
use zankezurt::Sizes;

#[test]
fn are_answered_as_they_should() {
    all().iter().for_each(|asked| asked.ask());
}

#[test]
fn have_their_sizes() {
    let [small, largest] = all().map(|asked| Sizes::of(&asked.policy).unwrap());
    assert_eq!((small.subformulas, small.rules), (3, 1));
    assert_eq!(largest, Sizes::LARGEST);
}
