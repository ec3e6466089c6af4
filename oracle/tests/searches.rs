//! Searches of one component's run for a minute, worked by hand.

use oracle::knowledge::{search, Search, NOT_KNOWN};

/// Not known.
const N: u16 = NOT_KNOWN;

fn quiet(before: usize, after: usize, reads: usize) -> Search {
    Search { quiet: true, full: false, before: Some(before), after: Some(after), reads }
}

fn busy(before: usize, after: usize, reads: usize) -> Search {
    Search { quiet: false, full: true, before: Some(before), after: Some(after), reads }
}

fn open(before: Option<usize>, after: Option<usize>, reads: usize) -> Search {
    Search { quiet: false, full: false, before, after, reads }
}

/// Minutes 0 and 1 are between the places 0 and 2, minutes 2 and 3 between 2 and 4, minutes 4 and 5 after 4.
#[test]
fn every_minute_of_a_run() {
    let run = [0, N, 0, N, 1, N, N];
    let searches: Vec<Search> = (0..7).map(|minute| search(&run, minute)).collect();
    assert_eq!(searches[..2], [quiet(0, 2, 3); 2]);
    assert_eq!(searches[2..4], [open(Some(2), Some(4), 3); 2]);
    assert_eq!(searches[4..], [open(Some(4), None, 3); 3]);
}

/// The number at minute t − 1 stands at place t and is before minute t, that at minute t at place t + 1 and is not.
#[test]
fn the_places_beside_the_minute() {
    assert_eq!(search(&[0, N, 2, N, 2], 2), quiet(2, 4, 3));
    assert_eq!(search(&[0, N, 2, N, 2], 1), busy(0, 2, 3));
    assert_eq!(search(&[0, N, 0, 0, N], 2), quiet(2, 3, 2));
    assert_eq!(search(&[0, N, 0, 1, N], 2), busy(2, 3, 2));
}

#[test]
fn the_first_minute() {
    assert_eq!(search(&[0, 0, 0], 0), quiet(0, 1, 2));
    assert_eq!(search(&[0, 1, 1], 0), busy(0, 1, 2));
    assert_eq!(search(&[0, N, 0], 0), quiet(0, 2, 3));
    assert_eq!(search(&[0, N], 0), open(Some(0), None, 2));
}

/// Minute M − 1 is the last; none is known at or after minute M, to which an alive may be sent.
#[test]
fn the_last_minute() {
    assert_eq!(search(&[0, N, 0, 0], 2), quiet(2, 3, 2));
    assert_eq!(search(&[0, N, N, 0], 2), quiet(0, 3, 4));
    assert_eq!(search(&[0, N, 1, N], 2), open(Some(2), None, 2));
    assert_eq!(search(&[0, N, 1, 1], 3), open(Some(3), None, 1));
    assert_eq!(search(&[0], 0), open(Some(0), None, 1));
}

#[test]
fn none_known_after_is_read_to_the_end_of_the_run() {
    assert_eq!(search(&[0, 1, N, N, N], 1), open(Some(1), None, 4));
    assert_eq!(search(&[0, 1, N, N, N], 3), open(Some(1), None, 4));
}

/// No sound record has such a run.
#[test]
fn none_known_before_is_read_from_the_start_of_the_run() {
    assert_eq!(search(&[N, N, N, 3, 3], 1), open(None, Some(3), 4));
    assert_eq!(search(&[N, N, N, 3, 3], 3), quiet(3, 4, 2));
    assert_eq!(search(&[N, N, N], 1), open(None, None, 3));
}

#[test]
fn everything_known_is_two_places() {
    let run: Vec<u16> = (0..=1024).map(|place| place / 2).collect();
    for minute in 0..1024 {
        let expected = if minute % 2 == 0 { quiet } else { busy };
        assert_eq!(search(&run, minute), expected(minute, minute + 1, 2));
    }
}

#[test]
fn only_the_first_known_is_the_whole_run() {
    let mut run = [N; 1025];
    run[0] = 0;
    for minute in 0..1024 {
        assert_eq!(search(&run, minute), open(Some(0), None, 1025));
    }
}

/// Any a and b with equal numbers will do: where numbers fall, as in no sound record, not only the nearest.
#[test]
fn quiet_by_any_two_equal_numbers() {
    assert_eq!(search(&[5, 3, N, 4, 5], 2), quiet(1, 3, 3));
    assert_eq!(search(&[5, 3, N, 4, 7], 2), open(Some(1), Some(3), 3));
}

/// As many observations as minutes, from the run's start, to its end and between.
#[test]
fn a_full_gap_is_busy() {
    let searches = |run: &[u16]| (0..run.len() - 1).map(|minute| search(run, minute)).collect::<Vec<_>>();
    assert_eq!(searches(&[0, N, 2, 2]), [busy(0, 2, 3), busy(0, 2, 3), quiet(2, 3, 2)]);
    assert_eq!(searches(&[0, 0, N, 2]), [quiet(0, 1, 2), busy(1, 3, 3), busy(1, 3, 3)]);
    assert_eq!(
        searches(&[0, 0, N, N, 3, N])[1..],
        [busy(1, 4, 4), busy(1, 4, 4), busy(1, 4, 4), open(Some(4), None, 2)]
    );
    // Across known places each minute has its nearest.
    assert_eq!(searches(&[0, 1, N, 3]), [busy(0, 1, 2), busy(1, 3, 3), busy(1, 3, 3)]);
    // "A mixer lost two slips at minutes 0 and 1, then reported count 3 at minute 2."
    assert_eq!(searches(&[0, N, 2, 3]), [busy(0, 2, 3), busy(0, 2, 3), busy(2, 3, 2)]);
}

#[test]
fn a_gap_with_one_observation_less_is_open() {
    for (run, reads) in [(vec![0, N, 1], 3), (vec![0, N, N, 2], 4), (vec![0, N, N, 1], 4)] {
        for minute in 0..run.len() - 1 {
            assert_eq!(search(&run, minute), open(Some(0), Some(run.len() - 1), reads));
        }
    }
}

#[test]
fn the_longest_full_gap() {
    let mut run = [N; 1025];
    (run[0], run[1024]) = (0, 1024);
    for minute in 0..1024 {
        assert_eq!(search(&run, minute), busy(0, 1024, 1025));
    }
    run[1024] = 1023;
    assert_eq!(search(&run, 0), open(Some(0), Some(1024), 1025));
}

/// Any a and b will do here too: where numbers rise by more than one a minute, as in no sound record, not only the
/// nearest. And 65535 is no number, also where one more than a known one would be.
#[test]
fn busy_by_any_two_numbers_as_far_apart_as_their_places() {
    assert_eq!(search(&[0, N, 3, N, 4], 0), busy(0, 2, 3));
    assert_eq!(search(&[0, N, 3, N, 5], 0), open(Some(0), Some(2), 3));
    assert_eq!(search(&[65533, 65534, N], 0), busy(0, 1, 2));
    assert_eq!(search(&[65533, 65534, N], 1), open(Some(1), None, 2));
}
