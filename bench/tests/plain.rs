//! The algorithm in safe Rust is the monitor's: same answers and same buffers after every message of random lists, and with every record
//! that is measured.

use bench::workload::{lent, Kinds, Record, Shape, Workload, LARGEST};
use bench::{demo, plain};
use oracle::generate::{self, Limits, Random};
use oracle::Buffers;

/// Offers a message to both, which must answer alike and leave the same buffers; is it taken?
fn both(policy: &[u8], message: &[u8], monitor: &mut Buffers, other: &mut Buffers) -> bool {
    let expected = zankezurt::receive(policy, message, &mut lent(monitor));
    let answer = plain::receive(policy, message, &mut lent(other));
    assert_eq!(answer, expected.map_err(|r| (r.reason.number(), r.place)));
    assert_eq!(other, monitor);
    answer.is_ok()
}

fn compare(seed: u64, limits: &Limits, lists: usize) -> usize {
    let mut random = Random::new(seed);
    let mut taken = 0;
    for _ in 0..lists {
        let policy = generate::policy(&mut random, limits);
        let bytes = generate::encode_policy(&policy);
        let trace = generate::trace(&mut random, &policy, 2);
        let mut monitor = Buffers::sized(&policy);
        zankezurt::open(&bytes, &mut lent(&mut monitor)).unwrap();
        let mut other = monitor.clone();
        for message in generate::offers(&mut random, &policy, &trace, 12) {
            taken += both(&bytes, &message, &mut monitor, &mut other) as usize;
        }
    }
    taken
}

#[test]
fn is_the_same_on_small_policies() {
    assert!(compare(1, &generate::SMALL, 2_000) > 2_000);
}

#[test]
fn is_the_same_on_large_policies() {
    assert!(compare(2, &generate::LARGEST, 40) > 40);
}

/// The measured message is taken and adds nothing to the record; others of any trace are taken or not, by both.
fn compare_record(random: &mut Random, shape: &Shape, record: Record) {
    let Workload { policy, encoded, message, buffers } = Workload::new(shape, record);
    let (mut monitor, mut other) = (buffers.clone(), buffers.clone());
    assert!(both(&encoded, &message, &mut monitor, &mut other));
    assert_eq!((&monitor.numbers, &monitor.facts), (&buffers.numbers, &buffers.facts));
    let trace = generate::trace(random, &policy, 2);
    for message in generate::offers(random, &policy, &trace, 12) {
        both(&encoded, &message, &mut monitor, &mut other);
    }
}

#[test]
fn is_the_same_with_the_records_that_are_measured() {
    let mut random = Random::new(3);
    let pairs = Kinds::ALL.into_iter().flat_map(|kinds| Record::ALL.map(|record| (kinds, record)));
    for (kinds, record) in pairs {
        for minutes in [1, 7, 8, 9, 60, 128, 1_000] {
            compare_record(&mut random, &Shape { minutes, kinds, ..LARGEST }, record);
        }
        (0..4).for_each(|_| compare_record(&mut random, &Shape { kinds, ..LARGEST }, record));
    }
}

/// Under the demo's rules, with abbreviations and without them, the same message leaves the same verdicts.
#[test]
fn the_demos_rules_have_the_same_verdicts_either_way() {
    assert_eq!((demo::short().subformulas.len(), demo::long().subformulas.len()), (8, 11));
    for record in Record::ALL {
        let verdicts = [demo::short(), demo::long()].map(|policy| {
            let Workload { encoded, message, mut buffers, .. } = Workload::under(policy, record);
            let mut other = buffers.clone();
            assert!(both(&encoded, &message, &mut buffers, &mut other));
            buffers.verdicts
        });
        assert_eq!(verdicts[0], verdicts[1]);
        assert_eq!(verdicts[0].contains(&1) && verdicts[0].contains(&2), record != Record::Empty);
    }
}

/// Both refuse a state that opening the policy does not write: a byte of the origin, the extent or a length is another, and also where the
/// record is not sound.
#[test]
fn is_the_same_with_states_of_other_policies() {
    let Workload { encoded, message, buffers, .. } = Workload::new(&Shape { minutes: 4, ..LARGEST }, Record::Full);
    let refuse = |damage: &dyn Fn(&mut Buffers)| {
        let mut monitor = buffers.clone();
        damage(&mut monitor);
        let mut other = monitor.clone();
        assert!(!both(&encoded, &message, &mut monitor, &mut other));
    };
    for at in 0..buffers.origin.len() {
        refuse(&|state| state.origin[at] ^= 1);
    }
    for extent in [0, buffers.extent - 1, buffers.extent + 1, buffers.extent + 256, u16::MAX] {
        refuse(&|state| state.extent = extent);
    }
    for length in [0, buffers.origin.len() - 1, buffers.origin.len() + 1] {
        refuse(&|state| state.origin.resize(length, 0));
    }
    refuse(&|state| state.numbers[0] = 1);
    refuse(&|state| (state.numbers[0], state.extent) = (1, 0));
}

/// How much of a run is known.
#[test]
fn records_know_all_nothing_and_bunches() {
    let known = |record| {
        let Workload { policy, buffers, .. } = Workload::new(&LARGEST, record);
        let facts = buffers.facts.chunks_exact(2).filter(|words| words[0] != 0).count();
        (buffers.known_numbers(&policy, 0).len(), buffers.known_numbers(&policy, 15).len(), facts)
    };
    assert_eq!(known(Record::Full), (1_025, 1_025, 1_024));
    assert_eq!(known(Record::Empty), (1, 1, 0));
    // 17 hours of eight, and the places 1020 to 1024 or the minutes 1020 to 1023
    assert_eq!(known(Record::Bunched), (141, 141, 140));
}
