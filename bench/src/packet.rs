//! Times of a packet and of the takes of its messages, under the largest policy and with a full record.

use crate::workload::{known_messages, lent, Record, Workload, LARGEST};
use std::time::Instant;

/// Seconds of a packet of so many messages, and of taking them one by one, in turns and so many times over.
pub fn in_turns(count: usize, samples: usize) -> [Vec<f64>; 2] {
    let mut workload = Workload::new(&LARGEST, Record::Full);
    let messages = known_messages(&workload.policy, &workload.buffers, count);
    let packet = messages.concat();
    let mut times = [Vec::new(), Vec::new()];
    for _ in 0..samples {
        times[0].push(seconds(|| assert_eq!(take_packet(&mut workload, &packet), count)));
        times[1].push(seconds(|| messages.iter().for_each(|message| take(&mut workload, message))));
    }
    times
}

fn seconds(calls: impl FnOnce()) -> f64 {
    let start = Instant::now();
    calls();
    start.elapsed().as_secs_f64()
}

/// How many messages of the packet are taken.
fn take_packet(workload: &mut Workload, packet: &[u8]) -> usize {
    zankezurt::receive_packet(&workload.encoded, packet, &mut lent(&mut workload.buffers)).taken
}

fn take(workload: &mut Workload, message: &[u8]) {
    zankezurt::receive(&workload.encoded, message, &mut lent(&mut workload.buffers)).expect("a take");
}
