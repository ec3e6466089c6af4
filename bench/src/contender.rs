//! What is measured: each does to the same buffers what its name says.

use crate::plain;
use crate::timing::Take;
use crate::workload::{lent, Workload};
use oracle::knowledge::time_points_of_many;
use oracle::{reading, Buffers};
use std::hint::black_box;

#[derive(Clone, Copy, Debug, PartialEq, Eq)]
pub enum Contender {
    /// The proved library, through its archive.
    Monitor,
    /// (a) The same algorithm in safe Rust; gaps are found in one pass over a run, and no places read are counted.
    Plain,
    /// (b) The direct reading: the oracle's, by the definition's sums.
    Sums,
    /// (b) The same with each "for all" carried along from one j to the next.
    Walk,
    /// (c) Each cell of both sheets written once.
    Floor,
}

pub const ALL: [Contender; 5] =
    [Contender::Monitor, Contender::Plain, Contender::Sums, Contender::Walk, Contender::Floor];

impl Contender {
    pub fn name(self) -> &'static str {
        match self {
            Contender::Monitor => "monitor",
            Contender::Plain => "plain",
            Contender::Sums => "sums",
            Contender::Walk => "walk",
            Contender::Floor => "floor",
        }
    }

    pub fn describe(self) -> &'static str {
        match self {
            Contender::Monitor => "the monitor",
            Contender::Plain => "(a) the same algorithm in safe Rust",
            Contender::Sums => "(b) the direct reading, by its sums",
            Contender::Walk => "(b) the direct reading, \"for all\" carried along",
            Contender::Floor => "(c) the floor, each cell written once",
        }
    }
}

impl Take for Contender {
    /// The direct reading takes seconds.
    fn samples(&self, wanted: usize) -> usize {
        match self {
            Contender::Sums => 3,
            Contender::Walk => wanted.min(7),
            _ => wanted,
        }
    }

    fn take(&self, workload: &mut Workload) -> usize {
        let Workload { policy, encoded, message, buffers } = workload;
        match self {
            Contender::Monitor => zankezurt::receive(encoded, message, &mut lent(buffers)).expect("a take"),
            Contender::Plain => plain::receive(encoded, message, &mut lent(buffers)).expect("a take"),
            Contender::Sums => {
                buffers.valuation = reading::valuation(policy, buffers);
                conclude(policy, buffers)
            }
            Contender::Walk => {
                buffers.valuation = reading::valuation_of_many(policy, buffers);
                conclude(policy, buffers)
            }
            Contender::Floor => {
                black_box(&mut buffers.valuation).fill(black_box(1));
                black_box(&mut buffers.verdicts).fill(black_box(1));
                black_box(&*buffers).verdicts.len()
            }
        }
    }
}

fn conclude(policy: &oracle::Policy, buffers: &mut Buffers) -> usize {
    buffers.verdicts = reading::verdicts(policy, &time_points_of_many(policy, buffers), &buffers.valuation);
    reading::standing(&buffers.verdicts)
}
