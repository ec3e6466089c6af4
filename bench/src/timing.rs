//! Times of takes, taken in turns, so that a slow stretch of the machine falls on all that is compared.

use crate::workload::Workload;
use std::time::Instant;

/// What is measured: it takes the workload's message.
pub trait Take {
    /// One take; gives how many verdicts stand.
    fn take(&self, workload: &mut Workload) -> usize;

    /// How many samples are taken of it, where so many are wanted.
    fn samples(&self, wanted: usize) -> usize {
        wanted
    }
}

/// A sample runs at least so many seconds.
const SAMPLE: f64 = 0.001;

/// Some measured values, in order.
pub struct Spread {
    sorted: Vec<f64>,
}

impl Spread {
    pub fn of(mut values: Vec<f64>) -> Spread {
        values.sort_by(f64::total_cmp);
        Spread { sorted: values }
    }

    pub fn least(&self) -> f64 {
        self.sorted[0]
    }

    pub fn most(&self) -> f64 {
        self.sorted[self.sorted.len() - 1]
    }

    pub fn median(&self) -> f64 {
        let middle = self.sorted.len() / 2;
        if self.sorted.len() % 2 == 1 {
            self.sorted[middle]
        } else {
            (self.sorted[middle - 1] + self.sorted[middle]) / 2.0
        }
    }

    /// The value that this share of the values lies below.
    pub fn quantile(&self, share: f64) -> f64 {
        self.sorted[((self.sorted.len() - 1) as f64 * share).round() as usize]
    }
}

/// Seconds for one take, as the mean of so many.
fn sample(measured: &dyn Take, workload: &mut Workload, takes: usize) -> f64 {
    let start = Instant::now();
    for _ in 0..takes {
        std::hint::black_box(measured.take(workload));
    }
    start.elapsed().as_secs_f64() / takes as f64
}

/// How many takes make a sample long enough.
fn takes_for(measured: &dyn Take, workload: &mut Workload) -> usize {
    let once = sample(measured, workload, 1);
    (SAMPLE / once).ceil().max(1.0) as usize
}

/// Seconds of a take, for each that is measured in turn and so many times over; the rounds of one are those of the other.
pub fn in_turns(measured: &[&dyn Take], workload: &mut Workload, samples: usize) -> Vec<Vec<f64>> {
    let takes: Vec<usize> = measured.iter().map(|&one| takes_for(one, workload)).collect();
    let mut times = vec![Vec::new(); measured.len()];
    for round in 0..samples {
        for (i, &one) in measured.iter().enumerate() {
            if round < one.samples(samples) {
                times[i].push(sample(one, workload, takes[i]));
            }
        }
    }
    times
}

/// Seconds of a take under each workload in turn and so many times over; the rounds of one are those of the other.
pub fn under_each(measured: &dyn Take, workloads: &mut [Workload], samples: usize) -> Vec<Vec<f64>> {
    let mut times = vec![Vec::new(); workloads.len()];
    for _ in 0..samples {
        for (workload, times) in workloads.iter_mut().zip(&mut times) {
            times.append(&mut in_turns(&[measured], workload, 1)[0]);
        }
    }
    times
}

/// The first's time over the other's, round by round.
pub fn ratios(first: &[f64], other: &[f64]) -> Spread {
    Spread::of(first.iter().zip(other).map(|(first, other)| first / other).collect())
}
