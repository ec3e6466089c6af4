//! How a take's time grows with the minutes and with the subformulas.

use crate::contender::Contender;
use crate::timing::{under_each, Spread};
use crate::workload::{Record, Shape, Workload};

/// A size, and the least time measured of a take at that size, in seconds.
pub struct Point {
    pub size: usize,
    pub time: f64,
}

/// The least time of the monitor's take for each shape and a record, measured in turns; sizes are the numbers shown.
pub fn points(shapes: &[(usize, Shape)], record: Record, samples: usize) -> Vec<Point> {
    let mut workloads: Vec<Workload> = shapes.iter().map(|(_, shape)| Workload::new(shape, record)).collect();
    let times = under_each(&Contender::Monitor, &mut workloads, samples);
    shapes.iter().zip(times).map(|((size, _), times)| Point { size: *size, time: Spread::of(times).least() }).collect()
}

/// The slope of the best line through the points on logarithmic scales.
pub fn slope(points: &[Point]) -> f64 {
    let logs: Vec<(f64, f64)> = points.iter().map(|point| ((point.size as f64).ln(), point.time.ln())).collect();
    line(&logs)
}

/// What each doubling of the size adds to the time, beside the size that was doubled: the part that grows, without what a take costs at
/// any size.
pub fn added(points: &[Point]) -> Vec<Point> {
    points.windows(2).map(|pair| Point { size: pair[0].size, time: pair[1].time - pair[0].time }).collect()
}

/// The slope of the least-squares line.
fn line(points: &[(f64, f64)]) -> f64 {
    let count = points.len() as f64;
    let mean = |value: fn(&(f64, f64)) -> f64| points.iter().map(value).sum::<f64>() / count;
    let (x, y) = (mean(|p| p.0), mean(|p| p.1));
    let across: f64 = points.iter().map(|p| (p.0 - x) * (p.0 - x)).sum();
    let along: f64 = points.iter().map(|p| (p.0 - x) * (p.1 - y)).sum();
    along / across
}
