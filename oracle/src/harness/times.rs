//! Times of parts of a run, over several runs, as cells of a table.

use std::time::Duration;

/// Nanoseconds a call.
pub type BestAndMedian = (f64, f64);

pub fn nanoseconds(time: BestAndMedian) -> String {
    format!("{:.0} ({:.0})", time.0, time.1)
}

pub fn ratio(part: BestAndMedian, whole: BestAndMedian) -> String {
    format!("{:.2} ({:.2})", part.0 / whole.0, part.1 / whole.1)
}

/// Nanoseconds a call: each part's best of all runs, and each part's median. A part that another
/// process has interrupted so counts for nothing.
pub fn best_and_median(runs: &[Vec<Duration>], calls: usize) -> BestAndMedian {
    let mut sums = (0, 0);
    for part in 0..runs[0].len() {
        let mut times: Vec<u128> = runs.iter().map(|run| run[part].as_nanos()).collect();
        times.sort();
        sums.0 += times[0];
        sums.1 += times[times.len() / 2];
    }
    (sums.0 as f64 / calls as f64, sums.1 as f64 / calls as f64)
}
