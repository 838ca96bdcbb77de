//! Times, and what is said of several of them.

use std::sync::OnceLock;

/// The thread's own time in nanoseconds. On a shared machine a thread waits for its core, the longer
/// the longer it runs; wall time would charge that to the slow lines above all.
#[cfg(all(target_os = "linux", target_pointer_width = "64"))]
pub fn now() -> f64 {
    const THREAD_CPU_TIME: i32 = 3;
    unsafe extern "C" {
        fn clock_gettime(clock: i32, at: *mut [i64; 2]) -> i32;
    }
    let mut at = [0; 2];
    // SAFETY: the place is live and has the layout of a 64-bit timespec, seconds and nanoseconds.
    let failed = unsafe { clock_gettime(THREAD_CPU_TIME, &raw mut at) };
    assert_eq!(failed, 0, "no thread clock");
    at[0] as f64 * 1e9 + at[1] as f64
}

/// Wall time where the thread's own is not known.
#[cfg(not(all(target_os = "linux", target_pointer_width = "64")))]
pub fn now() -> f64 {
    use std::time::Instant;
    static START: OnceLock<Instant> = OnceLock::new();
    START.get_or_init(Instant::now).elapsed().as_nanos() as f64
}

/// What it takes to do something once, in nanoseconds.
pub fn time<T>(what: impl FnOnce() -> T) -> f64 {
    static CLOCK: OnceLock<f64> = OnceLock::new();
    // asking for the thread's time is a call into the system and longer than the peers' shortest lines
    let clock = *CLOCK.get_or_init(|| {
        let empty = |_| {
            let start = now();
            now() - start
        };
        Spread::of(&(0..1001).map(empty).collect::<Vec<_>>()).median
    });
    let start = now();
    std::hint::black_box(what());
    (now() - start - clock).max(0.0)
}

/// Median, least and most of several times, in nanoseconds.
#[derive(Debug, Clone, Copy, PartialEq)]
pub struct Spread {
    pub median: f64,
    pub least: f64,
    pub most: f64,
    pub runs: usize,
}

impl Spread {
    /// # Panics
    ///
    /// If there are no times.
    pub fn of(times: &[f64]) -> Self {
        let mut times = times.to_vec();
        times.sort_by(f64::total_cmp);
        let (runs, middle) = (times.len(), times.len() / 2);
        let median = if runs % 2 == 1 { times[middle] } else { (times[middle - 1] + times[middle]) / 2.0 };
        Self { median, least: times[0], most: times[runs - 1], runs }
    }
}

/// A time with three digits and a unit.
pub fn human(ns: f64) -> String {
    let (value, unit) = match ns {
        _ if ns < 1e3 => (ns, "ns"),
        _ if ns < 1e6 => (ns / 1e3, "µs"),
        _ if ns < 1e9 => (ns / 1e6, "ms"),
        _ => (ns / 1e9, "s"),
    };
    let digits = if value < 9.995 { 2 } else { usize::from(value < 99.95) };
    format!("{value:.digits$} {unit}")
}

#[cfg(test)]
mod tests {
    use super::*;

    #[test]
    fn spread_and_text() {
        let spread = Spread::of(&[3.0, 1.0, 2.0, 10.0]);
        assert_eq!((spread.median, spread.least, spread.most, spread.runs), (2.5, 1.0, 10.0, 4));
        assert_eq!(Spread::of(&[7.0]).median, 7.0);
        assert_eq!([12.34, 1234.0, 123_456.0, 2.5e9].map(human), ["12.3 ns", "1.23 µs", "123 µs", "2.50 s"]);
    }
}
