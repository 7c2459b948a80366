//! The times of two functions, side by side.

use std::time::{Duration, Instant};

/// A number for each side: nanoseconds or instructions.
#[derive(Clone, Copy)]
pub struct Pair {
    pub rattle: f64,
    pub baseline: f64,
}

impl Pair {
    pub fn ratio(&self) -> f64 {
        self.rattle / self.baseline
    }

    /// What one of `requests` takes, where `empty` is the cost of none.
    pub fn each(&self, empty: Pair, requests: usize) -> Pair {
        Pair {
            rattle: (self.rattle - empty.rattle) / requests as f64,
            baseline: (self.baseline - empty.baseline) / requests as f64,
        }
    }
}

/// How long one sample runs at least: less than a turn of another process on the
/// machine, so that most samples are undisturbed.
const SAMPLE: Duration = Duration::from_micros(200);

/// Samples of each; the median leaves the disturbed ones out.
const SAMPLES: usize = 501;

/// The medians. Samples of the two alternate, so that a slow moment of the
/// machine falls on both.
pub fn times(rattle: &mut dyn FnMut(), baseline: &mut dyn FnMut()) -> Pair {
    let rattle_calls = calls_in_sample(rattle);
    let baseline_calls = calls_in_sample(baseline);
    let mut rattle_times = Vec::new();
    let mut baseline_times = Vec::new();
    for _ in 0..SAMPLES {
        rattle_times.push(time(rattle, rattle_calls));
        baseline_times.push(time(baseline, baseline_calls));
    }
    Pair { rattle: median(rattle_times), baseline: median(baseline_times) }
}

fn calls_in_sample(function: &mut dyn FnMut()) -> usize {
    let mut calls = 1;
    loop {
        let begin = Instant::now();
        for _ in 0..calls {
            function();
        }
        if begin.elapsed() >= SAMPLE {
            return calls;
        }
        calls *= 2;
    }
}

fn time(function: &mut dyn FnMut(), calls: usize) -> f64 {
    let begin = Instant::now();
    for _ in 0..calls {
        function();
    }
    begin.elapsed().as_nanos() as f64 / calls as f64
}

fn median(mut times: Vec<f64>) -> f64 {
    times.sort_by(f64::total_cmp);
    times[times.len() / 2]
}
