//! Times two ways of doing one job, turn and turn about, so that what else the machine does falls on both alike.

use std::time::{Duration, Instant};

/// The best time of one call of each, over `rounds` rounds of at least `span` each.
pub fn pair(
    rounds: u32,
    span: Duration,
    mut ours: impl FnMut(),
    mut theirs: impl FnMut(),
) -> (f64, f64) {
    let (mut best_ours, mut best_theirs) = (f64::INFINITY, f64::INFINITY);
    for _ in 0..rounds {
        best_ours = best_ours.min(per_call(span, &mut ours));
        best_theirs = best_theirs.min(per_call(span, &mut theirs));
    }
    (best_ours, best_theirs)
}

/// The best time of one call of a job by itself.
#[allow(dead_code)]
pub fn alone(rounds: u32, span: Duration, mut job: impl FnMut()) -> f64 {
    (0..rounds).fold(f64::INFINITY, |best, _| best.min(per_call(span, &mut job)))
}

/// Seconds of one call, from as many as fill the span.
fn per_call(span: Duration, job: &mut impl FnMut()) -> f64 {
    let mut calls = 1u64;
    loop {
        let start = Instant::now();
        for _ in 0..calls {
            job();
        }
        let took = start.elapsed();
        if took >= span {
            return took.as_secs_f64() / calls as f64;
        }
        calls *= 2;
    }
}

/// One line: what was measured, both speeds in GB/s, and ours over theirs.
pub fn speeds(name: &str, bytes: usize, (ours, theirs): (f64, f64)) {
    let rate = |seconds: f64| bytes as f64 / seconds / 1e9;
    println!(
        "{name:<66} {:>8.2} {:>8.2} GB/s   {:>5.2} of its speed",
        rate(ours),
        rate(theirs),
        theirs / ours
    );
}

/// One line: what was measured, both times, and our time over theirs.
pub fn times(name: &str, (ours, theirs): (f64, f64)) {
    println!(
        "{name:<66} {:>8.2} {:>8.2} us     {:>5.2} of its time",
        ours * 1e6,
        theirs * 1e6,
        ours / theirs
    );
}

/// One line of a short job: both times, our time over theirs, and what was asked for.
#[allow(dead_code)]
pub fn nanoseconds(name: &str, (ours, theirs): (f64, f64), asked: Option<f64>) {
    let ratio = ours / theirs;
    let asked = asked.map_or(String::new(), |most| {
        let over = if ratio > most { ": over it" } else { "" };
        format!("   {most:.1} or less asked for{over}")
    });
    println!(
        "{name:<66} {:>8.1} {:>8.1} ns     {ratio:>5.2} of its time{asked}",
        ours * 1e9,
        theirs * 1e9
    );
}
