//! `compare [--seed S] [--calls N]`: random calls through the archive, document
//! 01's model and the published Rust, until the archive has answered N, one of a
//! hundred on three fragmented allocation groups; then as many of other histories
//! against demand 3's plain arrays. Where they part, what the difference does not
//! need is taken away, and the case is written to a file.
//! `compare --replay FILE`: the calls of such a file again.

#[path = "../tests/archive/mod.rs"]
mod archive;

use std::fs;
use std::process::ExitCode;
use std::time::{Duration, Instant};

use archive::Archive;
use compare::plain::demand_3;
use compare::recorded::{Case, Reader, Source, Writer};
use compare::run::Failure;
use compare::shrink::{describe, minimise};
use compare::three::{Three, parting};

/// Where a failing call is written.
const FAILING: &str = "target/failing.case";

/// How long a failing call is made smaller.
const SHRINKING: Duration = Duration::from_secs(20);

fn main() -> ExitCode {
    let (mut seed, mut calls) = (1, 1_000_000);
    let mut arguments = std::env::args().skip(1);
    while let Some(name) = arguments.next() {
        let value = arguments.next().unwrap_or_default();
        let number = || value.parse().expect("a number");
        match name.as_str() {
            "--seed" => seed = number(),
            "--calls" => calls = number(),
            "--replay" => return replay(&value),
            _ => panic!("usage: compare [--seed S] [--calls N] | --replay FILE"),
        }
    }
    if oracle::skipped("library, model and Rust") || !three(seed, calls) {
        return ExitCode::FAILURE;
    }
    plain(!seed, calls);
    ExitCode::SUCCESS
}

/// Library, model and Rust: whether they part only where it is listed.
fn three(seed: u64, calls: u64) -> bool {
    let mut progress = Progress::new(calls);
    let mut three = Three::default();
    let mut number = 0;
    if let Err(failure) = three.wide(&Archive, seed, (calls / 100) as usize) {
        report(&failure);
        return false;
    }
    while three.library < calls {
        if let Err(failure) = three.history(&Archive, seed, number) {
            report(&failure);
            return false;
        }
        number += 1;
        progress.tell(three.library);
    }
    println!("seed {seed}, histories 0 to {}", number - 1);
    print!("{}", three.tally.report());
    println!(
        "{} calls of the library, {} of them on three fragmented allocation groups; no other difference in {} s",
        three.library,
        three.wide,
        progress.seconds()
    );
    true
}

/// The smallest case that still shows a difference, in words and as a file.
fn report(failure: &Failure) {
    println!("{}: {}", failure.origin, failure.reason);
    let parts = |store: &_, call: &_| parting(&Archive, store, call).is_some();
    let (before, call) = minimise(&failure.store, &failure.call, &parts, SHRINKING);
    println!(
        "smallest case found: {}",
        parting(&Archive, &before, &call).unwrap_or_default()
    );
    print!("{}", describe(&before, &call));
    let mut after = before.clone();
    let answer = model::run(&mut after, &call);
    let mut writer = Writer::default();
    writer.case(&Case {
        before,
        call,
        source: Source::Document,
        answer,
        after,
    });
    match fs::write(FAILING, writer.finish()) {
        Ok(()) => println!("replay: make compare REPLAY={FAILING}"),
        Err(error) => println!("{FAILING}: {error}"),
    }
}

/// The calls of a file: library, model and Rust, and the answers that stand there.
fn replay(path: &str) -> ExitCode {
    let bytes = fs::read(path).expect("a file of calls");
    let mut code = ExitCode::SUCCESS;
    for (number, case) in Reader::new(&bytes).enumerate() {
        let mut store = case.before.clone();
        let answer = model::run(&mut store, &case.call);
        let reason = if answer == case.answer && store == case.after {
            parting(&Archive, &case.before, &case.call)
        } else {
            Some(format!("the model answers {} now", answer.number))
        };
        match reason {
            None => println!(
                "call {number}: all agree, {} count {}",
                answer.number, answer.count
            ),
            Some(reason) => {
                println!("call {number}: {reason}");
                print!("{}", describe(&case.before, &case.call));
                code = ExitCode::FAILURE;
            }
        }
    }
    code
}

/// Demand 3: a difference is a panic.
fn plain(seed: u64, calls: u64) {
    let mut progress = Progress::new(calls);
    let (mut made, mut number) = (0, 0);
    while made < calls {
        made += demand_3(&Archive, seed, number);
        number += 1;
        progress.tell(made);
    }
    println!(
        "{made} calls of the library in {number} histories: reads as the plain arrays, blocks and counts right in {} s",
        progress.seconds()
    );
}

struct Progress {
    calls: u64,
    started: Instant,
    told: Instant,
}

impl Progress {
    fn new(calls: u64) -> Self {
        let started = Instant::now();
        Self {
            calls,
            started,
            told: started,
        }
    }

    fn seconds(&self) -> u64 {
        self.started.elapsed().as_secs()
    }

    fn tell(&mut self, made: u64) {
        if self.told.elapsed() > Duration::from_secs(5) {
            self.told = Instant::now();
            let rate = made / self.seconds().max(1);
            println!(
                "{} s: {made} of {} calls, {rate} a second",
                self.seconds(),
                self.calls
            );
        }
    }
}
