//! `compare --seed S --calls N [--from H]`: random calls through document
//! 01's model and the published Rust until N were compared.
//! `compare --replay FILE`: the cases of a file that a failing run or `record`
//! wrote.

use std::process::ExitCode;
use std::time::{Duration, Instant};
use std::{env, fs};

use compare::library::Whole;
use compare::recorded::{Case, Reader, Source, Writer};
use compare::run::{Failure, Verdict, compare_history, judge};
use compare::shrink::{describe, minimise};
use compare::three::Three;
use model::{Call, Store};

fn main() -> ExitCode {
    let (mut seed, mut calls, mut from) = (1, 100_000, 0);
    let mut arguments = env::args().skip(1);
    while let Some(name) = arguments.next() {
        let value = arguments.next().unwrap_or_default();
        let number = || value.parse().expect("a number");
        match name.as_str() {
            "--seed" => seed = number(),
            "--calls" => calls = number(),
            "--from" => from = number(),
            "--replay" => return replay(&value),
            _ => panic!("usage: compare [--seed S] [--calls N] [--from H] | --replay FILE"),
        }
    }
    if oracle::skipped("compare") {
        return ExitCode::FAILURE;
    }
    let (started, mut told) = (Instant::now(), Instant::now());
    // One of a hundred on three fragmented allocation groups, by the model twice.
    let mut three = Three::default();
    if let Err(failure) = three.wide(&Whole(model::run), seed, (calls / 100) as usize) {
        report(&failure);
        return ExitCode::FAILURE;
    }
    let (mut tally, wide) = (three.tally, three.wide);
    let mut number = from;
    while tally.compared < calls {
        if let Err(failure) = compare_history(seed, number, &oracle::run, &mut tally) {
            report(&failure);
            return ExitCode::FAILURE;
        }
        number += 1;
        if told.elapsed() > Duration::from_secs(5) {
            told = Instant::now();
            let seconds = started.elapsed().as_secs();
            println!("{seconds} s: {} of {calls} calls compared", tally.compared);
        }
    }
    println!(
        "seed {seed}, {wide} calls on three fragmented allocation groups, histories {from} to {}",
        number - 1
    );
    print!("{}", tally.report());
    println!("no other difference in {} s", started.elapsed().as_secs());
    ExitCode::SUCCESS
}

fn report(failure: &Failure) {
    println!("{}: {}", failure.origin, failure.reason);
    let parts = |store: &Store, call: &Call| {
        let judged = judge(store, call, &oracle::run);
        matches!(judged.verdict, Verdict::Part(_))
    };
    let budget = Duration::from_secs(20);
    let (store, call) = minimise(&failure.store, &failure.call, &parts, budget);
    let judged = judge(&store, &call, &oracle::run);
    println!("smallest case found: {:?}", judged.verdict);
    print!("{}", describe(&store, &call));
    let mut writer = Writer::default();
    writer.case(&Case {
        before: store,
        call,
        source: Source::Both,
        answer: judged.answer,
        after: judged.after,
    });
    let path = "target/failing.case";
    match fs::write(path, writer.finish()) {
        Ok(()) => println!("replay: cargo run --release --bin compare -- --replay {path}"),
        Err(error) => println!("{path}: {error}"),
    }
}

fn replay(path: &str) -> ExitCode {
    let bytes = fs::read(path).expect("a file of recorded answers");
    let mut code = ExitCode::SUCCESS;
    for (number, case) in Reader::new(&bytes).enumerate() {
        let mut store = case.before.clone();
        let answer = model::run(&mut store, &case.call);
        let mut reasons = Vec::new();
        if answer != case.answer || store != case.after {
            reasons.push(format!("the model answers {}", answer.number));
        }
        if case.source != Source::Document && oracle::AVAILABLE {
            let verdict = judge(&case.before, &case.call, &oracle::run).verdict;
            if let Verdict::Part(reason) = verdict {
                reasons.push(reason);
            }
        }
        if !reasons.is_empty() {
            println!("case {number}: {}", reasons.join("; "));
            print!("{}", describe(&case.before, &case.call));
            code = ExitCode::FAILURE;
        }
    }
    code
}
