//! `record --seed S --out DIRECTORY`: makes the recorded answers.

use std::path::PathBuf;
use std::process::ExitCode;
use std::{env, fs};

use compare::sample;

fn main() -> ExitCode {
    let (mut seed, mut out) = (sample::SEED, PathBuf::from("recorded"));
    let mut arguments = env::args().skip(1);
    while let Some(name) = arguments.next() {
        let value = arguments.next().unwrap_or_default();
        match name.as_str() {
            "--seed" => seed = value.parse().expect("a number"),
            "--out" => out = value.into(),
            _ => panic!("usage: record [--seed S] [--out DIRECTORY]"),
        }
    }
    if oracle::skipped("record") {
        return ExitCode::FAILURE;
    }
    let files = [
        ("answers.bin", sample::answers(seed)),
        ("groups.bin", sample::groups(seed)),
    ];
    for (name, (bytes, calls)) in files {
        println!("{name}: {calls} calls, {} bytes", bytes.len());
        fs::write(out.join(name), bytes).expect("a writable directory");
    }
    ExitCode::SUCCESS
}
