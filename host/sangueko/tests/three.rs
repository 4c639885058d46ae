//! The archive, document 01's model and the published Rust on the same calls;
//! the recorded answers; and demand 3's plain arrays.

mod archive;

use std::fs;
use std::path::PathBuf;

use archive::Archive;
use compare::library::Library;
use compare::plain::demand_3;
use compare::recorded::Reader;
use compare::shrink::describe;
use compare::three::Three;

/// Calls of the gate, of either kind; `make compare` makes a million of each.
const CALLS: u64 = 20_000;

/// Calls in `host/recorded`.
const RECORDED: u64 = 2_762 + 19;

#[test]
fn library_model_and_rust_part_only_where_it_is_listed() {
    if oracle::skipped("random calls through library, model and Rust") {
        return;
    }
    let mut three = Three::default();
    let mut number = 0;
    while three.library < CALLS {
        if let Err(failure) = three.history(&Archive, 23, number) {
            let case = describe(&failure.store, &failure.call);
            panic!("{}: {}\n{case}", failure.origin, failure.reason);
        }
        number += 1;
    }
}

/// Every recorded call: answer, output and store.
#[test]
fn the_recorded_answers_are_given() {
    let folder = PathBuf::from(env!("CARGO_MANIFEST_DIR")).join("../recorded");
    let mut replayed = 0;
    for name in ["answers.bin", "groups.bin"] {
        let bytes = fs::read(folder.join(name)).expect("the recorded answers");
        for (number, case) in Reader::new(&bytes).enumerate() {
            let mut store = case.before.clone();
            let told = Archive.run(&mut store, &case.call);
            assert!(
                told == case.answer && store == case.after,
                "{name}, call {number}: {} count {}\n{}",
                told.number,
                told.count,
                describe(&case.before, &case.call)
            );
            replayed += 1;
        }
    }
    assert_eq!(replayed, RECORDED);
}

#[test]
fn reads_give_the_plain_arrays_bytes_and_blocks_add_up() {
    let (mut calls, mut number) = (0, 0);
    while calls < CALLS {
        calls += demand_3(&Archive, 12, number);
        number += 1;
    }
}
