//! The recorded answers, replayed: always against the model, and against the
//! published Rust where it is there.

use std::collections::BTreeSet;
use std::fs;
use std::path::PathBuf;

use compare::broken::sound_store;
use compare::differences::Difference;
use compare::lists::read_many;
use compare::mixed::write_archive;
use compare::ranges::data_stretches;
use compare::recorded::{Case, Reader, Source, Writer};
use compare::run::{Verdict, judge};
use compare::sample;
use compare::shrink::describe;
use compare::writes::{TIME, batch_of, write_batch};

fn directory() -> PathBuf {
    PathBuf::from(env!("CARGO_MANIFEST_DIR")).join("../recorded")
}

fn recorded(name: &str) -> Vec<u8> {
    fs::read(directory().join(name)).expect("the recorded answers")
}

fn each(mut check: impl FnMut(&str, usize, Case)) {
    for name in ["answers.bin", "groups.bin"] {
        for (number, case) in Reader::new(&recorded(name)).enumerate() {
            check(name, number, case);
        }
    }
}

#[test]
fn model_and_rust_give_the_recorded_answers() {
    let no_rust = oracle::skipped("the recorded answers against the published Rust");
    each(|name, number, case| {
        let told = match case.source {
            Source::Both | Source::Differs(_) if !no_rust => {
                let judged = judge(&case.before, &case.call, &oracle::run);
                let expected = match case.source {
                    Source::Differs(listed) => Verdict::Listed(Difference::ALL[listed as usize]),
                    _ => Verdict::Agree,
                };
                assert!(
                    judged.verdict == expected,
                    "{name}, call {number}: {:?}, Rust {:?}\n{}",
                    judged.verdict,
                    judged.told.outcome,
                    describe(&case.before, &case.call)
                );
                (judged.answer, judged.after)
            }
            _ => {
                let mut store = case.before.clone();
                (model::run(&mut store, &case.call), store)
            }
        };
        assert!(
            told == (case.answer, case.after),
            "{name}, call {number}: the model answers {}\n{}",
            told.0.number,
            describe(&case.before, &case.call)
        );
    });
}

#[test]
fn the_sample_is_small_and_shows_every_number() {
    let bytes: usize = ["answers.bin", "groups.bin"]
        .map(|name| recorded(name).len())
        .iter()
        .sum();
    assert!(bytes < 2 << 20);
    let (mut calls, mut shown) = (0, BTreeSet::new());
    for case in Reader::new(&recorded("answers.bin")) {
        calls += usize::from(case.call.compared());
        shown.insert((case.call.name(), case.answer.number));
    }
    assert!(calls >= 300, "{calls} compared calls");
    let wanted: [(&str, &[u32]); 7] = [
        ("fresh", &[0, 1]),
        ("enter", &[0, 1, 2, 4, 7, 8]),
        ("write", &[0, 1, 2, 3, 5, 7, 9, 10, 11, 12, 13, 14, 15, 16]),
        ("grow", &[0, 1, 2, 3, 5, 6, 7, 9, 10, 11, 12, 13, 14, 16]),
        ("read", &[0, 1, 2, 3, 9, 10, 11, 12]),
        ("settle", &[0, 1, 2]),
        ("fill", &[0, 1, 2]),
    ];
    for (name, numbers) in wanted {
        for number in numbers {
            assert!(shown.contains(&(name, *number)), "{name} {number}");
        }
    }
}

/// Neither lists nor archive writes are recorded; a failing one is written, to be
/// run again.
#[test]
fn other_calls_are_written_and_read_again() {
    let store = sound_store();
    let cases = [
        read_many(&[(7, 8_990, 20), (9, 0, 10)], 40),
        read_many(&[(7, 0, 10), (8, 0, 10)], 20),
        read_many(&[(7, 0, u64::MAX)], 0),
        read_many(&[], 3),
        write_batch(&[(7, 8_990, 20), (9, 0, 10)]),
        write_batch(&[(7, 0, 10), (8, 0, 10)]),
        write_batch(&[(8, 0, 10)]),
        batch_of(&[(7, 0, 10)], 9, TIME),
        write_batch(&[]),
        data_stretches(7, 0, u64::MAX, 20),
        data_stretches(8, 1, 2, 0),
        data_stretches(7, u64::MAX, 1, 3),
        write_archive(7, 5_000, b"some bytes", TIME),
        write_archive(8, 0, &[], TIME),
    ]
    .map(|call| {
        let mut after = store.clone();
        Case {
            before: store.clone(),
            source: Source::Document,
            answer: model::run(&mut after, &call),
            after,
            call,
        }
    });
    assert_eq!(
        cases
            .each_ref()
            .map(|case| (case.answer.number, case.answer.refused)),
        [
            (0, false),
            (3, true),
            (17, true),
            (0, false),
            (0, false),
            (3, false),
            (3, false),
            (18, true),
            (0, false),
            (0, false),
            (3, true),
            (19, true),
            (0, false),
            (3, true)
        ]
    );
    let mut writer = Writer::default();
    for case in &cases {
        writer.case(case);
    }
    let again: Vec<Case> = Reader::new(&writer.finish()).collect();
    assert_eq!(again, cases);
}

/// Only the small stores: those of groups.bin would take a minute.
#[test]
fn the_command_makes_the_recorded_answers() {
    if oracle::skipped("making the recorded answers again") {
        return;
    }
    let (bytes, _) = sample::answers(sample::SEED);
    assert!(bytes == recorded("answers.bin"), "not what `record` makes");
}
