//! Random calls through both sides, and proof that the comparison finds what
//! is wrong.

use std::time::Duration;

use compare::archive::archives;
use compare::edges::{Edge, edges};
use compare::run::{Failure, Judged, Tally, Verdict, compare_history, judge};
use compare::shrink::{describe, minimise};
use model::{Call, Store, passes_refusals_1_and_2};
use oracle::{OracleAnswer, Outcome};
use wrong::Wrong;

#[test]
fn random_calls_part_only_where_it_is_listed() {
    if oracle::skipped("random calls through model and Rust") {
        return;
    }
    let mut tally = Tally::default();
    let mut number = 0;
    while tally.compared < 40_000 {
        if let Err(failure) = compare_history(7, number, &oracle::run, &mut tally) {
            let case = describe(&failure.store, &failure.call);
            panic!("{}: {}\n{case}", failure.origin, failure.reason);
        }
        number += 1;
    }
}

/// A model in the Rust's place, so that a fault can be planted without the
/// published source.
fn in_its_place(wrong: Wrong) -> impl Fn(&mut Store, &Call) -> OracleAnswer {
    move |store, call| {
        let answer = wrong.run(store, call);
        let outcome = match answer.number {
            0 => Outcome::Accepted(answer.count),
            3 => Outcome::Refused(oracle::Error::NotFound),
            5 => Outcome::Refused(oracle::Error::LimitExceeded),
            6 => Outcome::Shrinks,
            7 => Outcome::Refused(oracle::Error::InvalidInput("lent time out of range")),
            9 => corruption("backed data unit has no checksum"),
            10 => corrupt("checksummed data unit is not fully backed"),
            11 => corruption("nonzero data past EOF"),
            12 => corruption("file data checksum mismatch"),
            13 => Outcome::Refused(oracle::Error::NoSpace),
            14 => corrupt("inode allocation count disagrees with extents"),
            15 => Outcome::GroupBookFull,
            16 => Outcome::ExtentBookFull,
            _ => corrupt("a number that the Rust does not have"),
        };
        OracleAnswer {
            outcome,
            output: answer.output,
        }
    }
}

fn corrupt(reason: &'static str) -> Outcome {
    Outcome::Refused(oracle::Error::Corrupt(reason))
}

fn corruption(reason: &'static str) -> Outcome {
    Outcome::Refused(oracle::Error::Corruption { block: 0, reason })
}

/// The first failure among random calls.
fn first_failure(faulty: &dyn Fn(&mut Store, &Call) -> OracleAnswer) -> Box<Failure> {
    (0..5_000)
        .find_map(|number| compare_history(3, number, faulty, &mut Tally::default()).err())
        .expect("a planted fault that is not found")
}

fn parts(judged: &Judged) -> bool {
    matches!(judged.verdict, Verdict::Part(_))
}

#[test]
fn the_model_agrees_with_itself() {
    let mut tally = Tally::default();
    for number in 0..300 {
        let result = compare_history(3, number, &in_its_place(Wrong::NONE), &mut tally);
        assert!(result.is_ok(), "{:?}", result.err().map(|f| f.reason));
    }
}

/// Many reads in one call at the edges of their rules, against the single reads
/// of the model, of the Rust where it is there, and of a model whose reads are
/// wrong.
#[test]
fn many_reads_are_single_reads() {
    let parting = |other: &dyn Fn(&mut Store, &Call) -> OracleAnswer| {
        let mut edges = edges();
        edges.retain(|edge| matches!(edge.call, Call::ReadMany { .. }));
        assert!(edges.len() > 400, "{} calls", edges.len());
        edges.retain(|edge| parts(&judge(&edge.store, &edge.call, other)));
        edges.len()
    };
    assert_eq!(parting(&in_its_place(Wrong::NONE)), 0);
    let wrong = Wrong::named("a read clears the rest of its buffer").expect("listed");
    assert!(parting(&in_its_place(wrong)) > 0);
    if !oracle::skipped("many reads in one call by single reads of the Rust") {
        assert_eq!(parting(&oracle::run), 0);
    }
}

/// Batches at the edges of their rules, against the single writes of the model,
/// of the Rust where it is there, and of models whose writes are wrong.
#[test]
fn batches_are_single_writes() {
    let parting = |other: &dyn Fn(&mut Store, &Call) -> OracleAnswer| {
        let mut edges = edges();
        edges.retain(|edge| matches!(edge.call, Call::WriteBatch { .. }));
        assert!(edges.len() > 400, "{} calls", edges.len());
        edges.retain(|edge| parts(&judge(&edge.store, &edge.call, other)));
        edges.len()
    };
    assert_eq!(parting(&in_its_place(Wrong::NONE)), 0);
    for name in [
        "a superseded block freed at once",
        "13 counts retired blocks as free",
        "a write up to 2^63 - 1 refused",
    ] {
        let wrong = Wrong::named(name).expect("listed");
        assert!(parting(&in_its_place(wrong)) > 0, "{name}");
    }
    if !oracle::skipped("batches by single writes of the Rust") {
        assert_eq!(parting(&oracle::run), 0);
    }
}

/// Lists of stretches at the edges of their rules, against the reads of single
/// units of the model, of the Rust where it is there, and of models whose reads are
/// wrong.
#[test]
fn stretches_are_units_that_a_read_finds_a_slot_of() {
    let parting = |other: &dyn Fn(&mut Store, &Call) -> OracleAnswer| {
        let mut edges = edges();
        edges.retain(|edge| matches!(edge.call, Call::DataStretches { .. }));
        assert!(edges.len() > 400, "{} calls", edges.len());
        edges.retain(|edge| parts(&judge(&edge.store, &edge.call, other)));
        edges.len()
    };
    assert_eq!(parting(&in_its_place(Wrong::NONE)), 0);
    for name in [
        "a block that is not there read as zeros",
        "a group's number read as 32 bits",
    ] {
        let wrong = Wrong::named(name).expect("listed");
        assert!(parting(&in_its_place(wrong)) > 0, "{name}");
    }
    if !oracle::skipped("lists of stretches by reads of the Rust") {
        assert_eq!(parting(&oracle::run), 0);
    }
}

/// Archive writes and the writes beside them at the edges of their rules, against
/// the model, the Rust where it is there, and models whose limits are wrong.
#[test]
fn archive_writes_are_the_rusts_with_another_limit() {
    let parting = |other: &dyn Fn(&mut Store, &Call) -> OracleAnswer| {
        let mut edges = archives();
        edges.retain(|edge| passes_refusals_1_and_2(&edge.store));
        let archive = |edge: &&Edge| matches!(edge.call, Call::WriteArchive { .. });
        assert!(edges.iter().filter(archive).count() > 1_000);
        edges.retain(|edge| parts(&judge(&edge.store, &edge.call, other)));
        edges.len()
    };
    assert_eq!(parting(&in_its_place(Wrong::NONE)), 0);
    for name in [
        "an archive write keeps at three runs",
        "an archive write keeps at four runs",
        "a write keeps at two runs alone",
        "the limit of an archive write tried on the unit's old runs",
    ] {
        let wrong = Wrong::named(name).expect("listed");
        assert!(parting(&in_its_place(wrong)) > 0, "{name}");
    }
    if !oracle::skipped("archive writes of the Rust with the limit of two") {
        assert_eq!(parting(&oracle::run), 0);
    }
}

/// Document 01's hollow builds and slips. A fill is not compared with the
/// Rust.
#[test]
fn planted_faults_are_found_and_made_small() {
    let named = |wrong: &Wrong| {
        let name = wrong.name();
        name.starts_with("hollow: ") || name.starts_with("slip: ")
    };
    let faults: Vec<Wrong> = Wrong::all()
        .filter(named)
        .filter(|wrong| wrong.name() != "hollow: a fill not drawn from the store")
        .collect();
    assert_eq!(faults.len(), 10);
    for wrong in faults {
        let faulty = in_its_place(wrong);
        let failure = first_failure(&faulty);
        let shows = |store: &Store, call: &Call| parts(&judge(store, call, &faulty));
        assert!(shows(&failure.store, &failure.call), "{}", failure.reason);
        let budget = Duration::from_secs(1);
        let (store, call) = minimise(&failure.store, &failure.call, &shows, budget);
        assert!(shows(&store, &call));
        assert!(store.image.len() <= failure.store.image.len());
    }
}
