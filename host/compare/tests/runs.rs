//! Document 02's W-208: where new blocks lie. The blocks that each case expects
//! are worked out by hand; the model and the Rust have to give them both.

use compare::library::Whole;
use compare::run::{Tally, compare_history, same_images};
use compare::runs::{Cases, file, small, wide};
use compare::three::Three;
use compare::writes::single_writes;
use model::{Call, Store, Volume};
use oracle::Outcome;

/// Every case by `run`, on one store whose image goes on: the blocks of file 7, the
/// head's hint, and that every byte of the store is the model's.
fn each(Cases { store, cases, .. }: Cases, run: impl Fn(&mut Store, &Call)) -> usize {
    let (mut document, mut other) = (store.clone(), store);
    for case in &cases {
        case.volume.encode(&mut document);
        other.copy_records_from(&document);
        let before = document.used.clone();
        let answer = model::run(&mut document, &case.call);
        run(&mut other, &case.call);
        let what = format!("{}: {}", case.name, case.call.name());
        let free: Vec<usize> = (0..case.volume.used.len())
            .filter(|block| !case.volume.used[*block])
            .collect();
        assert_eq!(answer.number, 0, "{what}, {free:?} free");
        let after = Volume::decode(&other);
        assert_eq!(file(&after), case.blocks, "{what}, {free:?} free");
        assert_eq!(after.hint, case.hint, "{what}, {free:?} free");
        assert!(document.records_equal(&other), "{what}: the records part");
        assert!(
            same_images(&document, &other, &before),
            "{what}: the images part"
        );
    }
    assert!(document.image == other.image);
    cases.len()
}

fn by_model(store: &mut Store, call: &Call) {
    model::run(store, call);
}

/// A batch by the single writes that it stands for.
fn by_rust(store: &mut Store, call: &Call) {
    let calls = match call {
        Call::WriteBatch { .. } => single_writes(call),
        call => vec![call.clone()],
    };
    for call in calls {
        let told = oracle::run(store, &call);
        assert!(matches!(told.outcome, Outcome::Accepted(_)));
    }
}

#[test]
fn the_model_lays_blocks_where_they_are_expected() {
    println!("{} cases in one group", each(small(), by_model));
    println!("{} cases in three groups", each(wide(), by_model));
}

#[test]
fn the_rust_lays_blocks_where_they_are_expected() {
    if oracle::skipped("the blocks of the Rust that seeks one run first") {
        return;
    }
    each(small(), by_rust);
    each(wide(), by_rust);
}

/// Short runs in three groups, by the model twice and by the Rust.
#[test]
fn random_calls_on_three_groups() {
    if oracle::skipped("random calls on three allocation groups") {
        return;
    }
    let mut three = Three::default();
    let result = three.wide(&Whole(model::run), 208, 1_500);
    assert!(result.is_ok(), "{}", result.err().expect("parted").reason);
    let given = &three.tally.given;
    print!("{}", given.report());
    // Neither rule is rare, and mostly they part.
    assert_eq!(given.in_groups, given.one_run + given.present);
    assert!(given.present > 300, "{}", given.report());
    assert!(
        given.more_than_one > 300 && given.other > 300,
        "{}",
        given.report()
    );
}

/// The random histories meet both rules, and stores on which they part.
#[test]
fn random_histories_meet_both_rules() {
    if oracle::skipped("random histories by both rules") {
        return;
    }
    let mut tally = Tally::default();
    for number in 0..1_200 {
        let result = compare_history(208, number, &oracle::run, &mut tally);
        assert!(result.is_ok(), "{}", result.err().expect("parted").reason);
    }
    let given = &tally.given;
    print!("{}", given.report());
    assert!(given.other * 20 > given.one_run, "{}", given.report());
    assert!(given.present * 20 > given.one_run, "{}", given.report());
}
