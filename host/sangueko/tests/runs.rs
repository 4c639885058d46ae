//! The archive on the cases of document 02's W-208: the blocks in which a file
//! then lies, worked out by hand, and every byte of the store beside the model's.

mod archive;

use archive::Archive;
use compare::library::Library;
use compare::run::same_images;
use compare::runs::{Cases, file, small, wide};
use compare::three::Three;
use model::Volume;

fn each(Cases { store, cases, .. }: Cases) {
    let (mut document, mut lent) = (store.clone(), store);
    for case in &cases {
        case.volume.encode(&mut document);
        lent.copy_records_from(&document);
        let before = document.used.clone();
        let answer = model::run(&mut document, &case.call);
        let told = Archive.run(&mut lent, &case.call);
        let what = format!("{}: {}", case.name, case.call.name());
        assert_eq!((told.number, told.count), (0, answer.count), "{what}");
        let after = Volume::decode(&lent);
        assert_eq!(file(&after), case.blocks, "{what}");
        assert_eq!(after.hint, case.hint, "{what}");
        assert!(document.records_equal(&lent), "{what}: the records part");
        assert!(same_images(&document, &lent, &before), "{what}: the images");
    }
    assert!(document.image == lent.image);
}

#[test]
fn blocks_lie_where_they_are_expected() {
    each(small());
}

#[test]
fn blocks_lie_where_they_are_expected_in_three_groups() {
    each(wide());
}

/// Short runs in three groups: archive, model and Rust.
#[test]
fn random_calls_on_three_groups() {
    if oracle::skipped("library, model and Rust on three allocation groups") {
        return;
    }
    let mut three = Three::default();
    if let Err(failure) = three.wide(&Archive, 209, 1_000) {
        panic!("{}: {}", failure.origin, failure.reason);
    }
    print!("{}", three.tally.given.report());
}
