//! Document 01's demand 3 on the model, and the store of its program `layout`.

use std::panic::catch_unwind;

use compare::library::Whole;
use compare::plain::demand_3;
use model::{Call, Store, Volume};
use wrong::Wrong;

#[test]
fn reads_give_the_plain_arrays_bytes_and_blocks_add_up() {
    let calls = |number| demand_3(&Whole(model::run), 11, number);
    let calls: u64 = (0..200).map(calls).sum();
    assert!(calls > 2_000, "{calls} calls");
}

/// Each of these wrong models parts from the plain arrays.
fn all_found(names: &[&str]) {
    for name in names {
        let wrong = Wrong::named(name).expect("listed");
        let library = move |store: &mut Store, call: &Call| wrong.run(store, call);
        let found = |number| catch_unwind(|| demand_3(&Whole(library), 11, number)).is_err();
        assert!((0..200).any(found), "{name}");
    }
}

/// What is wrong with many reads in one call shows against plain arrays, too.
#[test]
fn many_reads_that_are_wrong_are_found() {
    all_found(&[
        "a piece laid behind the bytes handed out before it",
        "a piece's unread rest cleared",
        "a read that equals an earlier one leaves its piece",
        "a unit counted for each read",
        "a unit of a hole not counted",
    ]);
}

/// And what is wrong with a batch: what the plain arrays are told of it are the
/// writes done.
#[test]
fn batches_that_are_wrong_are_found() {
    all_found(&[
        "a batch counts bytes",
        "a batch counts the write that stopped it",
        "a batch that stops counts nothing",
        "a stop undoes the writes before it",
        "a refused write of a batch left out",
        "the writes behind a stop made",
        "the writes of a batch from the last on",
        "each write of a batch has the first bytes",
        "each write of a batch made on the store as lent",
        "an empty write of a batch not counted",
        "the count of blocks carried from one write of a batch to the next",
    ]);
}

/// And what is wrong with a list of stretches: the units that were written are
/// those with a slot.
#[test]
fn stretches_that_are_wrong_are_found() {
    all_found(&[
        "a stretch broken at a group's end",
        "a stretch for every unit",
        "a gap of one unit taken into a stretch",
        "a stretch reaches before the range",
        "a stretch reaches behind the range",
        "the unit behind the range listed",
        "a file's last unit left out where it is not whole",
        "the slots of every file listed",
        "the slots of the file's first group alone listed",
        "a stretch's end for its number of units",
        "a list of stretches answers their units",
        "the output behind the pairs cleared",
    ]);
}

/// And what is wrong with an archive write, whose step is write's; but not which
/// blocks it keeps.
#[test]
fn archive_writes_that_are_wrong_are_found() {
    all_found(&[
        "an archive write keeps written blocks",
        "an archive write does not read the old bytes",
        "an archive write leaves the time",
        "an archive write sets both times",
        "an archive write leaves the size",
        "an archive write does not retire what it takes the place of",
        "an archive write retires the first block of a unit alone",
        "an archive write leaves the old tail unit",
    ]);
}

/// And what is wrong with the times of a card.
#[test]
fn times_that_are_wrong_are_found() {
    all_found(&[
        "enter sets only the last change",
        "enter sets only the creation time",
        "enter sets the creation time of every file",
        "a card put before others leaves their creation times in their places",
        "a write sets both times",
        "a grow sets both times",
        "a batch sets both times",
        "a write loses the creation time",
        "a grow loses the creation time",
        "a batch loses the creation times",
        "a write exchanges the two times",
        "a write sets the last change of every file",
        "settle loses the creation times",
        "a card's creation seconds read as 62 bits",
        "a card's creation nanoseconds read as 29 bits",
        "the time of a rewritten file kept",
        "a grow to the same size sets the time",
    ]);
}

#[test]
fn the_layout_store_prints_as_document_01_says() {
    let mut store = Store::blank(8, 1, 8, 1);
    let time = model::Time {
        seconds: 0,
        nanoseconds: 0,
    };
    let write = |offset, length| Call::Write {
        object: 7,
        offset,
        bytes: vec![1; length],
        time,
    };
    let grow = Call::Grow {
        object: 7,
        size: 20_000,
        time,
    };
    let calls = [
        (
            Call::Fresh {
                uuid: vec![0; 16],
                reserved: 1,
            },
            0,
        ),
        (Call::Enter { object: 7, time }, 0),
        (write(0, 9_000), 0),
        (write(5_000, 10), 0),
        (grow.clone(), 13),
        (Call::Settle, 0),
        (grow, 0),
    ];
    for (call, number) in calls {
        assert_eq!(model::run(&mut store, &call).number, number);
    }
    let extents: Vec<String> = Volume::decode(&store)
        .extents
        .iter()
        .map(|e| format!("{} {} {} {}", e.object, e.logical, e.physical, e.count))
        .collect();
    assert_eq!(extents, ["7 0 1 1", "7 1 4 1", "7 2 2 2", "7 4 6 1"]);
    assert_eq!(model::run(&mut store, &Call::Fill).count, 857);
}
