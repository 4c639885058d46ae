//! The archive held against the model: on every call and store of the gate,
//! on little stack, and with empty buffers.

mod archive;

use std::thread;

use archive::Archive;
use compare::alone::{TIME, calls, fresh, sounds};
use compare::batch::shared_block;
use compare::gate::judge;
use compare::library::Library;
use compare::lists::read_many;
use compare::mixed::exchanged;
use compare::ranges::data_stretches;
use compare::stretches::slotted;
use compare::writes::write_batch;
use model::{Answer, Call};

/// Without guard pages, then with them on either side of every buffer.
/// `-- --nocapture` prints the calls by number.
#[test]
fn the_library_answers_as_the_model() {
    let report = judge(&Archive).unwrap_or_else(|parted| panic!("{}", parted.report()));
    print!("{report}");
    for (name, numbers) in NUMBERS {
        let of_call = |line: &&str| line.split_whitespace().next() == Some(name);
        let asked = report.lines().find(of_call);
        let asked = asked.expect("a line for each call").split_whitespace();
        let met: Vec<u32> = asked
            .filter_map(|word| word.strip_suffix(':')?.parse().ok())
            .collect();
        assert_eq!(met, numbers, "{name}");
    }
}

/// Every number that a call gives, all of which the gate meets. A grow does not
/// give 15: the tail unit that it rewrites has its group. An archive write gives
/// those of a write, and a batch those and 18.
const NUMBERS: [(&str, &[u32]); 11] = [
    ("fresh", &[0, 1]),
    ("enter", &[0, 1, 2, 4, 7, 8]),
    ("write", &[0, 1, 2, 3, 5, 7, 9, 10, 11, 12, 13, 14, 15, 16]),
    (
        "write_archive",
        &[0, 1, 2, 3, 5, 7, 9, 10, 11, 12, 13, 14, 15, 16],
    ),
    ("grow", &[0, 1, 2, 3, 5, 6, 7, 9, 10, 11, 12, 13, 14, 16]),
    ("read", &[0, 1, 2, 3, 9, 10, 11, 12]),
    ("read_many", &[0, 1, 2, 3, 9, 10, 11, 12, 17]),
    (
        "write_batch",
        &[0, 1, 2, 3, 5, 7, 9, 10, 11, 12, 13, 14, 15, 16, 18],
    ),
    ("data_stretches", &[0, 1, 2, 3, 19]),
    ("settle", &[0, 1, 2]),
    ("fill", &[0, 1, 2]),
];

/// One call on the archive and on the model: the answer and every byte.
fn same(what: &str, before: &model::Store, call: &Call, run: impl Fn(&mut model::Store) -> Answer) {
    let (mut document, mut lent) = (before.clone(), before.clone());
    let expected = model::run(&mut document, call);
    assert_eq!(run(&mut lent), expected, "{what}: {}", call.name());
    assert!(document == lent, "{what}: {}: the stores part", call.name());
}

/// The call in a thread of 256 KiB, all its stack.
fn on_little_stack(before: &model::Store, call: &Call) {
    same("a small stack", before, call, |lent| {
        let in_thread = thread::Builder::new().stack_size(256 << 10);
        thread::scope(|scope| {
            let run = || Archive.run(lent, call);
            let thread = in_thread.spawn_scoped(scope, run).expect("a thread");
            thread.join().expect("an answer")
        })
    });
}

#[test]
fn each_call_runs_on_256_kib_of_stack() {
    for store in sounds() {
        for call in calls() {
            on_little_stack(&store, &call);
        }
    }
    // Where the store is tested before each write of a batch.
    let over = write_batch(&[(7, 0, 4_096), (8, 0, 1)]);
    on_little_stack(&shared_block(), &over);
    // As many units as one call can have: 17 that are touched, and the tail.
    let write = |offset, length| Call::Write {
        object: 7,
        offset,
        bytes: vec![3; length],
        time: TIME,
    };
    let mut store = model::Store::blank(1_200, 1, 600, 2);
    for call in [
        fresh(16, 1),
        Call::Enter {
            object: 7,
            time: TIME,
        },
        write(1_000, 1 << 20),
        write(500, 1 << 20),
        write((1 << 20) + 300_000, 1 << 20),
        Call::Settle,
        exchanged(&write(5_000, 1 << 20)).expect("a write"),
        Call::Settle,
        exchanged(&write((5 << 19) + 7, 1 << 20)).expect("a write"),
        Call::Settle,
        Call::Grow {
            object: 7,
            size: 1 << 40,
            time: TIME,
        },
        Call::Read {
            object: 7,
            offset: 77,
            length: 1 << 20,
        },
        most_reads(),
        data_stretches(7, 0, u64::MAX, 48),
        Call::Settle,
        write_batch(&[(7, 77, 1 << 20), (7, 5 << 20, 70_000)]),
        Call::Settle,
        write_batch(&[(7, 77, 100); 64]),
    ] {
        on_little_stack(&store, &call);
        assert_eq!(model::run(&mut store, &call).number, 0, "{}", call.name());
    }
}

/// As many units as one list can touch: 64 times 17 different ones, of file 7,
/// whose first are in blocks.
fn most_reads() -> Call {
    let reads: Vec<(u64, u64, u64)> = (0..64)
        .map(|n| (7, 65_535 + n * (17 << 16), 1 << 20))
        .collect();
    read_many(&reads, 64 << 20)
}

#[test]
fn the_most_units_of_a_list_are_counted() {
    let mut store = model::Store::blank(2, 1, 1, 1);
    let grown = Call::Grow {
        object: 7,
        size: 1 << 40,
        time: TIME,
    };
    let entered = Call::Enter {
        object: 7,
        time: TIME,
    };
    for call in [fresh(16, 1), entered, grown] {
        assert_eq!(Archive.run(&mut store, &call).number, 0, "{}", call.name());
    }
    let told = Archive.run(&mut store, &most_reads());
    assert_eq!((told.number, told.count), (0, 64 * 17));
    assert!(told.output.iter().all(|&byte| byte == 0));
}

/// The longest range ends at once: it is the groups that are gone through, of a file
/// as long as one can be, and here there are as many stretches as slots allow.
#[test]
fn the_most_stretches_of_the_longest_range_are_listed() {
    let every_other: Vec<u64> = (0..256).step_by(2).collect();
    let groups: Vec<(u64, u64, &[u64])> = (0..1_000)
        .map(|number| (7, number << 29, every_other.as_slice()))
        .collect();
    let store = slotted(&[(7, model::MAX_SIZE)], &groups);
    for (length, answer) in [(128_000 * 16, (0, 128_000)), (128_000 * 16 - 1, (19, 0))] {
        let call = data_stretches(7, 0, u64::MAX, length);
        let told = Archive.run(&mut model::Store::clone(&store), &call);
        assert_eq!((told.number, told.count), answer);
        same("a thousand groups", &store, &call, |lent| {
            Archive.run(lent, &call)
        });
    }
}

#[test]
fn empty_buffers_are_taken() {
    let run = |call: &Call| {
        let call = call.clone();
        move |lent: &mut model::Store| Archive.run(lent, &call)
    };
    for store in sounds() {
        for call in calls() {
            for at in 0..7 {
                let mut emptied = store.clone();
                emptied.buffers_mut()[at].clear();
                same(&format!("buffer {at} empty"), &emptied, &call, run(&call));
            }
            same("all empty", &model::Store::default(), &call, run(&call));
        }
        let call = Call::Fresh {
            uuid: Vec::new(),
            reserved: 0,
        };
        same("an empty uuid", &store, &call, run(&call));
    }
    // Books without places make a store.
    let mut bare = model::Store::blank(1, 0, 0, 0);
    let uuid = vec![7; 16];
    let call = Call::Fresh { uuid, reserved: 1 };
    same("no places", &bare, &call, run(&call));
    assert_eq!(Archive.run(&mut bare, &call).number, 0);
    for call in calls() {
        same("no places", &bare, &call, run(&call));
    }
}
