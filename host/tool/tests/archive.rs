//! W-207, `write --archive`: the bytes that `write` stores, in fewer pieces and
//! more new blocks.

mod common;

use std::fs::File;

use common::*;
use random::Rng;
use sangueko::{Places, StoreBuf};

const UNIT: usize = 65_536;
/// Within block 7 of a unit's 16.
const MIDDLE: u64 = 30_000;

/// A store of so many blocks, with one reserved. File 7 is a unit, in one piece.
fn whole_unit(blocks: usize) -> StoreBuf {
    let places = Places {
        cards: 2,
        extents: 200,
        groups: 4,
    };
    let mut buffers = fresh(blocks, 1, places);
    let mut store = buffers.lend();
    store.enter(7, 1_700_000_000, 0).unwrap();
    store
        .write(7, 0, &bytes(UNIT, 1), 1_700_000_001, 0)
        .unwrap();
    buffers
}

/// The store in a folder of this name.
fn put(temporary: &Temporary, name: &str, store: &StoreBuf) -> String {
    let path = temporary.path(name);
    put_store(store, &path);
    path.to_str().unwrap().into()
}

/// Bytes into file 7, and what the command says.
fn write(folder: &str, at: u64, bytes: &[u8], archive: bool) -> String {
    let at = at.to_string();
    let mut words = vec!["write", folder, "7", "--at", &at, "--time", "5"];
    words.extend(archive.then_some("--archive"));
    let output = fed(&words, bytes);
    let said = (code(&output), err(&output));
    assert_eq!(said, (0, String::new()), "{words:?}");
    out(&output)
}

/// One block in the middle: kept, new and kept are three runs. Without the switch
/// one block is new, with it all 16, and the file is in one piece again.
#[test]
fn the_middle_of_a_unit_moves_one_block_or_all() {
    let temporary = Temporary::new();
    let mut expected = whole_unit(64);
    let plain = put(&temporary, "plain", &expected);
    let archive = put(&temporary, "archive", &expected);
    let said = write(&plain, MIDDLE, b"over", false);
    assert_eq!(said, "wrote 4 bytes to file 7 at byte 30,000 in 1 call\n");
    let said = write(&archive, MIDDLE, b"over", true);
    assert_eq!(
        said,
        "wrote 4 bytes to file 7 at byte 30,000 in 1 archive call\n"
    );

    let shown = done(&["show", &plain]);
    assert!(
        shown.contains("\n  7 0 1 7\n  7 7 17 1\n  7 8 9 8\n"),
        "{shown}"
    );
    assert!(shown.contains("16 blocks in 3 pieces"), "{shown}");
    assert!(
        shown.contains("1 reserved, 16 of files, 1 retired"),
        "{shown}"
    );
    let shown = done(&["show", &archive]);
    assert!(shown.contains("count\n  7 0 17 16\ngroups"), "{shown}");
    assert!(shown.contains("16 blocks in 1 piece,"), "{shown}");
    assert!(
        shown.contains("1 reserved, 16 of files, 16 retired"),
        "{shown}"
    );

    let mut file = bytes(UNIT, 1);
    file[30_000..30_004].copy_from_slice(b"over");
    for folder in [&plain, &archive] {
        assert_eq!(run(&["read", folder, "7"]).stdout, file);
        assert!(done(&["check", folder]).ends_with("accepted\n"));
    }
    // size, count of blocks and times too
    let [plain, archive] = [plain, archive].map(|folder| store_in(folder.as_ref()));
    assert_eq!(plain.cards, archive.cards);
    // a batch keeps what a write keeps
    let batch = put(&temporary, "batch", &expected);
    let batched = fed(&["batch", &batch, "--time", "5"], b"7 30000 6f766572\n");
    assert_eq!(code(&batched), 0);
    assert_eq!(store_in(batch.as_ref()), plain);
    // the very bytes of the library's call
    expected
        .lend()
        .write_archive(7, MIDDLE, b"over", 5, 0)
        .unwrap();
    assert_eq!(archive, expected);
}

/// The first or the last block: two runs, which both keep. Two new blocks side by
/// side are one run.
#[test]
fn the_edges_of_a_unit_move_what_changes() {
    let temporary = Temporary::new();
    let start = whole_unit(64);
    let edges = [(0, 1, 1), (65_535, 1, 1), (0, 4_097, 2), (57_344, 8_192, 2)];
    for (at, length, blocks) in edges {
        let plain = put(&temporary, "plain", &start);
        let archive = put(&temporary, "archive", &start);
        let bytes = bytes(length, 2);
        write(&plain, at, &bytes, false);
        write(&archive, at, &bytes, true);
        let [plain, archive] = [plain, archive].map(|folder| store_in(folder.as_ref()));
        assert_eq!(plain, archive, "at {at}");
        let retired: u32 = archive.retired.iter().map(|byte| byte.count_ones()).sum();
        assert_eq!(retired, blocks, "at {at}");
    }
}

/// Eight blocks are free: enough for the one of `write`, too few for 16.
#[test]
fn it_is_refused_by_13_where_a_write_is_accepted() {
    let temporary = Temporary::new();
    let start = whole_unit(1 + 16 + 8);
    let folder = put(&temporary, "store", &start);
    let words = ["write", &folder, "7", "--archive", "--at", "30000"];
    let output = fed(&words, b"over");
    assert_eq!((code(&output), out(&output).as_str()), (13, ""));
    let says = err(&output);
    assert!(
        says.starts_with(
            "sangueko: archive write to file 7 at byte 30,000 (nothing was stored): refused by 13: "
        ),
        "{says}"
    );
    assert_eq!(store_in(folder.as_ref()), start);

    let said = write(&folder, MIDDLE, b"over", false);
    assert_eq!(said, "wrote 4 bytes to file 7 at byte 30,000 in 1 call\n");
    let explained = done(&["explain", "13"]);
    assert!(
        explained
            .contains("Where it comes: write, with --archive sooner than without, batch, grow.")
            && explained.contains("without --archive the same write may be accepted"),
        "{explained}"
    );
}

/// The other refusals are those of a write, and an empty input is a call too.
#[test]
fn its_refusals_are_those_of_a_write() {
    let temporary = Temporary::new();
    let start = whole_unit(64);
    let folder = put(&temporary, "store", &start);
    let cases: [(&[&str], &[u8], i32); 5] = [
        (&["8"], b"", 3),
        (&["8", "--at", "9223372036854775807"], b"x", 3),
        (&["7", "--at", "9223372036854775807"], b"x", 5),
        (&["7", "--time", "9223372036854775808"], b"x", 7),
        (&["7", "--time", "9223372036854775808"], b"", 0),
    ];
    for (words, bytes, number) in cases {
        let plain = [&["write", &folder], words].concat();
        let archive = [&plain[..], &["--archive"]].concat();
        let [plain, archive] = [plain, archive].map(|words| fed(&words, bytes));
        assert_eq!(
            (code(&plain), code(&archive)),
            (number, number),
            "{words:?}"
        );
        let says = err(&plain).replace("sangueko: write", "sangueko: archive write");
        assert_eq!(err(&archive), says);
        assert_eq!(store_in(folder.as_ref()), start);
    }
    assert_eq!(
        write(&folder, 0, b"", true),
        "wrote 0 bytes to file 7 at byte 0 in 1 archive call\n"
    );
}

#[test]
fn more_than_a_call_takes_is_several_calls() {
    let temporary = Temporary::new();
    let mut expected = whole_unit(900);
    let folder = put(&temporary, "store", &expected);
    let all = bytes(3_000_000, 2);
    let said = write(&folder, 100, &all, true);
    assert_eq!(
        said,
        "wrote 3,000,000 bytes to file 7 at byte 100 in 3 archive calls\n"
    );
    assert_eq!(run(&["read", &folder, "7", "--at", "100"]).stdout, all);
    let mut lent = expected.lend();
    let calls = [
        (100, &all[..1_048_476]),
        (1_048_576, &all[1_048_476..][..1_048_576]),
        (2_097_152, &all[2_097_052..]),
    ];
    for (at, part) in calls {
        let taken = lent.write_archive(7, at, part, 5, 0);
        assert_eq!(taken, Ok(part.len() as u64));
    }
    assert_eq!(store_in(folder.as_ref()), expected);
}

/// Both in any order on one file, against the library's calls and a plain array.
#[test]
fn one_file_may_be_written_by_both() {
    let temporary = Temporary::new();
    let mut expected = whole_unit(300);
    let folder = put(&temporary, "store", &expected);
    let (mut plain, mut random) = (bytes(UNIT, 1), Rng::new(7));
    let mut by_archive = 0;
    for round in 0..40 {
        let at = random.below(3 * UNIT as u64);
        let bytes = bytes(1 + random.index(9_000), round);
        let archive = random.below(2) == 0;
        by_archive += u32::from(archive);
        write(&folder, at, &bytes, archive);
        let mut lent = expected.lend();
        let taken = if archive {
            lent.write_archive(7, at, &bytes, 5, 0)
        } else {
            lent.write(7, at, &bytes, 5, 0)
        };
        assert_eq!(taken, Ok(bytes.len() as u64));
        let end = at as usize + bytes.len();
        plain.resize(plain.len().max(end), 0);
        plain[at as usize..end].copy_from_slice(&bytes);
        if round % 4 == 3 {
            done(&["settle", &folder]);
            expected.lend().settle().unwrap();
        }
        assert_eq!(store_in(folder.as_ref()), expected, "round {round}");
    }
    assert!((10..=30).contains(&by_archive), "{by_archive}");
    assert_eq!(run(&["read", &folder, "7"]).stdout, plain);
    assert!(done(&["check", &folder]).ends_with("accepted\n"));
}

#[test]
fn it_has_the_lock_of_a_write() {
    let temporary = Temporary::new();
    let start = whole_unit(64);
    let folder = put(&temporary, "store", &start);
    done(&["fill", &folder]);
    let lock = File::open(temporary.path("store").join("lock")).unwrap();
    lock.lock_shared().unwrap();
    let words = ["write", &folder, "7", "--archive", "--no-wait"];
    assert_eq!(code(&fed(&words, b"over")), 75);
    assert_eq!(store_in(folder.as_ref()), start);
    lock.unlock().unwrap();
    assert_eq!(code(&fed(&words, b"over")), 0);
}

/// The switch is `write`'s alone, and has no value.
#[test]
fn no_other_command_has_the_switch() {
    let temporary = Temporary::new();
    let start = whole_unit(64);
    let folder = put(&temporary, "store", &start);
    let others: [&[&str]; 11] = [
        &["new", "made-up"],
        &["enter", &folder, "8"],
        &["batch", &folder],
        &["read", &folder, "7"],
        &["grow", &folder, "7", "70000"],
        &["settle", &folder],
        &["fill", &folder],
        &["show", &folder],
        &["check", &folder],
        &["data", &folder, "7"],
        &["flags", &folder, "7"],
    ];
    for words in others {
        let says = refused(&[words, &["--archive"]].concat(), 64);
        let expected = format!("{}: there is no option --archive", words[0]);
        assert!(says.contains(&expected), "{says}");
    }
    let says = refused(&["write", &folder, "7", "--archive=yes"], 64);
    assert!(says.contains("--archive takes no value"), "{says}");
    assert_eq!(store_in(folder.as_ref()), start);
    assert!(done(&["write", "--help"]).contains("\n  --archive "));
    assert!(done(&["batch", "--help"]).contains("`sangueko write` without --archive"));
}
