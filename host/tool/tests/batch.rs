//! `batch`: what single writes leave, in as few calls as there can be, up to the
//! first that is refused.

mod common;

use std::fs;

use common::*;
use random::Rng;
use sangueko::{Places, StoreBuf};

/// A store of files 7 and 9, in a folder and beside it.
fn made(temporary: &Temporary, blocks: usize) -> (String, StoreBuf) {
    let places = Places {
        cards: 3,
        extents: 200,
        groups: 4,
    };
    let mut expected = fresh(blocks, 1, places);
    for object in [7, 9] {
        expected.lend().enter(object, 1_700_000_000, 0).unwrap();
    }
    let store = temporary.path("store");
    put_store(&expected, &store);
    (store.to_str().unwrap().into(), expected)
}

fn hex(bytes: &[u8]) -> String {
    bytes.iter().map(|byte| format!("{byte:02x}")).collect()
}

/// A write and its line.
fn write(store: &mut StoreBuf, object: u64, offset: u64, bytes: &[u8]) -> String {
    let count = store.lend().write(object, offset, bytes, 5, 0).unwrap();
    assert_eq!(count, bytes.len() as u64);
    line(object, offset, bytes)
}

fn line(object: u64, offset: u64, bytes: &[u8]) -> String {
    format!("{object} {offset} {}\n", hex(bytes))
}

#[test]
fn a_batch_leaves_what_single_writes_leave() {
    let temporary = Temporary::new();
    let (folder, mut expected) = made(&temporary, 100);
    let part = temporary.file("a part", &bytes(70_000, 1));
    let mut list = String::from("# the flags of one run\n\n");
    list += &write(&mut expected, 7, 1_000, &bytes(300, 2));
    list += &format!("9\t 1_000   @{}  \n", part.display());
    expected
        .lend()
        .write(9, 1_000, &bytes(70_000, 1), 5, 0)
        .unwrap();
    list += &write(&mut expected, 7, 1_100, &bytes(300, 3));
    list += &write(&mut expected, 9, 0, b"\x00\xff");
    let listed = temporary.file("list", list.as_bytes());
    let words = ["batch", &folder, listed.to_str().unwrap(), "--time", "5"];
    assert_eq!(done(&words), "made 4 writes of 70,602 bytes in 1 call\n");
    assert_eq!(store_in(&temporary.path("store")), expected);

    // the same from standard input, named and not
    for words in [
        &["batch", &folder, "-", "--time", "5"][..],
        &["batch", &folder, "--time", "5"],
    ] {
        let list = write(&mut expected, 7, 50, &bytes(9, 4));
        let fed = fed(words, list.as_bytes());
        assert_eq!((code(&fed), err(&fed).as_str()), (0, ""));
        assert_eq!(out(&fed), "made 1 write of 9 bytes in 1 call\n");
        assert_eq!(store_in(&temporary.path("store")), expected);
    }
}

#[test]
fn more_than_64_writes_are_several_calls() {
    let temporary = Temporary::new();
    let (folder, mut expected) = made(&temporary, 400);
    let mut random = Rng::new(5);
    let list: String = (0..150)
        .map(|n| {
            let bytes = bytes(1 + random.index(200), n);
            let object = random.pick(&[7, 9]);
            write(&mut expected, object, random.below(20_000), &bytes)
        })
        .collect();
    let listed = temporary.file("list", list.as_bytes());
    let said = done(&["batch", &folder, listed.to_str().unwrap(), "--time", "5"]);
    assert!(said.starts_with("made 150 writes of "), "{said}");
    assert!(said.ends_with(" bytes in 3 calls\n"), "{said}");
    assert_eq!(store_in(&temporary.path("store")), expected);
}

/// Ends with the number, and leaves the store so.
fn stops(folder: &str, list: &str, number: i32, expected: &StoreBuf) -> String {
    let output = fed(&["batch", folder, "--time", "5"], list.as_bytes());
    let message = err(&output);
    assert_eq!(
        (code(&output), out(&output).as_str()),
        (number, ""),
        "{message}"
    );
    assert_eq!(store_in(folder.as_ref()), *expected);
    message
}

#[test]
fn a_refused_write_stops_it_and_those_before_it_stay() {
    let temporary = Temporary::new();
    let (folder, mut expected) = made(&temporary, 100);
    let mut list = write(&mut expected, 7, 0, b"first") + "#\n";
    list += &write(&mut expected, 7, 3, b"second");
    list += &line(8, 5_000, b"third");
    list += &line(7, 0, b"fourth");
    let says = stops(&folder, &list, 3, &expected);
    assert!(
        says.starts_with(
            "sangueko: standard input, line 4: write to file 8 at byte 5,000 \
             (the first 2 of 4 writes are stored): refused by 3: there is no file"
        ),
        "{says}"
    );

    let says = stops(&folder, &line(8, 0, b"first"), 3, &expected);
    assert!(says.contains("(none of 1 write is stored)"), "{says}");

    // in the second call
    let list: String = (0..70)
        .map(|n| write(&mut expected, 7, n * 10, b"x"))
        .collect();
    let list = list + &line(7, 9_223_372_036_854_775_807, b"y") + &line(7, 0, b"z");
    let says = stops(&folder, &list, 5, &expected);
    assert!(
        says.contains("line 71: ") && says.contains("(the first 70 of 72 writes are stored)"),
        "{says}"
    );

    // no block is left
    expected.lend().settle().unwrap();
    done(&["settle", &folder]);
    let free = 99 - 1;
    let list: String = (0..free)
        .map(|n| write(&mut expected, 7, n, b"x"))
        .collect();
    let says = stops(&folder, &(list + &line(7, 5, b"y")), 13, &expected);
    assert!(
        says.contains("(the first 98 of 99 writes are stored)"),
        "{says}"
    );
}

/// Files 7 and 9 begin with the same block, which passes refusal 2: the first
/// write leaves a store that it refuses, and that is stored.
#[test]
fn a_store_that_a_write_breaks_stops_it() {
    let temporary = Temporary::new();
    let (folder, mut expected) = made(&temporary, 20);
    for object in [7, 9] {
        let bytes = bytes(4_096, object);
        expected.lend().write(object, 0, &bytes, 4, 0).unwrap();
    }
    // the block that an extent begins with
    expected.extents[33 + 17] = expected.extents[17];
    put_store(&expected, folder.as_ref());
    let list = write(&mut expected, 7, 0, &bytes(4_096, 1)) + &line(9, 0, b"x");
    let says = stops(&folder, &list, 2, &expected);
    assert!(
        says.contains("line 2: write to file 9 at byte 0 (the first of 2 writes is stored)"),
        "{says}"
    );
    assert!(says.contains("rule    refusal 2: "), "{says}");
    let says = stops(&folder, &list, 2, &expected);
    assert!(
        says.contains("batch of 2 writes (none of 2 writes is stored): refused by 2"),
        "{says}"
    );
}

#[test]
fn a_list_without_writes_is_a_call_too() {
    let temporary = Temporary::new();
    let (folder, expected) = made(&temporary, 20);
    let listed = temporary.file("list", b"# none today\n\n");
    let words = ["batch", &folder, listed.to_str().unwrap()];
    assert_eq!(done(&words), "made 0 writes of 0 bytes in 1 call\n");
    assert_eq!(store_in(folder.as_ref()), expected);
    // of no byte: it counts, whatever the time is, and changes nothing
    let nothing = temporary.file("nothing", b"");
    let list = format!("7 5 @{}\n", nothing.display());
    let late = ["batch", &folder, "--time", "9223372036854775808"];
    let output = fed(&late, list.as_bytes());
    assert_eq!(out(&output), "made 1 write of 0 bytes in 1 call\n");
    assert_eq!(code(&fed(&late, b"7 5 00")), 7);
    assert_eq!(store_in(folder.as_ref()), expected);
    fs::write(format!("{folder}/head"), b"short").unwrap();
    assert!(refused(&words, 1).contains("batch of 0 writes (none of 0 writes is stored)"));
}

#[test]
fn a_wrong_line_ends_with_64_before_anything_is_written() {
    let temporary = Temporary::new();
    let (folder, mut expected) = made(&temporary, 600);
    for wrong in [
        "7",
        "7 0",
        "7 0 0",
        "7 0 0g",
        "7 0 00 11",
        "seven 0 00",
        "7 -1 00",
        "7 0 0x00",
    ] {
        let list = format!("7 0 00\n\n{wrong}\n7 0 00\n");
        let says = stops(&folder, &list, 64, &expected);
        assert!(says.contains("standard input, line 3: `"), "{says}");
    }
    let says = stops(&folder, "7 0 00\n7 0 @no-such-file\n", 74, &expected);
    assert!(says.contains("line 2: reading no-such-file"), "{says}");

    // as much as one write takes, and a byte more
    let most = bytes(1 << 20, 1);
    let whole = temporary.file("whole", &most);
    let more = temporary.file("more", &[&most[..], b"x"].concat());
    let list = format!("7 0 00\n7 0 @{}\n", more.display());
    let says = stops(&folder, &list, 64, &expected);
    assert!(
        says.contains("line 2: one write takes at most 1,048,576 bytes"),
        "{says}"
    );
    expected.lend().write(7, 0, &most, 5, 0).unwrap();
    let list = format!("7 0 @{}\n", whole.display());
    let output = fed(&["batch", &folder, "--time", "5"], list.as_bytes());
    assert_eq!(out(&output), "made 1 write of 1,048,576 bytes in 1 call\n");
    assert_eq!(store_in(folder.as_ref()), expected);

    let missing = ["batch", &folder, "no-such-list"];
    assert!(refused(&missing, 74).contains("no-such-list"));
}
