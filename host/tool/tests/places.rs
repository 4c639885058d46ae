//! W-208, where new blocks lie: those of a unit side by side where so many are
//! free, although single free blocks are lower; and else one by one.

mod common;

use common::*;
use sangueko::{BLOCK_BYTES, Places, Store, StoreBuf};

/// Blocks of a whole unit.
const UNIT: usize = 16;

const MANY: Places = Places {
    cards: 12,
    extents: 64,
    groups: 12,
};

/// The store in a folder of this name.
fn put(temporary: &Temporary, name: &str, store: &StoreBuf) -> String {
    let path = temporary.path(name);
    put_store(store, &path);
    path.to_str().unwrap().into()
}

/// So many blocks at the start of a file, entered if it is new.
fn fill(store: &mut Store<'_>, object: u64, blocks: usize) {
    let _ = store.enter(object, 5, 0);
    let bytes = bytes(blocks * BLOCK_BYTES, object);
    assert_eq!(
        store.write(object, 0, &bytes, 5, 0),
        Ok(bytes.len() as u64),
        "file {object}"
    );
}

/// The same by the command.
fn write(folder: &str, object: u64, blocks: usize) {
    let object_words = object.to_string();
    let _ = run(&["enter", folder, &object_words]);
    let bytes = bytes(blocks * BLOCK_BYTES, object);
    let words = ["write", folder, &object_words, "--time", "6"];
    let output = fed(&words, &bytes);
    assert_eq!((code(&output), err(&output)), (0, String::new()));
    let read = run(&["read", folder, &object_words]).stdout;
    assert!(read == bytes, "file {object}");
}

/// The lines of `show` that tell where a file lies: logical block, block, count.
fn pieces(folder: &str, object: u64) -> Vec<String> {
    let shown = done(&["show", folder, "--all"]);
    let extents = shown.split("extents     ").nth(1).unwrap();
    let extents = extents.split("groups      ").next().unwrap();
    let own = format!("  {object} ");
    extents
        .lines()
        .filter_map(|line| line.strip_prefix(&own))
        .map(str::to_owned)
        .collect()
}

fn map(folder: &str) -> String {
    let json = done(&["show", folder, "--json"]);
    let map = json.split("\"map\":\"").nth(1).unwrap();
    map.split('"').next().unwrap().into()
}

/// The picture of docs/TOOL.md: eight files of a block each, of which every second
/// was written again.
#[test]
fn a_file_is_in_one_piece_behind_single_free_blocks() {
    let temporary = Temporary::new();
    let mut store = fresh(16, 0, MANY);
    let mut lent = store.lend();
    for object in 1..=8 {
        fill(&mut lent, object, 1);
    }
    for object in [2, 4, 6, 8] {
        fill(&mut lent, object, 1);
    }
    assert_eq!(lent.settle(), Ok(4));
    let folder = put(&temporary, "holes", &store);
    assert_eq!(map(&folder), "A.C.E.G.BDFH....");
    let shown = done(&["show", &folder]);
    assert!(
        shown.contains("8 free blocks in 5 gaps, the longest of 4\n"),
        "{shown}"
    );

    write(&folder, 9, 4);
    assert_eq!(map(&folder), "A.C.E.G.BDFHIIII");
    assert_eq!(pieces(&folder, 9), ["0 12 4"]);
    let shown = done(&["show", &folder]);
    assert!(shown.contains("\n   0  A.C.E.G.BDFHIIII\n"), "{shown}");
    assert!(shown.contains("4 blocks in 1 piece,"), "{shown}");

    // no four are side by side: one by one, as many as are free
    write(&folder, 10, 4);
    assert_eq!(map(&folder), "AJCJEJGJBDFHIIII");
    assert_eq!(pieces(&folder, 10), ["0 1 1", "1 3 1", "2 5 1", "3 7 1"]);
    let full = store_in(folder.as_ref());
    assert_eq!(code(&fed(&["write", &folder, "10"], b"x")), 13);
    assert_eq!(store_in(folder.as_ref()), full);
    assert!(done(&["check", &folder]).ends_with("accepted\n"));
}

/// Each unit of a write is a run by itself; what is left over goes to the lowest
/// free block.
#[test]
fn each_unit_of_a_write_is_one_run() {
    let temporary = Temporary::new();
    let mut store = fresh(80, 0, MANY);
    let mut lent = store.lend();
    for (object, blocks) in [(1, 1), (2, 1), (3, 1), (4, UNIT), (5, 1), (6, UNIT), (7, 1)] {
        fill(&mut lent, object, blocks);
    }
    // given up: block 1, blocks 3 to 18 and 20 to 35; and all behind is taken
    for (object, blocks) in [(2, 1), (4, UNIT), (6, UNIT), (8, 10)] {
        fill(&mut lent, object, blocks);
    }
    assert_eq!(lent.settle(), Ok(33));
    let folder = put(&temporary, "store", &store);
    write(&folder, 9, 2 * UNIT);
    assert_eq!(pieces(&folder, 9), ["0 3 16", "16 20 16"]);
    write(&folder, 10, 1);
    assert_eq!(pieces(&folder, 10), ["0 1 1"]);
    assert_eq!(code(&fed(&["write", &folder, "10"], b"x")), 13);
}

/// A store with file 1 in one piece: free are blocks 1, 3 and 39, and after a
/// settle 7 to 22 too.
fn retired_run() -> StoreBuf {
    let mut store = fresh(40, 0, MANY);
    let mut lent = store.lend();
    for object in [2, 3, 4, 5, 6, 3, 5] {
        fill(&mut lent, object, 1);
    }
    assert_eq!(lent.settle(), Ok(2));
    fill(&mut lent, 1, UNIT);
    fill(&mut lent, 1, UNIT);
    store
}

/// Retired blocks are not free: settled first, the file is in one piece.
#[test]
fn a_settle_makes_longer_runs() {
    let temporary = Temporary::new();
    let store = retired_run();
    let [before, after] = ["before", "after"].map(|name| put(&temporary, name, &store));
    let shown = "B.D.FCE~~~~~~~~~~~~~~~~AAAAAAAAAAAAAAAA.";
    assert_eq!(map(&before), shown);
    write(&before, 9, 3);
    assert_eq!(pieces(&before, 9), ["0 1 1", "1 3 1", "2 39 1"]);
    assert_eq!(done(&["settle", &after]), "let 16 retired blocks go\n");
    write(&after, 9, 3);
    assert_eq!(pieces(&after, 9), ["0 7 3"]);
}

/// Two blocks in the middle of a unit: those that it keeps stay, and the new ones
/// are side by side, three pieces in all.
#[test]
fn new_blocks_beside_kept_ones_are_one_run() {
    let temporary = Temporary::new();
    let mut store = retired_run();
    assert_eq!(store.lend().settle(), Ok(16));
    let folder = put(&temporary, "store", &store);
    let at = (7 * BLOCK_BYTES).to_string();
    let words = ["write", &folder, "1", "--at", &at];
    assert_eq!(code(&fed(&words, &bytes(2 * BLOCK_BYTES, 3))), 0);
    assert_eq!(pieces(&folder, 1), ["0 23 7", "7 7 2", "9 32 7"]);
    // and with --archive all 16 are, in the gap that is long enough
    let folder = put(&temporary, "store", &store);
    let words = ["write", &folder, "1", "--at", &at, "--archive"];
    assert_eq!(code(&fed(&words, &bytes(2 * BLOCK_BYTES, 3))), 0);
    assert_eq!(pieces(&folder, 1), ["0 7 16"]);
    assert!(done(&["check", &folder]).ends_with("accepted\n"));
}

/// Within a write single blocks are sought from behind the highest that it has
/// taken; each write of a batch begins anew.
#[test]
fn a_batch_carries_no_place_over() {
    let temporary = Temporary::new();
    let mut store = fresh(40, 0, MANY);
    let mut lent = store.lend();
    lent.enter(7, 5, 0).unwrap();
    lent.enter(9, 5, 0).unwrap();
    // used blocks of no file, which the library lets pass
    let free = |block: usize| [3, 30, 32].contains(&block) || (10..26).contains(&block);
    for block in (0..40).filter(|block| !free(*block)) {
        store.used[block / 8] |= 1 << (block % 8);
    }
    let folder = put(&temporary, "one", &store);
    write(&folder, 7, UNIT + 2);
    assert_eq!(pieces(&folder, 7), ["0 10 16", "16 30 1", "17 32 1"]);

    let folder = put(&temporary, "batch", &store);
    let part = |name: &str, blocks: usize| {
        let path = temporary.file(name, &bytes(blocks * BLOCK_BYTES, 1));
        path.to_str().unwrap().to_owned()
    };
    let list = format!("7 0 @{}\n9 0 @{}\n", part("unit", UNIT), part("two", 2));
    let output = fed(&["batch", &folder], list.as_bytes());
    assert_eq!(code(&output), 0, "{}", err(&output));
    assert_eq!(pieces(&folder, 7), ["0 10 16"]);
    assert_eq!(pieces(&folder, 9), ["0 3 1", "1 30 1"]);
}

/// What the program itself says about it.
#[test]
fn help_and_refusals_tell_where_blocks_lie() {
    let help = done(&["write", "--help"]);
    assert!(help.contains("lie side by side where so many free ones do"));
    assert!(done(&["settle", "--help"]).contains("more blocks lie side by side"));
    let explained = done(&["explain", "13"]);
    assert!(
        explained.contains("Where the free blocks lie does not matter"),
        "{explained}"
    );
    let explained = done(&["explain", "16"]);
    assert!(
        explained.contains("lie side by side wherever a gap is long enough"),
        "{explained}"
    );
}
