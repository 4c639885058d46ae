//! `data`: the stretches of a file that hold data, and what was never written.

mod common;

use std::fs;

use common::*;
use random::Rng;
use sangueko::{GROUP_BYTES, Places, STRETCH_BYTES, StoreBuf, Stretch};

const UNIT: u64 = 65_536;

/// File 7 of 450,000 bytes, of which units 0 to 2 and unit 6 were written, and
/// file 9 beside it.
fn store() -> StoreBuf {
    let mut buffers = fresh(120, 2, PLACES);
    let mut store = buffers.lend();
    store.enter(7, 1, 0).unwrap();
    store.enter(9, 1, 0).unwrap();
    store.write(7, 0, &bytes(150_000, 1), 2, 0).unwrap();
    store.write(9, 4 * UNIT, &bytes(10, 2), 2, 0).unwrap();
    store.write(7, 400_000, &bytes(50_000, 3), 3, 0).unwrap();
    buffers
}

/// A folder with a store, and its name.
fn put(temporary: &Temporary, store: &StoreBuf) -> String {
    let path = temporary.path("store");
    put_store(store, &path);
    path.to_str().unwrap().to_string()
}

#[test]
fn a_known_file_is_listed_and_drawn() {
    let temporary = Temporary::new();
    let whole = store();
    let folder = put(&temporary, &whole);
    assert_eq!(
        done(&["data", &folder, "7"]),
        "\
file 7: 450,000 bytes (439.5 KiB), 7 units of 65,536 bytes
  with data      4 units in 2 stretches, 253,392 bytes (247.5 KiB)
  never written  3 units, 196,608 bytes (192.0 KiB)
stretches   first units bytes
  0 3 196608
  6 1 56784
map         1 unit a cell
  0  AAA...A
  A with data   . never written
"
    );
    // the second file has its own letter
    let told = done(&["data", &folder, "9"]);
    assert!(told.contains("1 unit in 1 stretch, 10 bytes\n"), "{told}");
    assert!(told.contains("\n  4 1 10\n"), "{told}");
    assert!(told.contains("\n  0  ....B\n"), "{told}");
    assert_eq!(
        done(&["data", &folder, "7", "--json"]),
        "{\"object\":7,\"size\":450000,\"units\":7,\"from\":0,\"to\":7,\"with_data\":4,\"never_written\":3,\"without_checksum\":0,\
         \"stretches\":[{\"first\":0,\"units\":3,\"bytes\":196608},{\"first\":6,\"units\":1,\"bytes\":56784}]}\n"
    );
    assert!(store_in(&temporary.path("store")) == whole);
}

#[test]
fn a_range_cuts_the_stretches() {
    let temporary = Temporary::new();
    let folder = put(&temporary, &store());
    let told = done(&["data", &folder, "7", "1", "6"]);
    assert!(
        told.starts_with(
            "file 7: 450,000 bytes (439.5 KiB), 7 units of 65,536 bytes; asked for are units 1 to 6\n  \
             with data      3 units in 2 stretches, 187,856 bytes"
        ),
        "{told}"
    );
    assert!(
        told.contains("  never written  3 units, 196,608 bytes"),
        "{told}"
    );
    assert!(
        told.contains("\n  1 2 131072\n  6 1 56784\nmap  "),
        "{told}"
    );
    assert!(told.contains("\n  1  AA...A\n"), "{told}");

    let json = |first: &str, units: &str| {
        let told = done(&["data", &folder, "7", first, units, "--json"]);
        told.split_once("\"from\":").unwrap().1.to_string()
    };
    let none = "\"with_data\":0,\"never_written\":0,\"without_checksum\":0,\"stretches\":[]}\n";
    assert_eq!(
        json("1", "1"),
        "1,\"to\":2,\"with_data\":1,\"never_written\":0,\"without_checksum\":0,\
         \"stretches\":[{\"first\":1,\"units\":1,\"bytes\":65536}]}\n"
    );
    assert_eq!(
        json("3", "3"),
        "3,\"to\":6,\"with_data\":0,\"never_written\":3,\"without_checksum\":0,\"stretches\":[]}\n"
    );
    assert_eq!(json("2", "0"), format!("2,\"to\":2,{none}"));
    assert_eq!(json("7", "5"), format!("7,\"to\":7,{none}"));
    assert_eq!(
        json("18446744073709551615", "0"),
        format!("7,\"to\":7,{none}")
    );
    assert_eq!(
        json("0", "18_446_744_073_709_551_615"),
        json("0", "7"),
        "the longest range of all"
    );
    let told = done(&["data", &folder, "7", "7", "5"]);
    assert!(
        told.contains("7 units of 65,536 bytes; none of them is asked for\n"),
        "{told}"
    );
    // from a unit to the end
    let told = done(&["data", &folder, "7", "2"]);
    assert!(
        told.contains("asked for are units 2 to 6\n")
            && told.contains("\n  2 1 65536\n  6 1 56784"),
        "{told}"
    );
}

#[test]
fn the_refusals_come_in_their_order() {
    let temporary = Temporary::new();
    let mut broken = store();
    let folder = put(&temporary, &broken);
    let most = "18446744073709551615";
    let says = refused(&["data", &folder, "7", "1", most], 19);
    assert!(
        says.contains(
            "data of file 7: refused by 19: the range's first unit and number of units add up"
        ),
        "{says}"
    );
    refused(&["data", &folder, "7", most, "1"], 19);
    refused(&["data", &folder, "8", most, "1"], 3);
    refused(&["data", &folder, "8"], 3);
    broken.used[0] &= 0xfd;
    put(&temporary, &broken);
    let says = refused(&["data", &folder, "8", most, "1"], 2);
    assert!(
        says.contains("rule    refusal 2") && says.contains("file used"),
        "{says}"
    );
    broken.cards.pop();
    put(&temporary, &broken);
    refused(&["data", &folder, "8", most, "1"], 1);
    for words in [
        &["data", &folder, "seven"][..],
        &["data", &folder, "7", "one"],
        &["data", &folder, "7", "1", "-1"],
        &["data", &folder, "7", "1", "1", "1"],
        &["data", &folder, "7", "--columns", "7"],
    ] {
        refused(words, 64);
    }
}

/// A file of 2^34 + 1 units, of which three hold data: two beside each other in
/// two groups, and the last.
#[test]
fn a_file_far_larger_than_the_store_fits_a_screen() {
    let temporary = Temporary::new();
    let mut buffers = fresh(64, 0, PLACES);
    let mut store = buffers.lend();
    let last = 1u64 << 34;
    store.enter(7, 1, 0).unwrap();
    store.grow(7, last * UNIT + 1, 1, 0).unwrap();
    store.write(7, 256 * UNIT - 1, b"two", 2, 0).unwrap();
    store.write(7, last * UNIT, b"!", 2, 0).unwrap();
    let folder = put(&temporary, &buffers);
    let told = done(&["data", &folder, "7"]);
    assert!(
        told.contains("3 units in 2 stretches, 131,073 bytes"),
        "{told}"
    );
    assert!(
        told.contains("17,179,869,182 units, 1,125,899,906,711,552 bytes (1024.0 TiB)"),
        "{told}"
    );
    assert!(
        told.contains(&format!("\n  255 2 131072\n  {last} 1 1\nmap  ")),
        "{told}"
    );
    // 2^24 units a cell: few of the first, and all of the last, which is one unit
    assert!(
        told.contains("map         16,777,216 units a cell\n"),
        "{told}"
    );
    let rows: Vec<&str> = told
        .lines()
        .skip_while(|line| !line.starts_with("map "))
        .skip(1)
        .take(17)
        .collect();
    assert_eq!(rows[0], format!("               0  :{}", ".".repeat(63)));
    assert_eq!(rows[16], "  17,179,869,184  A");
    assert!(
        told.ends_with("a and : where most of a cell is of the kind, not all\n"),
        "{told}"
    );
    // the bytes between are not looked at one by one
    let between = (last - 257).to_string();
    let told = done(&["data", &folder, "7", "257", &between, "--json"]);
    assert!(
        told.contains(&format!("\"with_data\":0,\"never_written\":{between}")),
        "{told}"
    );
}

#[test]
fn many_stretches_are_listed_where_all_are_asked_for() {
    let temporary = Temporary::new();
    let places = Places {
        extents: 100,
        ..PLACES
    };
    let mut buffers = fresh(1_000, 0, places);
    let mut store = buffers.lend();
    store.enter(7, 1, 0).unwrap();
    store.grow(7, 60 * UNIT, 1, 0).unwrap();
    for unit in (0..60).step_by(2) {
        store.write(7, unit * UNIT, b"data", 2, 0).unwrap();
    }
    let folder = put(&temporary, &buffers);
    let told = done(&["data", &folder, "7"]);
    assert!(
        told.contains("30 units in 30 stretches, 1,966,080 bytes"),
        "{told}"
    );
    assert!(
        told.contains("\n  46 1 65536\n  and 6 more (--all lists them)\nmap  "),
        "{told}"
    );
    assert!(
        done(&["data", &folder, "7", "--all"]).contains("\n  58 1 65536\nmap  "),
        "{told}"
    );
    assert!(
        told.contains(&format!("\n   0  {}\n", "A.".repeat(30))),
        "{told}"
    );
    let narrow = done(&["data", &folder, "7", "--columns", "8"]);
    assert!(
        narrow.contains("\n   0  A.A.A.A.\n") && narrow.contains("\n  56  A.A.\n"),
        "{narrow}"
    );
}

/// Every second unit of three whole groups: no file of three groups has more
/// stretches, and the tool lends room for just so many.
#[test]
fn as_many_stretches_as_there_can_be() {
    let temporary = Temporary::new();
    let mut buffers = fresh(8, 0, PLACES);
    let mut store = buffers.lend();
    store.enter(7, 1, 0).unwrap();
    store.grow(7, 768 * UNIT, 1, 0).unwrap();
    for (number, group) in buffers.groups.chunks_mut(GROUP_BYTES).take(3).enumerate() {
        (group[7], group[8], group[16]) = (7, 4, number as u8);
        group[17..49].fill(0x55);
    }
    buffers.head[27] = 3;
    let folder = put(&temporary, &buffers);
    let told = done(&["data", &folder, "7", "--all"]);
    assert!(told.contains("384 units in 384 stretches, "), "{told}");
    assert!(told.contains("\n  766 1 65536\nmap  "), "{told}");
    assert_eq!(told.matches("A.A.A.A.").count(), 96, "{told}");
    let told = done(&["data", &folder, "7", "2", "1"]);
    assert!(told.contains("1 unit in 1 stretch, 65,536 bytes"), "{told}");
}

#[test]
fn the_picture_can_be_an_svg_file() {
    let temporary = Temporary::new();
    let folder = put(&temporary, &store());
    let path = temporary.path("data.svg");
    let words = [
        "data",
        &folder,
        "7",
        "1",
        "6",
        "--svg",
        path.to_str().unwrap(),
    ];
    assert!(done(&words).contains("\n  1  AA...A\n"));
    let svg = fs::read_to_string(path).unwrap();
    assert!(svg.starts_with("<svg ") && svg.ends_with("</svg>\n"));
    for says in [
        ">file 7: 450,000 bytes (439.5 KiB), 7 units of 65,536 bytes; asked for are units 1 to 6</text>",
        // of 768 in 8 columns: two cells from the left, of 96 each
        "<rect x=\"16\" y=\"56\" width=\"191\" height=\"95\" fill=\"#4285f4\"><title>with data: units 1 to 2</title>",
        "<title>never written: units 3 to 5</title>",
        "<title>with data: units 6 to 6</title>",
        ">with data: 3 units, 187,856 bytes (183.5 KiB)</text>",
        ">never written: 3 units, 196,608 bytes (192.0 KiB)</text>",
    ] {
        assert!(svg.contains(says), "{says}: {svg}");
    }
    assert_eq!(svg.matches('<').count(), svg.matches('>').count());
}

/// A checksum behind the file's end passes refusal 2, and is of no unit.
#[test]
fn a_checksum_behind_the_end_is_not_listed() {
    let temporary = Temporary::new();
    let mut broken = store();
    // file 7's group is the first: units 7 and 255
    for slot in [7, 255] {
        broken.groups[17 + slot / 8] |= 1 << (slot % 8);
    }
    let folder = put(&temporary, &broken);
    let told = done(&["data", &folder, "7"]);
    assert!(told.contains("\n  0 3 196608\n  6 1 56784\nmap"), "{told}");
    assert!(told.contains("\n  0  AAA...A\n"), "{told}");
}

/// A unit that has blocks but lost its checksum is in no stretch, and was written
/// all the same: it is named, and not counted as never written.
#[test]
fn a_unit_that_lost_its_checksum_is_named() {
    let temporary = Temporary::new();
    let mut broken = store();
    forget(&mut broken, 1);
    let folder = put(&temporary, &broken);
    let path = temporary.path("data.svg");
    let told = done(&["data", &folder, "7", "--svg", path.to_str().unwrap()]);
    for says in [
        "  with data      3 units in 3 stretches, 187,856 bytes",
        "  never written  3 units, 196,608 bytes",
        "  no checksum    1 unit, 65,536 bytes (64.0 KiB); the first is unit 1: it has blocks,",
        "\n  0 1 65536\n  2 1 65536\n  6 1 56784\n",
        "\n  0  A?A...A\n",
        "\n  ? blocks but no checksum: no list of calls leads there",
    ] {
        assert!(told.contains(says), "{says}: {told}");
    }
    let svg = fs::read_to_string(path).unwrap();
    assert!(
        svg.contains("<title>blocks but no checksum: units 1 to 1</title>")
            && svg.contains(">blocks but no checksum: 1 unit, 65,536 bytes"),
        "{svg}"
    );
    let json = done(&["data", &folder, "7", "1", "1", "--json"]);
    assert!(
        json.contains(
            "\"with_data\":0,\"never_written\":0,\"without_checksum\":1,\"stretches\":[]"
        ),
        "{json}"
    );
    // outside the range there is nothing to name
    let told = done(&["data", &folder, "7", "2"]);
    assert!(!told.contains("checksum") && !told.contains('?'), "{told}");
    assert_eq!(code(&run(&["read", &folder, "7", "--at", "65536"])), 9);
}

/// The units of file 7 whose checksum goes away: its group is the first.
fn forget(store: &mut StoreBuf, slot: usize) {
    let group = &mut store.groups[..GROUP_BYTES];
    group[17 + slot / 8] &= !(1 << (slot % 8));
    group[49 + 4 * slot..53 + 4 * slot].fill(0);
}

/// Random writes, and the stretches of the units that they touched.
#[test]
fn random_files() {
    let temporary = Temporary::new();
    let mut random = Rng::new(5);
    for _ in 0..12 {
        let places = Places {
            extents: 400,
            groups: 8,
            ..PLACES
        };
        let mut buffers = fresh(1_200, 0, places);
        let mut store = buffers.lend();
        store.enter(7, 1, 0).unwrap();
        let units = random.between(1, 600);
        store.grow(7, units * UNIT, 1, 0).unwrap();
        let mut written = vec![false; units as usize];
        for _ in 0..random.between(0, 25) {
            let first = random.below(units);
            let last = (first + random.below(3)).min(units - 1);
            let length = ((last - first) * UNIT + 1) as usize;
            store
                .write(7, first * UNIT + 5, &vec![1; length], 2, 0)
                .unwrap();
            written[first as usize..=last as usize].fill(true);
        }
        let expected: Vec<(usize, usize)> = written
            .chunk_by(|a, b| a == b)
            .scan(0, |first, same| {
                let stretch = (*first, same.len(), same[0]);
                *first += same.len();
                Some(stretch)
            })
            .filter_map(|(first, units, written)| written.then_some((first, units)))
            .collect();
        let folder = put(&temporary, &buffers);
        let told = done(&["data", &folder, "7", "--all"]);
        let listed: Vec<(usize, usize)> = told
            .lines()
            .skip_while(|line| !line.starts_with("stretches "))
            .skip(1)
            .take_while(|line| !line.starts_with("map "))
            .map(|line| {
                let numbers: Vec<usize> = line
                    .split_whitespace()
                    .map(|n| n.parse().unwrap())
                    .collect();
                assert_eq!(numbers[2], numbers[1] * UNIT as usize, "{line}");
                (numbers[0], numbers[1])
            })
            .collect();
        assert_eq!(listed, expected);
        let cells: String = written.iter().map(|&w| if w { 'A' } else { '.' }).collect();
        let drawn: String = told
            .lines()
            .skip_while(|line| !line.starts_with("map "))
            .skip(1)
            .take((units as usize).div_ceil(64))
            .map(|line| line.split_whitespace().next_back().unwrap())
            .collect();
        assert_eq!(drawn, cells);

        // as much room as the answer needs is enough, and a byte less is not
        let mut out = vec![0; expected.len() * STRETCH_BYTES];
        let lent = buffers.lend();
        let count = expected.len() as u64;
        assert_eq!(lent.data_stretches(7, 0, u64::MAX, &mut out), Ok(count));
        let pairs = Stretch::all(&out, count).map(|s| (s.first as usize, s.units as usize));
        assert!(pairs.eq(expected));
    }
}
