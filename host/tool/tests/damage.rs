//! Damaged stores: what `check` says of them, and that it refuses what the
//! library refuses.

mod common;

use common::*;
use random::Rng;
use sangueko::{CARD_BYTES, EXTENT_BYTES, GROUP_BYTES, Places, Refusal, StoreBuf};
use tool::buffer::{Buffer, Lengths};
use tool::diagnose::diagnose;

/// Two files, holes, retired blocks, and books with room behind their records.
fn store() -> StoreBuf {
    let mut buffers = fresh(70, 2, PLACES);
    let mut store = buffers.lend();
    store.enter(7, 1, 500_000_000).unwrap();
    store.enter(9, 2, 6).unwrap();
    store.write(7, 0, &bytes(20_000, 1), 3, 0).unwrap();
    store.write(9, 0, &bytes(70_000, 2), 3, 0).unwrap();
    store.write(7, 9_000, &bytes(10, 3), 4, 0).unwrap();
    store.write(7, 200_000, &bytes(5_000, 4), 4, 0).unwrap();
    buffers
}

fn lengths(store: &StoreBuf) -> Lengths {
    Buffer::ALL.map(|buffer| buffer.of(store).len() as u64)
}

fn buffer_mut(store: &mut StoreBuf, buffer: Buffer) -> &mut Vec<u8> {
    match buffer {
        Buffer::Image => &mut store.image,
        Buffer::Head => &mut store.head,
        Buffer::Cards => &mut store.cards,
        Buffer::Extents => &mut store.extents,
        Buffer::Groups => &mut store.groups,
        Buffer::Used => &mut store.used,
        Buffer::Retired => &mut store.retired,
    }
}

/// One byte changed, and what `check` has to say.
struct Case {
    buffer: Buffer,
    at: usize,
    to: u8,
    number: i32,
    rule: &'static str,
    place: &'static str,
    says: &'static str,
}

const fn case(
    (buffer, at, to): (Buffer, usize, u8),
    number: i32,
    rule: &'static str,
    place: &'static str,
    says: &'static str,
) -> Case {
    Case {
        buffer,
        at,
        to,
        number,
        rule,
        place,
        says,
    }
}

#[test]
fn one_byte_is_found_and_named() {
    const E: usize = EXTENT_BYTES;
    let cases = [
        case(
            (Buffer::Head, 17, 9),
            1,
            "blocks other than the image's",
            "file head, bytes 16 to 18",
            "the image has 70",
        ),
        case(
            (Buffer::Head, 20, 0x8f),
            1,
            "record numbers above the places",
            "file head, bytes 20 to 22",
            "in cards, which has 4 places",
        ),
        case(
            (Buffer::Head, 18, 0x7f),
            1,
            "reserved exceeds blocks",
            "file head, bytes 18 to 20",
            "reserved of 70 blocks",
        ),
        case(
            (Buffer::Cards, 7, 10),
            2,
            "order",
            "file cards, record 1, bytes 48 to 55",
            "the card of file 9 does not come after the card of file 10",
        ),
        case(
            (Buffer::Extents, 8, 4),
            2,
            "order",
            "file extents, record 1",
            "does not come after",
        ),
        case(
            (Buffer::Extents, 6 * E + 3, 1),
            2,
            "zeros after the last record",
            "file extents, record 6, byte 201",
            "counts 6 records in extents",
        ),
        case(
            (Buffer::Cards, 4 * CARD_BYTES - 1, 1),
            2,
            "zeros after the last record",
            "file cards, record 3, byte 191",
            "byte 191 behind them is 1",
        ),
        case(
            (Buffer::Cards, CARD_BYTES - 1, 1),
            2,
            "fixed or spare bytes",
            "file cards, record 0, byte 47",
            "bit 383 of the card of file 7 is set",
        ),
        case(
            (Buffer::Cards, CARD_BYTES + 44, 0x12),
            2,
            "fixed or spare bytes",
            "file cards, record 1, byte 92",
            "bit 355 of the card of file 9 is set",
        ),
        case(
            (Buffer::Cards, 43, 8),
            2,
            "fixed or spare bytes",
            "file cards, record 0, byte 43",
            "bit 348 of the card of file 7 is set",
        ),
        case(
            (Buffer::Extents, 5 * E + 8, 5),
            2,
            "fixed or spare bytes",
            "file extents, record 5, byte 173",
            "is 5, not 3",
        ),
        case(
            (Buffer::Extents, 30, 1),
            2,
            "fixed or spare bytes",
            "file extents, record 0, byte 30",
            "last four bytes",
        ),
        case(
            (Buffer::Groups, GROUP_BYTES + 8, 5),
            2,
            "fixed or spare bytes",
            "file groups, record 1, byte 1,081",
            "group 0 of file 9 is 5, not 4",
        ),
        case(
            (Buffer::Cards, 28, 0x7f),
            2,
            "nanoseconds 1,000,000,000 or more",
            "file cards, record 0, bytes 28 to 31",
            "nanoseconds in the time of its last change",
        ),
        // a half of a second, and both upper bits of the nanoseconds set
        case(
            (Buffer::Cards, 39, 7),
            2,
            "nanoseconds 1,000,000,000 or more",
            "file cards, record 0, bytes 39 to 43",
            "the card of file 7 says 1,036,870,912 nanoseconds in the time of its creation",
        ),
        case(
            (Buffer::Extents, 25, 0),
            2,
            "an extent with count 0",
            "file extents, record 0, bytes 25 to 28",
            "maps nothing",
        ),
        case(
            (Buffer::Extents, 25, 4),
            2,
            "overlapping its neighbour in the file",
            "file extents, record 1",
            "begins before block 4",
        ),
        case(
            (Buffer::Extents, 18, 1),
            2,
            "past the device",
            "file extents, record 0, bytes 17 to 28",
            "goes past the image's 70 blocks",
        ),
        case(
            (Buffer::Extents, 5 * E + 25, 19),
            2,
            "past the blocks of its file's size",
            "file extents, record 5",
            "18 blocks that its 70,000 bytes take",
        ),
        case(
            (Buffer::Extents, 5 * E + 7, 10),
            2,
            "without a card",
            "file extents, record 5, bytes 165 to 172",
            "file that has no card",
        ),
        case(
            (Buffer::Groups, 49 + 4, 1),
            2,
            "a slot not present but not zero",
            "file groups, record 0, bytes 53 to 56",
            "slot 1 of group 0 of file 7",
        ),
        case(
            (Buffer::Used, 0, 0b1111_1011),
            2,
            "a mapped block not used, or retired, or reserved",
            "file used, byte 0",
            "block 2, at block 0 of file 7 by extent 0, is not marked as used",
        ),
        case(
            (Buffer::Retired, 0, 0b0101_0100),
            2,
            "a mapped block not used, or retired, or reserved",
            "file retired, byte 0",
            "is marked as retired",
        ),
        case(
            (Buffer::Extents, 17, 0),
            2,
            "a mapped block not used, or retired, or reserved",
            "file extents, record 0, bytes 17 to 28",
            "below 2, where reserved blocks end",
        ),
        case(
            (Buffer::Used, 0, 0b1111_1110),
            2,
            "a reserved block not used, or retired",
            "file used, byte 0",
            "block 0, which is reserved",
        ),
        case(
            (Buffer::Retired, 8, 0b10_0000),
            2,
            "a retired block not used",
            "file used, byte 8",
            "block 69 is marked as retired",
        ),
        case(
            (Buffer::Used, 8, 0b1100_0000),
            2,
            "a bit past the last block",
            "file used, byte 8",
            "bit 70 set, and the last block is 69",
        ),
    ];
    let temporary = Temporary::new();
    let whole = store();
    for case in cases {
        let mut broken = whole.clone();
        let byte = &mut buffer_mut(&mut broken, case.buffer)[case.at];
        assert_ne!(*byte, case.to, "{}", case.rule);
        *byte = case.to;
        let folder = temporary.path("store");
        put_store(&broken, &folder);
        let output = run(&["check", folder.to_str().unwrap()]);
        let message = err(&output);
        assert_eq!(code(&output), case.number, "{}: {message}", case.rule);
        assert!(message.contains(case.rule), "{}: {message}", case.rule);
        assert!(message.contains(case.place), "{}: {message}", case.rule);
        assert!(message.contains(case.says), "{}: {message}", case.rule);
        assert!(!message.contains("  note "), "{}: {message}", case.rule);
        assert!(!out(&output).contains("disagree"), "{}", out(&output));
        assert_eq!(store_in(&folder), broken);
        let json = out(&run(&["check", folder.to_str().unwrap(), "--json"]));
        assert!(
            json.starts_with(&format!(
                "{{\"accepted\":false,\"refusal\":{},",
                case.number
            )),
            "{json}"
        );
        assert!(
            json.contains(&format!(
                "\"rule\":\"{}",
                if case.number == 2 { case.rule } else { "" }
            )),
            "{json}"
        );
    }
}

/// The library and the diagnosis on stores with bytes changed at random.
#[test]
fn the_diagnosis_refuses_what_the_library_refuses() {
    let mut random = Rng::new(17);
    let whole = [
        store(),
        layout(),
        fresh(1, 1, PLACES),
        fresh(
            64,
            0,
            Places {
                cards: 0,
                extents: 0,
                groups: 0,
            },
        ),
    ];
    let mut seen = [0; 3];
    for _ in 0..40_000 {
        let mut broken = whole[random.index(whole.len())].clone();
        for _ in 0..random.between(1, 3) {
            let buffer = random.pick(&Buffer::ALL[1..]);
            let bytes = buffer_mut(&mut broken, buffer);
            if bytes.is_empty() {
                continue;
            }
            if random.percent(3) {
                bytes.pop();
                continue;
            }
            // mostly where the records are
            let near = [CARD_BYTES, 180].map(|near| bytes.len().min(near));
            let near = [bytes.len(), near[0], near[1]];
            let at = random.index(random.clone().pick(&near));
            bytes[at] = if random.percent(50) {
                bytes[at] ^ (1 << random.below(8))
            } else {
                random.next_u64() as u8
            };
        }
        let library = broken.lend().fill().err().map_or(0, Refusal::number);
        let diagnosis = diagnose(&broken, &lengths(&broken)).map_or(0, |finding| finding.number);
        assert_eq!(
            library,
            diagnosis,
            "{:?}",
            diagnose(&broken, &lengths(&broken))
        );
        seen[library as usize] += 1;
    }
    println!("accepted, refused by 1, by 2: {seen:?}");
    assert!(seen.iter().all(|&number| number > 1_000), "{seen:?}");
}

#[test]
fn damaged_units_are_found_and_named() {
    let temporary = Temporary::new();
    let folder = temporary.path("store");
    let words = folder.to_str().unwrap();
    let whole = store();
    let check = |broken: &StoreBuf, number: i32, says: &[&str]| {
        put_store(broken, &folder);
        let output = run(&["check", words]);
        let text = out(&output);
        assert_eq!(code(&output), number, "{text}{}", err(&output));
        for says in says {
            assert!(text.contains(says), "{says}: {text}");
        }
        assert!(
            text.starts_with("refusals 1 and 2: passed\n") && !text.contains("disagree"),
            "{text}"
        );
        // the damage is in file 7 alone
        assert!(
            text.contains("file 9: 2 units, 2 written, 0 never written, 0 damaged"),
            "{text}"
        );
        let json = out(&run(&["check", words, "--json"]));
        assert!(json.contains(&format!("\"refusal\":{number}")), "{json}");
        assert_eq!(run(&["read", words, "7"]).status.code(), Some(number));
    };
    check(
        &whole,
        0,
        &[
            "file 7: 4 units, 2 written, 2 never written, 0 damaged",
            "accepted",
        ],
    );

    // 9: unit 0's checksum goes away
    let mut broken = whole.clone();
    broken.groups[17] &= 0xfe;
    broken.groups[49..53].fill(0);
    check(
        &broken,
        9,
        &[
            "unit 0, bytes 0 to 65,535 of the file: 9",
            "no checksum, but an extent maps its block 0 to block 2",
        ],
    );

    // 10: the file's second extent goes away
    let mut broken = whole.clone();
    let end = 6 * EXTENT_BYTES;
    broken
        .extents
        .copy_within(2 * EXTENT_BYTES..end, EXTENT_BYTES);
    broken.extents[end - EXTENT_BYTES..end].fill(0);
    broken.head[25] = broken.head[25] & 0x0f | 5 << 4;
    check(
        &broken,
        10,
        &["unit 0, bytes 0 to 65,535", "no extent maps its block"],
    );

    // 11: a byte behind the end of the file, in its last block
    let mut broken = whole.clone();
    let last = last_block(&whole);
    broken.image[last * 4_096 + 4_095] = 1;
    check(
        &broken,
        11,
        &[
            "unit 3, bytes 196,608 to 204,999 of the file: 11",
            &format!("byte 4095 of block {last}"),
        ],
    );

    // 12: a byte of the file
    let mut broken = whole.clone();
    broken.image[2 * 4_096 + 5] ^= 0x10;
    check(
        &broken,
        12,
        &[
            "unit 0, bytes 0 to 65,535 of the file: 12",
            "its bytes have checksum",
        ],
    );

    // two of them: the first gives the number
    broken.image[last * 4_096 + 4_095] = 1;
    check(
        &broken,
        12,
        &[
            "2 written, 2 never written, 2 damaged",
            "unit 0,",
            "unit 3,",
        ],
    );
}

/// The block that holds the end of file 7.
fn last_block(store: &StoreBuf) -> usize {
    let extents = store.extents.chunks(EXTENT_BYTES).take(6);
    let last = extents.rev().find(|extent| extent[7] == 7).unwrap();
    usize::from(last[17]) + usize::from(last[25]) - 1
}

/// What no list of calls leads to, and refusals 1 and 2 do not find, is in the
/// picture all the same.
#[test]
fn shared_and_stray_blocks_are_shown() {
    let temporary = Temporary::new();
    let folder = temporary.path("store");
    let mut broken = layout();
    broken.used[0] |= 0x80;
    put_store(&broken, &folder);
    let shown = done(&["show", folder.to_str().unwrap()]);
    assert!(
        shown.contains("  0  #AAAA~A?\n") && shown.contains("? a used block of no file"),
        "{shown}"
    );
    let mut broken = layout();
    broken.extents[3 * EXTENT_BYTES + 17] = 1;
    put_store(&broken, &folder);
    let shown = done(&["show", folder.to_str().unwrap()]);
    assert!(shown.contains("  0  #!AAA~?.\n"), "{shown}");
}
