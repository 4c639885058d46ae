//! Files of flags, counted.

mod common;

use common::*;
use random::Rng;
use sangueko::{MOST_RANGES, Places};

#[test]
fn bins_of_a_known_file() {
    let temporary = Temporary::new();
    let store = temporary.path("store");
    let folder = store.to_str().unwrap();
    done(&["new", folder, "--blocks", "64"]);
    done(&["enter", folder, "5"]);
    // unit 0 in part, unit 1 never, unit 2 in part
    assert_eq!(code(&fed(&["write", folder, "5"], &[0b0000_0111; 100])), 0);
    assert_eq!(
        code(&fed(&["write", folder, "5", "--at", "131072"], &[0xff; 10])),
        0
    );
    let json = done(&["flags", folder, "5", "--json"]);
    let (bins, counted) = (131_082 * 8, 300 + 80);
    assert_eq!(
        json,
        format!(
            "{{\"object\":5,\"bins\":{bins},\"counted\":{counted},\"excluded\":{},\"never_written\":{}}}\n",
            bins - counted,
            65_536 * 8
        )
    );
    let json = done(&["flags", folder, "5", "--bins", "10", "--json"]);
    assert!(
        json.contains("\"counted\":5,\"excluded\":5,\"never_written\":0"),
        "{json}"
    );
    let json = done(&["flags", folder, "5", "--bins", "524296", "--json"]);
    assert!(json.contains("\"never_written\":8"), "{json}");
    let text = done(&["flags", folder, "5"]);
    assert!(text.contains("    380 count (ones)"), "{text}");
    assert!(
        text.contains("524,288 lie in units that were never written"),
        "{text}"
    );
    assert!(refused(&["flags", folder, "5", "--bins", "1048657"], 64).contains("1,048,656 flags"));
}

/// Bins that are excluded only because nobody ever wrote their unit, in a file far
/// larger than the store.
#[test]
fn holes_are_counted_and_not_read() {
    let temporary = Temporary::new();
    let store = temporary.path("store");
    let folder = store.to_str().unwrap();
    done(&["new", folder, "--blocks", "64"]);
    done(&["enter", folder, "5"]);
    let at = 1u64 << 50;
    assert_eq!(
        code(&fed(&["write", folder, "5", "--at", &at.to_string()], &[1])),
        0
    );
    let json = done(&["flags", folder, "5", "--json"]);
    assert!(
        json.contains(&format!("\"bins\":{},\"counted\":1", (at + 1) * 8)),
        "{json}"
    );
    assert!(
        json.contains(&format!("\"never_written\":{}", at * 8)),
        "{json}"
    );
    assert!(done(&["check", folder]).ends_with("accepted\n"));
}

#[test]
fn random_flags() {
    let temporary = Temporary::new();
    let store = temporary.path("store");
    let folder = store.to_str().unwrap();
    done(&["new", folder, "--blocks", "700"]);
    done(&["enter", folder, "5"]);
    let mut random = Rng::new(11);
    let flags: Vec<u8> = (0..2_000_000).map(|_| random.next_u64() as u8).collect();
    assert_eq!(code(&fed(&["write", folder, "5"], &flags)), 0);
    let ones: u32 = flags.iter().map(|byte| byte.count_ones()).sum();
    let json = done(&["flags", folder, "5", "--json"]);
    assert!(json.contains(&format!("\"counted\":{ones},")), "{json}");
    assert!(json.contains("\"never_written\":0"), "{json}");
}

/// Counted by hand, with stretches of several lengths, more of them than one call
/// reads, and bins that end in one and in a hole.
#[test]
fn random_flags_with_holes() {
    const UNIT: usize = 65_536;
    let temporary = Temporary::new();
    let store = temporary.path("store");
    let folder = store.to_str().unwrap();
    let mut random = Rng::new(12);
    let places = Places {
        extents: 900,
        groups: 4,
        ..PLACES
    };
    let mut buffers = fresh(3_000, 0, places);
    let mut lent = buffers.lend();
    let mut file = vec![0u8; 330 * UNIT + 333];
    let mut written = vec![false; 331];
    lent.enter(5, 1, 0).unwrap();
    lent.grow(5, file.len() as u64, 1, 0).unwrap();
    for _ in 0..140 {
        let unit = random.index(331);
        let from = unit * UNIT + random.index(300);
        let length = (random.index(9) / 8 * UNIT + 100).min(file.len() - from);
        let flags: Vec<u8> = (0..length).map(|_| random.next_u64() as u8).collect();
        lent.write(5, from as u64, &flags, 2, 0).unwrap();
        file[from..from + length].copy_from_slice(&flags);
        written[unit..=(from + length - 1) / UNIT].fill(true);
    }
    let runs = written.chunk_by(|a, b| a == b);
    assert!(runs.filter(|run| run[0]).count() > MOST_RANGES);
    put_store(&buffers, &store);
    let all = file.len() * 8;
    let ends = (0..20).map(|_| random.index(all));
    for bins in [0, 1, 7, all - 1, all].into_iter().chain(ends) {
        let (whole, rest) = (bins / 8, bins % 8);
        let ones: u32 = file[..whole].iter().map(|byte| byte.count_ones()).sum();
        let last = (0..rest).filter(|bit| file[whole] >> bit & 1 == 1);
        let counted = ones as usize + last.count();
        let hole = |byte: &usize| !written[byte / UNIT];
        let never = 8 * (0..whole).filter(hole).count();
        let never = never
            + if hole(&whole.min(file.len() - 1)) {
                rest
            } else {
                0
            };
        let json = done(&["flags", folder, "5", "--json", "--bins", &bins.to_string()]);
        assert_eq!(
            json,
            format!(
                "{{\"object\":5,\"bins\":{bins},\"counted\":{counted},\"excluded\":{},\"never_written\":{never}}}\n",
                bins - counted
            )
        );
    }
}

/// The first damaged unit refuses the count, one that lost its checksum too: it is
/// in no stretch of data, but its bins are not among those that nobody wrote.
#[test]
fn damaged_units_are_not_counted() {
    let temporary = Temporary::new();
    let store = temporary.path("store");
    let folder = store.to_str().unwrap();
    let mut whole = fresh(64, 0, PLACES);
    let mut lent = whole.lend();
    lent.enter(5, 1, 0).unwrap();
    lent.grow(5, 10 * 65_536, 1, 0).unwrap();
    for unit in [1, 4, 7] {
        lent.write(5, unit * 65_536, &[1; 10], 2, 0).unwrap();
    }
    put_store(&whole, &store);
    let json = done(&["flags", folder, "5", "--json"]);
    assert!(
        json.contains(&format!("\"counted\":30,\"excluded\":{}", 80 * 65_536 - 30)),
        "{json}"
    );
    assert!(
        json.contains(&format!("\"never_written\":{}", 56 * 65_536)),
        "{json}"
    );

    // unit 4 loses its checksum
    let mut broken = whole.clone();
    broken.groups[17] &= !(1 << 4);
    broken.groups[49 + 16..53 + 16].fill(0);
    put_store(&broken, &store);
    let says = refused(&["flags", folder, "5"], 9);
    assert!(
        says.contains("flags of file 5, read from byte 262,144: refused by 9"),
        "{says}"
    );
    // and unit 1, before it, a byte
    broken.image[5] ^= 1;
    put_store(&broken, &store);
    let says = refused(&["flags", folder, "5"], 12);
    assert!(says.contains("read from byte 65,536: refused"), "{says}");
    // unit 7 alone, behind the bins that are asked for
    let mut broken = whole.clone();
    broken.image[32 * 4_096 + 5] ^= 1;
    put_store(&broken, &store);
    let says = refused(&["flags", folder, "5", "--bins", "8"], 12);
    assert!(says.contains("read from byte 458,752: refused"), "{says}");
}
