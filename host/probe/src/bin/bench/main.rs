//! Measures the proved functions against plain Rust, in one run and as ratios. Both are built for release; every buffer is filled, and touched once,
//! before it is timed.
//!
//! `bench [crc] [ranges] [maps] [book] [searches] [allocation]`: those parts, or all of them.

mod allocation;
mod measure;
mod plain;

use measure::{pair, speeds, times};
use probe as proved;
use std::collections::BTreeMap;
use std::hint::black_box;
use std::time::Duration;

const ROUNDS: u32 = 5;
const SPAN: Duration = Duration::from_millis(40);

/// Many short rounds, of which some fall between the turns of whatever else runs.
const SHORT_ROUNDS: u32 = 200;
const SHORT_SPAN: Duration = Duration::from_micros(500);

fn filled(len: usize) -> Vec<u8> {
    let mut random = random::Rng::new(1);
    (0..len).map(|_| random.next_u64() as u8).collect()
}

fn main() {
    let asked: Vec<String> = std::env::args().skip(1).collect();
    let parts: [(&str, fn()); 6] = [
        ("crc", checksums),
        ("ranges", ranges),
        ("maps", maps),
        ("book", book),
        ("searches", searches),
        ("allocation", allocation::compared),
    ];
    println!("{:<66} {:>8} {:>8}", "", "ours", "theirs");
    for (name, part) in parts {
        if asked.is_empty() || asked.iter().any(|asked| asked == name) {
            part();
        }
    }
}

fn checksums() {
    crc();
    pieces();
}

/// The register goes from one feed to the next, on either side: what a call does that has lent its tables once.
fn crc() {
    let (by_8, by_16) = (plain::Slicing::<8>::new(), plain::Slicing::<16>::new());
    let sizes = [
        (1 << 10, "1 KiB"),
        (4 << 10, "4 KiB"),
        (16 << 10, "16 KiB"),
        (64 << 10, "64 KiB"),
        (1 << 20, "1 MiB"),
    ];
    for odd in [0, 1] {
        for (size, name) in sizes {
            let all = filled(size + odd);
            let bytes = &all[odd..];
            let name = format!("CRC-32C of {name}{}", ["", ", odd address"][odd]);
            against(&format!("{name}, slicing by 8"), bytes, |c, s| {
                by_8.feed(c, s)
            });
            against(&format!("{name}, slicing by 16"), bytes, |c, s| {
                by_16.feed(c, s)
            });
            #[cfg(target_arch = "x86_64")]
            if plain::instruction::present() {
                let three = plain::instruction::Three::new();
                // SAFETY of both: the instruction is there.
                let one = |c, s: &[u8]| unsafe { plain::instruction::one(c, s) };
                against(&format!("{name}, the instruction"), bytes, one);
                let three = |c, s: &[u8]| unsafe { three.feed(c, s) };
                against(&format!("{name}, it in three streams"), bytes, three);
            }
        }
    }
}

/// Both sides feed the same bytes again and again.
fn against(name: &str, bytes: &[u8], feed: impl Fn(u32, &[u8]) -> u32) {
    let times = ((1 << 18) / bytes.len()).max(1);
    let theirs = |times| !(0..times).fold(!0, |c, _| feed(c, black_box(bytes)));
    for times in [0, 1, 3] {
        assert_eq!(proved::crc32c_repeated(bytes, times), theirs(times));
    }
    let ours = || {
        black_box(proved::crc32c_repeated(black_box(bytes), times));
    };
    let theirs = || {
        black_box(theirs(times));
    };
    let both = pair(SHORT_ROUNDS, SHORT_SPAN, ours, theirs);
    speeds(name, times * bytes.len(), both);
}

/// A unit of 64 KiB block by block and in one piece, each less what a unit without bytes takes: the copy of the tables and the twenty bytes and uuid
/// before the unit's own.
fn pieces() {
    let (uuid, bytes) = ([7; 16], filled(64 << 10));
    let unit = |bytes: &[u8], piece: usize| {
        black_box(proved::unit_checksum(&uuid, 9, 3, black_box(bytes), piece));
    };
    let short = |ours: &dyn Fn(), theirs: &dyn Fn()| pair(SHORT_ROUNDS, SHORT_SPAN, ours, theirs);
    let (none, _) = short(&|| unit(&[], 1), &|| ());
    for (piece, name) in [(4096, "4 KiB"), (1000, "1,000 bytes")] {
        let (by_pieces, whole) = short(&|| unit(&bytes, piece), &|| unit(&bytes, bytes.len()));
        times(
            &format!("a unit of 64 KiB by {name}, and in one piece"),
            (by_pieces - none, whole - none),
        );
    }
}

fn ranges() {
    for (size, name) in [(4 << 10, "4 KiB"), (64 << 10, "64 KiB"), (1 << 20, "1 MiB")] {
        let (zeros, mut to, from) = (vec![0u8; size], vec![1u8; size], filled(size));
        let mut other = to.clone();
        assert!(proved::is_zero(&zeros) && !proved::is_zero(&from));
        let ours = || {
            black_box(proved::is_zero(black_box(&zeros)));
        };
        let theirs = || black_box(&mut other).copy_from_slice(black_box(&from));
        speeds(
            &format!("all zero, {name}, and memcpy"),
            size,
            pair(ROUNDS, SPAN, ours, theirs),
        );
        let ours = || proved::copy(black_box(&mut to), black_box(&from));
        let theirs = || black_box(&mut other).copy_from_slice(black_box(&from));
        speeds(
            &format!("copy, {name}, and memcpy"),
            size,
            pair(ROUNDS, SPAN, ours, theirs),
        );
        assert_eq!(to, from);
    }
}

/// The map of the largest store: 65,536 blocks, 1,024 words.
fn maps() {
    let (map, clear) = (filled(8192), vec![0u8; 8192]);
    assert_eq!(proved::count_set(&map) as u64, plain::count_set(&map));
    assert!(proved::all_clear(&clear) && !proved::all_clear(&map));
    let ours = || {
        black_box(proved::count_set(black_box(&map)));
    };
    let theirs = || {
        black_box(plain::count_set(black_box(&map)));
    };
    times(
        "count of set bits, 1,024 words, and Rust's count_ones",
        pair(ROUNDS, SPAN, ours, theirs),
    );
    let ours = || {
        black_box(proved::all_clear(black_box(&clear)));
    };
    let theirs = || {
        black_box(plain::all_clear(black_box(&clear)));
    };
    times(
        "all clear, 1,024 words, and Rust's word test",
        pair(ROUNDS, SPAN, ours, theirs),
    );
}

/// Ten thousand extents: 330,000 bytes, and one place more to splice into.
fn book() {
    let extent = |i: u64| plain::Extent {
        object: 7,
        logical: 3 * i,
        physical: 2 * i,
        count: 2,
    };
    let full: Vec<u8> = (0..10_000).flat_map(|i| plain::encode(extent(i))).collect();
    assert!(proved::extents_ordered(&full) && plain::extents_ordered(&full));
    let ours = || {
        black_box(proved::extents_ordered(black_box(&full)));
    };
    let theirs = || {
        black_box(plain::extents_ordered(black_box(&full)));
    };
    times(
        "scan of 10,000 extents, and plain Rust",
        pair(ROUNDS, SPAN, ours, theirs),
    );

    let mut spliced = full.clone();
    spliced.extend([0; 33]);
    let mut moved = spliced.clone();
    let new = plain::encode(extent(5_000));
    // In and out again, so that every turn starts from the same book.
    let ours = || {
        assert!(proved::splice_extents(
            black_box(&mut spliced),
            10_000,
            5_000,
            0,
            &new
        ));
        assert!(proved::splice_extents(
            black_box(&mut spliced),
            10_001,
            5_000,
            1,
            &[]
        ));
    };
    let theirs = || {
        let (from, end) = (5_000 * 33, 10_000 * 33);
        black_box(&mut moved).copy_within(from..end, from + 33);
        black_box(&mut moved)[from..from + 33].copy_from_slice(&new);
        black_box(&mut moved).copy_within(from + 33..end + 33, from);
        black_box(&mut moved)[end..].fill(0);
    };
    times(
        "splice in and out of a 330,000-byte book, copy_within",
        pair(ROUNDS, SPAN, ours, theirs),
    );
}

/// An extent in books of more and more of them: the search by halves beside plain
/// Rust's over the same bytes, and beside the ordered map in which the published
/// Rust keeps its records. A block is drawn anew for each search, so that no branch
/// is learnt.
fn searches() {
    for count in [10, 100, 1_000, 10_000, 100_000, 1_048_575] {
        let extent = |i: u64| plain::Extent {
            object: 7,
            logical: 3 * i,
            physical: 2 * i,
            count: 2,
        };
        let book: Vec<u8> = (0..count).flat_map(|i| plain::encode(extent(i))).collect();
        let map: BTreeMap<[u8; 17], [u8; 16]> = (0..count)
            .map(|i| plain::encode(extent(i)))
            .map(|record| (plain::key(&record), record[17..].try_into().unwrap()))
            .collect();
        let mut random = random::Rng::new(3);
        let blocks: Vec<u64> = (0..4_096).map(|_| random.below(3 * count)).collect();
        let n = count as usize;
        for &block in &blocks {
            let place = proved::floor_extent(&book, n, 7, block);
            assert_eq!(place, plain::floor_extent(&book, 7, block));
            let theirs = plain::floor_in(&map, 7, block);
            assert_eq!(place.map(|i| plain::key(&book[33 * i..])), theirs);
        }
        let beside = |with: &str, theirs: &dyn Fn(u64)| {
            let next = |random: &mut random::Rng| random.below(3 * count);
            let (mut a, mut b) = (random::Rng::new(4), random::Rng::new(4));
            let ours = || {
                black_box(proved::floor_extent(black_box(&book), n, 7, next(&mut a)));
            };
            let best = pair(ROUNDS, SPAN, ours, || theirs(next(&mut b)));
            times(&format!("search among {count} extents, and {with}"), best);
        };
        beside("plain Rust's", &|block| {
            black_box(plain::floor_extent(black_box(&book), 7, block));
        });
        beside("an ordered map", &|block| {
            black_box(plain::floor_in(black_box(&map), 7, block));
        });
    }
}
