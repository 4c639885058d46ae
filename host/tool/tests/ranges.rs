//! `read` of many ranges: the bytes that plain reads give, in as few calls as
//! there can be, or none at all.

mod common;

use std::fs;

use common::*;
use random::Rng;

/// 3,000,000 bytes with a hole of 100 units before the last 50,000, in a folder.
fn made(temporary: &Temporary) -> (String, Vec<u8>) {
    let folder = temporary.path("store").to_str().unwrap().to_string();
    done(&["new", &folder, "--blocks", "1000", "--uuid", UUID_DIGITS]);
    done(&["enter", &folder, "7"]);
    let mut file = bytes(3_000_000, 1);
    assert_eq!(code(&fed(&["write", &folder, "7"], &file)), 0);
    file.resize(3_000_000 + 6_553_600, 0);
    let tail = bytes(50_000, 2);
    let at = file.len().to_string();
    assert_eq!(code(&fed(&["write", &folder, "7", "--at", &at], &tail)), 0);
    file.extend(tail);
    (folder, file)
}

/// The slices of the file that the ranges name, as far as they go.
fn slices(file: &[u8], ranges: &[(usize, usize)]) -> Vec<u8> {
    let slice = |&(offset, length): &(usize, usize)| {
        let rest = file.get(offset..).unwrap_or_default();
        &rest[..length.min(rest.len())]
    };
    ranges.iter().flat_map(slice).copied().collect()
}

fn lines(ranges: &[(usize, usize)]) -> String {
    let line = |(offset, length): &(usize, usize)| format!("{offset} {length}\n");
    ranges.iter().map(line).collect()
}

#[test]
fn ranges_are_slices_of_a_plain_read() {
    let temporary = Temporary::new();
    let (folder, file) = made(&temporary);
    assert_eq!(run(&["read", &folder, "7"]).stdout, file);

    let listed = run(&[
        "read",
        &folder,
        "7",
        "--ranges",
        "4_096:20,0:100,4100:1,0:0",
    ]);
    let ranges = [(4_096, 20), (0, 100), (4_100, 1)];
    assert_eq!((code(&listed), err(&listed).as_str()), (0, ""));
    assert_eq!(listed.stdout, slices(&file, &ranges));

    // any length, over the ends of units, in the hole and behind it
    let mut random = Rng::new(3);
    let ranges: Vec<(usize, usize)> = (0..500)
        .map(|_| {
            let offset = random.index(file.len());
            (offset, random.index(3_000).min(file.len() - offset))
        })
        .collect();
    let listed = temporary.file("ranges", lines(&ranges).as_bytes());
    let out = temporary.path("out");
    let (listed, target) = (listed.to_str().unwrap(), out.to_str().unwrap());
    let words = [
        "read",
        &folder,
        "7",
        "--ranges-from",
        listed,
        "--out",
        target,
    ];
    let expected = slices(&file, &ranges);
    let said = done(&words);
    assert!(
        said.contains(" bytes of 500 ranges in 8 calls into "),
        "{said}"
    );
    assert!(fs::read(&out).unwrap() == expected);

    // the same from standard input
    let piped = fed(
        &["read", &folder, "7", "--ranges-from=-"],
        lines(&ranges).as_bytes(),
    );
    assert_eq!((code(&piped), err(&piped).as_str()), (0, ""));
    assert!(piped.stdout == expected);
}

#[test]
fn a_long_range_is_several_reads_of_one_call() {
    let temporary = Temporary::new();
    let (folder, file) = made(&temporary);
    let out = temporary.path("out");
    let target = out.to_str().unwrap();
    // 5, 1 and 3 reads of at most 1 MiB
    let ranges = [(1_000, 4_500_000), (9, 1), (6_000_000, 3_000_000)];
    let words = "1000:4500000,9:1,6000000:3000000";
    let said = done(&["read", &folder, "7", "--ranges", words, "--out", target]);
    assert!(
        said.starts_with("read 7,500,001 bytes of 3 ranges in 1 call into "),
        "{said}"
    );
    assert!(fs::read(&out).unwrap() == slices(&file, &ranges));
}

#[test]
fn a_range_past_the_end_gives_what_there_is_and_says_so() {
    let temporary = Temporary::new();
    let (folder, file) = made(&temporary);
    let size = file.len();
    let listed = lines(&[(0, 10), (size - 4, 9), (size, 0), (size + 1, 5), (5, 5)]);
    let listed = temporary.file("ranges", listed.as_bytes());
    let listed = listed.to_str().unwrap();
    let read = run(&["read", &folder, "7", "--ranges-from", listed]);
    assert_eq!(code(&read), 0);
    assert_eq!(
        read.stdout,
        slices(&file, &[(0, 10), (size - 4, 4), (5, 5)])
    );
    let says = err(&read);
    assert!(
        says.starts_with("sangueko: the file ends at byte 9,603,600, so that 2 of 5 ranges gave")
            && says.ends_with("the first is range 2, with 4 of 9 bytes\n"),
        "{says}"
    );

    // any number may be asked for
    let all = run(&["read", &folder, "7", "--ranges", "0:18446744073709551615"]);
    assert_eq!(code(&all), 0);
    assert!(all.stdout == file);
    let none = run(&["read", &folder, "7", "--ranges", "18446744073709551615:1"]);
    assert_eq!((code(&none), none.stdout.len()), (0, 0));
}

#[test]
fn a_list_without_ranges_is_read_too() {
    let temporary = Temporary::new();
    let (folder, _) = made(&temporary);
    let listed = temporary.file("ranges", b"# none today\n\n");
    let out = temporary.path("out");
    let words = [
        "read",
        &folder,
        "7",
        "--ranges-from",
        listed.to_str().unwrap(),
        "--out",
        out.to_str().unwrap(),
    ];
    assert!(done(&words).starts_with("read 0 bytes of 0 ranges in 1 call into "));
    assert_eq!(fs::read(&out).unwrap(), b"");
    // a call is made, and can be refused
    fs::write(format!("{folder}/head"), b"short").unwrap();
    assert!(refused(&words, 1).contains("read of no range: refused by 1"));
}

#[test]
fn a_refused_range_is_named_and_nothing_is_written() {
    let temporary = Temporary::new();
    let (folder, _) = made(&temporary);
    let out = temporary.file("out", b"as it was");
    let target = out.to_str().unwrap();
    let image = temporary.path("store").join("image");
    let mut damaged = fs::read(&image).unwrap();
    // a byte of unit 2
    damaged[2 * 65_536 + 5_000] ^= 1;
    fs::write(&image, damaged).unwrap();

    let read = |words: &str| {
        refused(
            &["read", &folder, "7", "--ranges", words, "--out", target],
            12,
        )
    };
    let says = read("5:10,200000:10,131072:1,131073:1");
    assert!(
        says.contains("read of file 7 at byte 131,072 (range 3): refused by 12"),
        "{says}"
    );
    // in the second call: the first one gave its bytes, and they go nowhere
    let words = format!("{}140000:5", "5:10,".repeat(64));
    let says = read(&words);
    assert!(says.contains("at byte 140,000 (range 65)"), "{says}");
    // in a part of a long range
    let says = read("5:1,65536:2000000");
    assert!(says.contains("at byte 65,536 (range 2)"), "{says}");
    let none = ["read", &folder, "9", "--ranges", "0:0", "--out", target];
    assert!(refused(&none, 3).contains("read of file 9 at byte 0 (range 1)"));
    assert_eq!(fs::read(&out).unwrap(), b"as it was");
    assert!(!temporary.path("out.sangueko-part").exists());

    // the units beside it are well
    assert_eq!(
        code(&run(&[
            "read",
            &folder,
            "7",
            "--ranges",
            "131000:72,196608:5"
        ])),
        0
    );
}

#[test]
fn wrong_ranges_end_with_64() {
    let temporary = Temporary::new();
    let (folder, _) = made(&temporary);
    let wrong = [
        "",
        "5",
        "5:",
        ":5",
        "5:6,",
        "1,000:5",
        "5:-6",
        "0:18446744073709551616",
    ];
    for words in wrong {
        let says = refused(&["read", &folder, "7", "--ranges", words], 64);
        assert!(says.contains("--ranges: `"), "{words}: {says}");
    }
    let listed = |text: &str| temporary.file("ranges", text.as_bytes());
    for text in ["0 1\n\n5", "0 1\n \n5 6 7\n", "0 1\n#\n5:6", "0 1\n\n5 six"] {
        let path = listed(text);
        let path = path.to_str().unwrap();
        let says = refused(&["read", &folder, "7", "--ranges-from", path], 64);
        assert!(says.contains("ranges, line 3: `"), "{text}: {says}");
    }
    let path = listed("0 1");
    let path = path.to_str().unwrap();
    let both: [&[&str]; 3] = [
        &["--ranges", "0:1", "--ranges-from", path],
        &["--ranges", "0:1", "--at", "5"],
        &["--ranges-from", path, "--length", "5"],
    ];
    for options in both {
        let words = [&["read", &folder, "7"], options].concat();
        assert!(refused(&words, 64).contains("choose one"), "{words:?}");
    }
    let missing = ["read", &folder, "7", "--ranges-from", "no-such-file"];
    assert!(refused(&missing, 74).contains("no-such-file"));
}
