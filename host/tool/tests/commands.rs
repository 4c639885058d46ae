//! Every command, from its words to the bytes of the seven files.

mod common;

use std::fs;

use common::*;
use sangueko::{Places, Refusal};

#[test]
fn a_history_leaves_the_bytes_that_the_calls_leave() {
    let temporary = Temporary::new();
    let store = temporary.path("store");
    let folder = store.to_str().unwrap();
    let made = done(&[
        "new",
        folder,
        "--blocks",
        "64",
        "--reserved=2",
        "--cards",
        "3",
        "--extents",
        "20",
        "--groups",
        "4",
        "--uuid",
        UUID_DIGITS,
    ]);
    assert!(
        made.contains("64 blocks, 2 reserved; places for 3 cards, 20 extents and 4 groups"),
        "{made}"
    );
    let places = Places {
        cards: 3,
        extents: 20,
        groups: 4,
    };
    let mut expected = fresh(64, 2, places);
    assert_eq!(store_in(&store), expected);

    done(&["enter", folder, "7", "--time", "1700000000.25"]);
    expected
        .lend()
        .enter(7, 1_700_000_000, 250_000_000)
        .unwrap();
    assert_eq!(store_in(&store), expected);

    let first = bytes(90_000, 1);
    let file = temporary.file("bytes", &first);
    let wrote = done(&[
        "write",
        folder,
        "7",
        file.to_str().unwrap(),
        "--time",
        "1700000001",
    ]);
    assert_eq!(wrote, "wrote 90,000 bytes to file 7 at byte 0 in 1 call\n");
    expected
        .lend()
        .write(7, 0, &first, 1_700_000_001, 0)
        .unwrap();
    assert_eq!(store_in(&store), expected);

    let words = [
        "write",
        folder,
        "7",
        "--at",
        "5,000",
        "--time",
        "1700000002",
    ];
    assert_eq!(code(&fed(&words, b"over")), 0);
    expected
        .lend()
        .write(7, 5_000, b"over", 1_700_000_002, 0)
        .unwrap();
    assert_eq!(store_in(&store), expected);

    done(&["grow", folder, "7", "200000", "--time", "1700000003"]);
    expected.lend().grow(7, 200_000, 1_700_000_003, 0).unwrap();
    assert_eq!(store_in(&store), expected);

    assert!(done(&["settle", folder]).starts_with("let "));
    assert!(expected.lend().settle().unwrap() > 0);
    assert_eq!(store_in(&store), expected);

    let fill = expected.lend().fill().unwrap();
    let behind = |n: &usize| *n >= 2 && expected.used[n / 8] >> (n % 8) & 1 == 1;
    let used = (0..64).filter(behind).count();
    assert_eq!(fill, used as u64 * 1_000 / 62);
    assert_eq!(
        done(&["fill", folder]),
        format!("{fill} per mille used: {used} of the 62 blocks that are not reserved\n")
    );
    assert_eq!(
        done(&["fill", folder, "--json"]),
        format!("{{\"per_mille\":{fill},\"used\":{used},\"usable\":62}}\n")
    );

    let mut file = first;
    file[5_000..5_004].copy_from_slice(b"over");
    file.resize(200_000, 0);
    assert_eq!(run(&["read", folder, "7"]).stdout, file);
    assert_eq!(
        run(&["read", folder, "7", "--at", "4999", "--length", "6"]).stdout,
        file[4_999..5_005]
    );
    let target = temporary.path("out");
    let said = done(&[
        "read",
        folder,
        "7",
        "--at=89999",
        "--out",
        target.to_str().unwrap(),
    ]);
    assert!(said.starts_with("read 110,001 bytes into "), "{said}");
    assert_eq!(fs::read(&target).unwrap(), file[89_999..]);
    assert!(!temporary.path("out.sangueko-part").exists());
    assert_eq!(store_in(&store), expected);
    assert!(!store.join("journal").exists());
}

#[test]
fn more_than_a_call_takes_is_several_calls() {
    let temporary = Temporary::new();
    let store = temporary.path("store");
    let folder = store.to_str().unwrap();
    done(&["new", folder, "--blocks", "900", "--uuid", UUID_DIGITS]);
    done(&["enter", folder, "1"]);
    let all = bytes(3_000_000, 2);
    let output = fed(&["write", folder, "1", "--at", "100"], &all);
    assert_eq!(
        out(&output),
        "wrote 3,000,000 bytes to file 1 at byte 100 in 3 calls\n"
    );
    // the calls after the first start with a unit: nothing was written twice
    assert!(done(&["show", folder]).contains("733 of files, 0 retired"));
    assert_eq!(run(&["read", folder, "1", "--at", "100"]).stdout, all);

    // refused on the way: what was stored stays
    let output = fed(&["write", folder, "1", "--at", "3000100"], &all);
    assert_eq!(code(&output), 13);
    assert!(
        err(&output).contains("(nothing was stored)"),
        "{}",
        err(&output)
    );
    done(&["new", &format!("{folder}2"), "--blocks", "300"]);
    let other = format!("{folder}2");
    done(&["enter", &other, "1"]);
    let output = fed(&["write", &other, "1"], &all);
    assert_eq!(code(&output), 13);
    assert!(
        err(&output).contains("at byte 1,048,576 (the first 1,048,576 bytes are stored)"),
        "{}",
        err(&output)
    );
    assert_eq!(run(&["read", &other, "1"]).stdout, all[..1_048_576]);
}

#[test]
fn one_file_feeds_another_of_the_same_folder() {
    let temporary = Temporary::new();
    let store = temporary.path("store");
    let folder = store.to_str().unwrap();
    done(&["new", folder, "--blocks", "2000"]);
    done(&["enter", folder, "1"]);
    done(&["enter", folder, "2"]);
    let all = bytes(2_500_000, 3);
    assert_eq!(code(&fed(&["write", folder, "1"], &all)), 0);
    let mut reader = command(&["read", folder, "1"]);
    let mut reader = reader.stdout(std::process::Stdio::piped()).spawn().unwrap();
    let mut writer = command(&["write", folder, "2", "-"]);
    let writer = writer
        .stdin(reader.stdout.take().unwrap())
        .output()
        .unwrap();
    assert_eq!(code(&writer), 0, "{}", err(&writer));
    assert!(reader.wait().unwrap().success());
    assert_eq!(run(&["read", folder, "2"]).stdout, all);
}

#[test]
fn show_draws_the_layout_store() {
    let temporary = Temporary::new();
    let store = temporary.path("store");
    let folder = store.to_str().unwrap();
    put_store(&layout(), &store);
    let shown = done(&["show", folder]);
    assert!(shown.contains("\n  0  #AAAA~A.\n"), "{shown}");
    assert!(
        shown.contains("\n  7 0 1 1\n  7 1 4 1\n  7 2 2 2\n  7 4 6 1\n"),
        "{shown}"
    );
    assert!(
        shown.contains("857 per mille used: 6 of the 7 blocks that are not reserved\n"),
        "{shown}"
    );
    let fill = done(&["fill", folder, "--json"]);
    assert_eq!(fill, "{\"per_mille\":857,\"used\":6,\"usable\":7}\n");
    assert!(shown.contains("5 blocks in 4 pieces"), "{shown}");
    assert!(
        shown.contains("1 reserved, 5 of files, 1 retired; 1 free block in 1 gap"),
        "{shown}"
    );
    assert!(
        shown.contains("the files lie in 4 pieces; 1 would do"),
        "{shown}"
    );

    let json = done(&["show", folder, "--json"]);
    assert!(json.contains("\"map\":\"#AAAA~A.\""), "{json}");
    assert!(
        json.contains("\"per_mille\":857,\"used\":6,\"usable\":7,"),
        "{json}"
    );
    assert!(
        json.contains("{\"object\":7,\"logical\":2,\"physical\":2,\"count\":2}"),
        "{json}"
    );

    let svg = temporary.path("map.svg");
    done(&["show", folder, "--svg", svg.to_str().unwrap()]);
    let svg = fs::read_to_string(svg).unwrap();
    assert!(svg.starts_with("<svg ") && svg.ends_with("</svg>\n"));
    assert!(
        svg.contains(">8 blocks, 85.7 % used of the 7 not reserved</text>"),
        "{svg}"
    );
    // the bar: of 768, one reserved block of 8, then the file's five
    let bar = "<rect x=\"112\" y=\"36\" width=\"480\" height=\"20\" fill=\"#4285f4\"";
    assert!(svg.contains(bar), "{svg}");
    assert!(
        svg.contains("<title>file 7: blocks 1 to 4</title>"),
        "{svg}"
    );
    assert!(
        svg.contains("<title>retired: blocks 5 to 5</title>"),
        "{svg}"
    );
    // every tag is closed
    assert_eq!(svg.matches('<').count(), svg.matches('>').count());
}

/// W-205: when a file was created, which stays, and when it last changed.
#[test]
fn show_tells_both_times() {
    let temporary = Temporary::new();
    let store = temporary.path("store");
    let folder = store.to_str().unwrap();
    done(&["new", folder, "--blocks", "8"]);
    done(&["enter", folder, "7", "--time", "1700000000.25"]);
    let expect = |changed: &str, seconds: u64, nanoseconds: u64| {
        let times = format!("created 2023-11-14 22:13:20.250000000 UTC, changed {changed} UTC\n");
        let shown = done(&["show", folder]);
        assert!(shown.contains(&times), "{shown}");
        let fields = format!(
            "\"seconds\":{seconds},\"nanoseconds\":{nanoseconds},\
             \"created_seconds\":1700000000,\"created_nanoseconds\":250000000,"
        );
        let json = done(&["show", folder, "--json"]);
        assert!(json.contains(&fields), "{json}");
    };
    expect("2023-11-14 22:13:20.250000000", 1_700_000_000, 250_000_000);
    let written = fed(&["write", folder, "7", "--time", "1700000001"], b"bytes");
    assert_eq!(code(&written), 0);
    expect("2023-11-14 22:13:21.000000000", 1_700_000_001, 0);
    done(&["grow", folder, "7", "100", "--time", "1700000002.5"]);
    expect("2023-11-14 22:13:22.500000000", 1_700_000_002, 500_000_000);
    let batched = fed(&["batch", folder, "--time", "0.000000001"], b"7 0 00ff\n");
    assert_eq!(code(&batched), 0);
    done(&["settle", folder]);
    expect("1970-01-01 00:00:00.000000001", 0, 1);
}

/// W-202: what `fill` divides by, down to no block at all.
#[test]
fn fill_says_what_it_divides_by() {
    let temporary = Temporary::new();
    let told = |blocks: &str, reserved: &str| {
        let folder = temporary.path(&format!("{reserved} of {blocks}"));
        let folder = folder.to_str().unwrap();
        done(&["new", folder, "--blocks", blocks, "--reserved", reserved]);
        let shown = done(&["show", folder]);
        let told = done(&["fill", folder]);
        assert!(shown.contains(&format!("\nfullness    {told}")), "{shown}");
        (told, done(&["fill", folder, "--json"]))
    };
    assert_eq!(
        told("2000", "0"),
        (
            "0 per mille used: 0 of the 2,000 blocks that are not reserved\n".into(),
            "{\"per_mille\":0,\"used\":0,\"usable\":2000}\n".into()
        )
    );
    assert_eq!(
        told("4", "3"),
        (
            "0 per mille used: 0 of the 1 block that is not reserved\n".into(),
            "{\"per_mille\":0,\"used\":0,\"usable\":1}\n".into()
        )
    );
    assert_eq!(
        told("4", "4"),
        (
            "0 per mille used: every block is reserved\n".into(),
            "{\"per_mille\":0,\"used\":0,\"usable\":0}\n".into()
        )
    );
    let (folder, svg) = (temporary.path("4 of 4"), temporary.path("map.svg"));
    let words = [
        "show",
        folder.to_str().unwrap(),
        "--svg",
        svg.to_str().unwrap(),
    ];
    done(&words);
    let svg = fs::read_to_string(svg).unwrap();
    assert!(svg.contains(">4 blocks, all reserved</text>"), "{svg}");
}

#[test]
fn explain_has_a_word_on_every_refusal() {
    for refusal in Refusal::ALL {
        let text = done(&["explain", &refusal.number().to_string()]);
        assert!(text.contains(&refusal.to_string()), "{text}");
        assert!(text.contains("What to do: "), "{text}");
    }
    assert!(refused(&["explain", "20"], 64).contains("1 to 19"));
    refused(&["explain", "0"], 64);
}

#[test]
fn the_exit_code_is_the_refusal() {
    let temporary = Temporary::new();
    let store = temporary.path("store");
    let folder = store.to_str().unwrap();
    let says = refused(&["new", folder, "--blocks", "70000"], 1);
    assert!(
        says.contains("refused by 1") && says.contains("1 to 65,536 blocks"),
        "{says}"
    );
    assert!(says.contains("asked for were 70,000 blocks"), "{says}");
    refused(&["new", folder, "--blocks", "0"], 1);
    refused(&["new", folder, "--blocks", "8", "--reserved", "9"], 1);
    assert!(!store.exists());
    done(&[
        "new",
        folder,
        "--blocks",
        "40",
        "--reserved",
        "1",
        "--cards",
        "1",
        "--extents",
        "1",
        "--groups",
        "1",
    ]);
    refused(&["grow", folder, "7", "1"], 3);
    refused(&["read", folder, "7"], 3);
    refused(&["write", folder, "7"], 3);
    refused(&["flags", folder, "7"], 3);
    refused(&["data", folder, "7"], 3);
    refused(&["enter", folder, "7", "--time", "9223372036854775808"], 7);
    done(&["enter", folder, "7"]);
    refused(&["enter", folder, "7"], 4);
    refused(&["enter", folder, "8"], 8);
    refused(&["grow", folder, "7", "9223372036854775808"], 5);
    done(&["grow", folder, "7", "100000000"]);
    refused(&["grow", folder, "7", "1"], 6);
    refused(&["data", folder, "7", "1", "18446744073709551615"], 19);
    assert_eq!(code(&fed(&["write", folder, "7"], &[1; 200_000])), 13);
    assert_eq!(code(&fed(&["write", folder, "7"], &[1; 10])), 0);
    assert_eq!(
        code(&fed(&["write", folder, "7", "--at", "50000000"], &[1; 10])),
        15
    );
    assert_eq!(
        code(&fed(&["write", folder, "7", "--at", "5000000"], &[1; 10])),
        16
    );
    // nothing of all that has done harm
    assert!(done(&["check", folder]).ends_with("accepted\n"));
}

#[test]
fn wrong_words_end_with_64() {
    let cases: [&[&str]; 12] = [
        &[],
        &["made-up"],
        &["new"],
        &["enter", "folder"],
        &["fill", "folder", "more"],
        &["fill", "folder", "--made-up"],
        &["enter", "folder", "seven"],
        &["enter", "folder", "7", "--time"],
        &["enter", "folder", "7", "--time", "now"],
        &["new", "folder", "--uuid", "12"],
        &["show", "folder", "--columns", "0"],
        &["data", "folder"],
    ];
    for words in cases {
        assert!(refused(words, 64).contains("--help"), "{words:?}");
    }
}

#[test]
fn every_command_has_help() {
    let top = done(&["--help"]);
    for name in [
        "new", "enter", "write", "batch", "read", "grow", "settle", "fill", "show", "check",
        "data", "flags", "explain",
    ] {
        assert!(top.contains(&format!("sangueko {name} ")), "{name}");
        let help = done(&[name, "--help"]);
        assert!(help.starts_with(&format!("sangueko {name} ")), "{help}");
    }
    assert!(top.contains("64 the command line") && top.contains("75 another process"));
}

#[test]
fn a_closed_output_is_no_panic() {
    let temporary = Temporary::new();
    let store = temporary.path("store");
    let folder = store.to_str().unwrap();
    done(&["new", folder, "--blocks", "8"]);
    done(&["enter", folder, "1"]);
    done(&["grow", folder, "1", "100000000"]);
    let mut child = command(&["read", folder, "1"])
        .stdout(std::process::Stdio::piped())
        .stderr(std::process::Stdio::piped())
        .spawn()
        .unwrap();
    drop(child.stdout.take());
    let output = child.wait_with_output().unwrap();
    assert_eq!((code(&output), err(&output).as_str()), (74, ""));
}
