//! Folders that are no store, or not quite; disks that are full.

mod common;

use std::fs::{self, OpenOptions};
use std::process::Command;

use common::*;
use tool::buffer::Buffer;

#[test]
fn what_is_no_store_is_said_and_left() {
    let temporary = Temporary::new();
    let none = temporary.path("none");
    let message = refused(&["fill", none.to_str().unwrap()], 66);
    assert!(
        message.contains("there is no folder") && message.contains("sangueko new"),
        "{message}"
    );
    let file = temporary.file("file", b"kept");
    let message = refused(&["fill", file.to_str().unwrap()], 66);
    assert!(message.contains("is a file"), "{message}");
    let empty = temporary.path("empty");
    fs::create_dir(&empty).unwrap();
    let message = refused(&["settle", empty.to_str().unwrap()], 66);
    assert!(message.contains("none of the files"), "{message}");
    assert_eq!(fs::read_dir(&empty).unwrap().count(), 0);

    // an empty folder may become one, no other
    done(&["new", empty.to_str().unwrap(), "--blocks", "1"]);
    let before = store_in(&empty);
    let message = refused(&["new", empty.to_str().unwrap()], 66);
    assert!(message.contains("untouched"), "{message}");
    assert_eq!(store_in(&empty), before);
    refused(&["new", file.to_str().unwrap()], 66);
    assert_eq!(fs::read(&file).unwrap(), b"kept");
    let deep = temporary.path("no/where");
    refused(&["new", deep.to_str().unwrap()], 74);
    refused(&["new", ".."], 64);
}

#[test]
fn a_missing_file_is_named() {
    let temporary = Temporary::new();
    let store = temporary.path("store");
    let folder = store.to_str().unwrap();
    for buffer in Buffer::ALL {
        put_store(&layout(), &store);
        fs::remove_file(store.join(buffer.name())).unwrap();
        for words in ["fill", "settle", "check"] {
            let message = refused(&[words, folder], 66);
            assert!(
                message.contains(&format!("lacks the file {}", buffer.name())),
                "{message}"
            );
        }
        assert!(!store.join(buffer.name()).exists());
    }
}

#[test]
fn a_file_of_a_wrong_length_is_refusal_1() {
    let temporary = Temporary::new();
    let store = temporary.path("store");
    let folder = store.to_str().unwrap();
    let whole = layout();
    for buffer in Buffer::ALL {
        let length = buffer.of(&whole).len() as u64;
        for wrong in [0, length - 1, length + 1, buffer.most() + 1_000_000] {
            if wrong == 0
                && !matches!(
                    buffer,
                    Buffer::Image | Buffer::Head | Buffer::Used | Buffer::Retired
                )
            {
                continue;
            }
            put_store(&whole, &store);
            let file = OpenOptions::new()
                .write(true)
                .open(store.join(buffer.name()))
                .unwrap();
            file.set_len(wrong).unwrap();
            let message = refused(&["settle", folder], 1);
            assert!(
                message.contains(&format!("where   file {}", buffer.name())),
                "{message}"
            );
            assert!(message.contains("rule    refusal 1: "), "{message}");
            let grouped = message.replace(',', "");
            assert!(
                grouped.contains(&format!("{wrong} byte")),
                "{wrong}: {message}"
            );
            assert_eq!(file.metadata().unwrap().len(), wrong);
        }
    }
}

/// The limit on a file's length stands for a disk that is full: no byte more can
/// be written, and the folder stays as it was.
#[test]
fn a_disk_without_room_loses_nothing() {
    let temporary = Temporary::new();
    let store = temporary.path("store");
    let folder = store.to_str().unwrap();
    done(&["new", folder, "--blocks", "100"]);
    done(&["enter", folder, "1"]);
    let before = store_in(&store);
    let source = temporary.file("bytes", &bytes(200_000, 1));
    let limited = |words: &str| {
        let script = format!("trap '' XFSZ; ulimit -f 64; exec \"$0\" {words}");
        Command::new("sh")
            .args(["-c", &script, PROGRAM, folder])
            .arg(&source)
            .output()
            .unwrap()
    };
    let output = limited("write \"$1\" 1 \"$2\"");
    assert_eq!(code(&output), 74, "{}", err(&output));
    assert!(
        err(&output).contains("as it was before the call"),
        "{}",
        err(&output)
    );
    assert!(store_in(&store) == before);
    assert!(!store.join("journal.new").exists() && !store.join("journal").exists());
    done(&["check", folder]);

    let output = limited("new \"$1-2\"");
    assert_eq!(code(&output), 74, "{}", err(&output));
    let left = fs::read_dir(store.parent().unwrap()).unwrap();
    let left: Vec<_> = left.map(|entry| entry.unwrap().file_name()).collect();
    assert_eq!(left.len(), 2, "{left:?}");

    // a file that cannot take all that is read stays as it was
    done(&["write", folder, "1", source.to_str().unwrap()]);
    fs::write(&source, b"kept").unwrap();
    let output = limited("read \"$1\" 1 --out \"$2\"");
    assert_eq!(code(&output), 74, "{}", err(&output));
    assert_eq!(fs::read(&source).unwrap(), b"kept");
    assert!(!temporary.path("bytes.sangueko-part").exists());
}
