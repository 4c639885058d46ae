//! Several processes on one folder.

mod common;

use std::fs::File;
use std::io::{BufRead, BufReader, Read};
use std::process::Stdio;
use std::time::{Duration, Instant};

use common::*;

#[test]
fn a_second_process_waits_or_is_told() {
    let temporary = Temporary::new();
    let store = temporary.path("store");
    let folder = store.to_str().unwrap();
    put_store(&layout(), &store);
    done(&["fill", folder]);
    let lock = File::open(store.join("lock")).unwrap();
    lock.lock().unwrap();
    for words in ["fill", "settle", "check", "show"] {
        let message = refused(&[words, folder, "--no-wait"], 75);
        assert!(message.contains("another process"), "{message}");
    }
    refused(&["enter", folder, "8", "--no-wait"], 75);

    let began = Instant::now();
    let mut waits = command(&["settle", folder])
        .stdout(Stdio::piped())
        .stderr(Stdio::piped())
        .spawn()
        .unwrap();
    let mut line = String::new();
    let mut said = BufReader::new(waits.stderr.take().unwrap());
    said.read_line(&mut line).unwrap();
    assert!(line.contains("waiting"), "{line}");
    assert!(began.elapsed() >= Duration::from_secs(1));
    assert!(waits.try_wait().unwrap().is_none());
    lock.unlock().unwrap();
    assert_eq!(waits.wait().unwrap().code(), Some(0));
    let mut out = String::new();
    waits
        .stdout
        .take()
        .unwrap()
        .read_to_string(&mut out)
        .unwrap();
    assert_eq!(out, "let 1 retired block go\n");
}

#[test]
fn readers_do_not_wait_for_readers() {
    let temporary = Temporary::new();
    let store = temporary.path("store");
    let folder = store.to_str().unwrap();
    put_store(&layout(), &store);
    done(&["fill", folder]);
    let lock = File::open(store.join("lock")).unwrap();
    lock.lock_shared().unwrap();
    done(&["fill", folder, "--no-wait"]);
    done(&["check", folder, "--no-wait"]);
    refused(&["settle", folder, "--no-wait"], 75);
}

#[test]
fn writers_of_one_folder_come_one_after_the_other() {
    let temporary = Temporary::new();
    let store = temporary.path("store");
    let folder = store.to_str().unwrap();
    done(&["new", folder, "--blocks", "2000"]);
    let source = temporary.file("bytes", &bytes(100_000, 1));
    let source = source.to_str().unwrap();
    for object in 0..8 {
        done(&["enter", folder, &object.to_string()]);
    }
    let writers: Vec<_> = (0..8)
        .map(|object: u64| {
            command(&["write", folder, &object.to_string(), source])
                .stdout(Stdio::null())
                .spawn()
                .unwrap()
        })
        .collect();
    for mut writer in writers {
        assert!(writer.wait().unwrap().success());
    }
    for object in 0..8 {
        assert_eq!(
            run(&["read", folder, &object.to_string()]).stdout,
            bytes(100_000, 1)
        );
    }
    done(&["check", folder]);
}

#[test]
fn of_two_that_make_one_folder_one_succeeds() {
    let temporary = Temporary::new();
    for round in 0..10 {
        let store = temporary.path(&format!("store-{round}"));
        let folder = store.to_str().unwrap();
        let makers: Vec<_> = (0..3)
            .map(|_| {
                command(&["new", folder, "--blocks", "100"])
                    .stdout(Stdio::null())
                    .stderr(Stdio::null())
                    .spawn()
                    .unwrap()
            })
            .collect();
        let codes: Vec<_> = makers
            .into_iter()
            .map(|mut maker| maker.wait().unwrap().code())
            .collect();
        let made = codes.iter().filter(|code| **code == Some(0)).count();
        assert_eq!(made, 1, "{codes:?}");
        done(&["check", folder]);
    }
}
