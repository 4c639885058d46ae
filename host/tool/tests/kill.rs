//! The program killed at random moments: the folder is as it was before or after
//! some whole call.

mod common;

use std::time::{Duration, Instant};

use common::*;
use random::Rng;
use sangueko::StoreBuf;

const WRITES: usize = 60;

/// The store after each call of a write, as the program divides it.
fn states(start: &StoreBuf, offset: u64, bytes: &[u8], archive: bool) -> Vec<StoreBuf> {
    let mut states = vec![start.clone()];
    let (mut at, mut rest) = (offset, bytes);
    while !rest.is_empty() {
        let mut next = states[states.len() - 1].clone();
        let most = (1_048_576 - at % 65_536) as usize;
        let part = &rest[..rest.len().min(most)];
        let mut lent = next.lend();
        let taken = if archive {
            lent.write_archive(1, at, part, 5, 0)
        } else {
            lent.write(1, at, part, 5, 0)
        };
        if taken.is_err() {
            break;
        }
        states.push(next);
        at += part.len() as u64;
        rest = &rest[part.len()..];
    }
    states
}

/// By turns without and with `--archive`.
#[test]
fn killed_at_random_the_folder_is_a_whole_number_of_calls() {
    let temporary = Temporary::new();
    let store = temporary.path("store");
    let folder = store.to_str().unwrap();
    done(&["new", folder, "--blocks", "2048", "--uuid", UUID_DIGITS]);
    done(&["enter", folder, "1"]);
    let mut random = Rng::new(3);
    let mut whole = Duration::from_millis(50);
    let (mut killed, mut between, mut pending) = (0, 0, 0);
    for round in 0..WRITES {
        let start = store_in(&store);
        let bytes = bytes(1_000 + random.index(2_500_000), round as u64);
        let offset = random.below(1_000_000);
        let source = temporary.file("bytes", &bytes);
        let archive = round % 2 == 1;
        let states = states(&start, offset, &bytes, archive);
        let at = offset.to_string();
        let mut words = vec![
            "write",
            folder,
            "1",
            source.to_str().unwrap(),
            "--at",
            &at,
            "--time",
            "5",
        ];
        words.extend(archive.then_some("--archive"));
        let began = Instant::now();
        let mut child = command(&words)
            .stdout(std::process::Stdio::null())
            .stderr(std::process::Stdio::null())
            .spawn()
            .unwrap();
        // every tenth write shows how long one takes
        if round % 10 != 0 {
            let pause = random.below(whole.as_micros() as u64 * 12 / 10 + 1);
            std::thread::sleep(Duration::from_micros(pause));
            let _ = child.kill();
        }
        killed += usize::from(child.wait().unwrap().code().is_none());
        if round % 10 == 0 {
            whole = began.elapsed();
        }
        pending += usize::from(store.join("journal").exists());
        let checked = done(&["check", folder]);
        assert!(checked.ends_with("accepted\n"), "{checked}");
        let now = store_in(&store);
        let calls = states.iter().position(|state| *state == now);
        let calls = calls.unwrap_or_else(|| panic!("round {round}: no whole number of calls"));
        between += usize::from(calls > 0 && calls + 1 < states.len());
        done(&["settle", folder]);
    }
    println!("{killed} of {WRITES} killed, {between} between calls, {pending} with a journal left");
    assert!(killed > WRITES / 4, "{killed} killed");
}

/// Batches of three calls, 150 writes each: of a call the folder has all writes
/// or none.
#[test]
fn killed_in_a_batch_the_folder_is_a_whole_number_of_calls() {
    let temporary = Temporary::new();
    let store = temporary.path("store");
    let folder = store.to_str().unwrap();
    done(&["new", folder, "--blocks", "1000", "--uuid", UUID_DIGITS]);
    done(&["enter", folder, "1"]);
    let mut random = Rng::new(5);
    let mut whole = Duration::from_millis(50);
    let (mut killed, mut between) = (0, 0);
    for round in 0..30 {
        let mut states = vec![store_in(&store)];
        let mut list = String::new();
        for call in [64, 64, 22] {
            let mut next = states[states.len() - 1].clone();
            for _ in 0..call {
                let (offset, byte) = (random.below(12_000), random.next_u64() as u8);
                next.lend().write(1, offset, &[byte], 5, 0).unwrap();
                list += &format!("1 {offset} {byte:02x}\n");
            }
            states.push(next);
        }
        let listed = temporary.file("list", list.as_bytes());
        let words = ["batch", folder, listed.to_str().unwrap(), "--time", "5"];
        let began = Instant::now();
        let mut child = command(&words)
            .stdout(std::process::Stdio::null())
            .spawn()
            .unwrap();
        // every tenth shows how long one takes
        if round % 10 != 0 {
            let pause = random.below(whole.as_micros() as u64 * 12 / 10 + 1);
            std::thread::sleep(Duration::from_micros(pause));
            let _ = child.kill();
        }
        killed += usize::from(child.wait().unwrap().code().is_none());
        if round % 10 == 0 {
            whole = began.elapsed();
        }
        let checked = done(&["check", folder]);
        assert!(checked.ends_with("accepted\n"), "{checked}");
        let now = store_in(&store);
        let calls = states.iter().position(|state| *state == now);
        let calls = calls.unwrap_or_else(|| panic!("round {round}: no whole number of calls"));
        between += usize::from(calls > 0 && calls + 1 < states.len());
        done(&["settle", folder]);
    }
    println!("{killed} of 30 killed, {between} between calls");
    assert!(killed > 30 / 4, "{killed} killed");
}

#[test]
fn a_new_store_is_there_whole_or_not_at_all() {
    let temporary = Temporary::new();
    let began = Instant::now();
    done(&[
        "new",
        temporary.path("first").to_str().unwrap(),
        "--blocks",
        "1000",
    ]);
    let whole = began.elapsed().as_micros() as u64;
    let mut random = Rng::new(4);
    let (mut made, mut none) = (0, 0);
    for round in 0..30 {
        let store = temporary.path(&format!("store-{round}"));
        let folder = store.to_str().unwrap();
        let mut child = command(&["new", folder, "--blocks", "1000"])
            .stdout(std::process::Stdio::null())
            .spawn()
            .unwrap();
        std::thread::sleep(Duration::from_micros(random.below(whole * 3 / 2)));
        let _ = child.kill();
        child.wait().unwrap();
        if store.exists() {
            made += 1;
        } else {
            // what the killed one left is no hindrance
            done(&["new", folder, "--blocks", "1000"]);
            none += 1;
        }
        done(&["check", folder]);
        assert!(
            !temporary
                .path(&format!("store-{round}.sangueko-new"))
                .exists()
        );
    }
    println!("{made} made, {none} not");
}
