//! What the tests share: folders that go away, the program, and stores to
//! compare with.

#![allow(dead_code)]

use std::fs;
use std::io::Write;
use std::path::{Path, PathBuf};
use std::process::{Command, Output, Stdio};
use std::sync::atomic::{AtomicU32, Ordering};

use sangueko::{Places, StoreBuf};
use tool::buffer::Buffer;

pub const PROGRAM: &str = env!("CARGO_BIN_EXE_sangueko");
pub const UUID: [u8; 16] = [7; 16];
pub const UUID_DIGITS: &str = "07070707070707070707070707070707";

/// A folder of its own for each test, taken away at its end.
pub struct Temporary(PathBuf);

impl Temporary {
    pub fn new() -> Self {
        static NUMBER: AtomicU32 = AtomicU32::new(0);
        let number = NUMBER.fetch_add(1, Ordering::Relaxed);
        let name = format!("sangueko-tool-{}-{number}", std::process::id());
        let path = std::env::temp_dir().join(name);
        fs::create_dir_all(&path).unwrap();
        Self(path)
    }

    pub fn path(&self, name: &str) -> PathBuf {
        self.0.join(name)
    }

    pub fn file(&self, name: &str, bytes: &[u8]) -> PathBuf {
        let path = self.path(name);
        fs::write(&path, bytes).unwrap();
        path
    }
}

impl Drop for Temporary {
    fn drop(&mut self) {
        let _ = fs::remove_dir_all(&self.0);
    }
}

/// The program with these words; a folder's path is a word like any other.
pub fn command(words: &[&str]) -> Command {
    let mut command = Command::new(PROGRAM);
    command.args(words).stdin(Stdio::null());
    command
}

pub fn run(words: &[&str]) -> Output {
    command(words).output().unwrap()
}

pub fn fed(words: &[&str], bytes: &[u8]) -> Output {
    let mut command = command(words);
    command
        .stdin(Stdio::piped())
        .stdout(Stdio::piped())
        .stderr(Stdio::piped());
    let mut child = command.spawn().unwrap();
    // a program that ends early closes its input
    let _ = child.stdin.take().unwrap().write_all(bytes);
    child.wait_with_output().unwrap()
}

pub fn code(output: &Output) -> i32 {
    output.status.code().unwrap()
}

pub fn out(output: &Output) -> String {
    String::from_utf8(output.stdout.clone()).unwrap()
}

pub fn err(output: &Output) -> String {
    String::from_utf8(output.stderr.clone()).unwrap()
}

/// Runs it, sees that it was accepted and gives what it printed.
pub fn done(words: &[&str]) -> String {
    let output = run(words);
    assert_eq!(code(&output), 0, "{words:?}: {}", err(&output));
    assert_eq!(err(&output), "", "{words:?}");
    out(&output)
}

/// Runs it, sees the exit code and gives the message.
pub fn refused(words: &[&str], number: i32) -> String {
    let output = run(words);
    let message = err(&output);
    assert_eq!(code(&output), number, "{words:?}: {message}");
    assert!(message.starts_with("sangueko: "), "{message}");
    message
}

/// The seven files.
pub fn store_in(folder: &Path) -> StoreBuf {
    let read = |buffer: Buffer| fs::read(folder.join(buffer.name())).unwrap();
    StoreBuf {
        image: read(Buffer::Image),
        head: read(Buffer::Head),
        cards: read(Buffer::Cards),
        extents: read(Buffer::Extents),
        groups: read(Buffer::Groups),
        used: read(Buffer::Used),
        retired: read(Buffer::Retired),
    }
}

/// A folder of these seven files, as another program might write it.
pub fn put_store(store: &StoreBuf, folder: &Path) {
    fs::create_dir_all(folder).unwrap();
    for buffer in Buffer::ALL {
        fs::write(folder.join(buffer.name()), buffer.of(store)).unwrap();
    }
}

pub fn fresh(blocks: usize, reserved: u64, places: Places) -> StoreBuf {
    let mut store = StoreBuf::new(blocks, places).unwrap();
    store.lend().fresh(&UUID, reserved).unwrap();
    store
}

pub const PLACES: Places = Places {
    cards: 4,
    extents: 32,
    groups: 4,
};

/// Document 01's layout history: 8 blocks, 1 reserved; file 7 of 9,000 bytes, 10
/// of them written again, grown after a settle.
pub fn layout() -> StoreBuf {
    let mut buffers = fresh(8, 1, PLACES);
    let mut store = buffers.lend();
    store.enter(7, 1_700_000_000, 0).unwrap();
    store.write(7, 0, &[1; 9_000], 1_700_000_001, 0).unwrap();
    store.write(7, 5_000, &[2; 10], 1_700_000_002, 0).unwrap();
    assert!(store.grow(7, 20_000, 1_700_000_003, 0).is_err());
    store.settle().unwrap();
    store.grow(7, 20_000, 1_700_000_004, 0).unwrap();
    buffers
}

/// Bytes that differ from place to place.
pub fn bytes(length: usize, seed: u64) -> Vec<u8> {
    let mut random = random::Rng::new(seed);
    (0..length).map(|_| random.next_u64() as u8).collect()
}
