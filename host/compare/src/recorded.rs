//! The recorded answers: histories of calls with their stores and answers in
//! a binary form that a small byte parser reads. recorded/README.md gives it.

use model::{Answer, Call, Store, Time};

pub const MAGIC: &[u8; 8] = b"SGKREC01";

/// Where an answer comes from.
#[derive(Clone, Copy, Debug, PartialEq, Eq)]
pub enum Source {
    /// The Rust has no counterpart, or does not see such a store.
    Document,
    /// Document and Rust give the same.
    Both,
    /// A listed difference, by its place in the list: the answer is the
    /// document's.
    Differs(u8),
}

impl Source {
    fn byte(self) -> u8 {
        match self {
            Self::Document => 0,
            Self::Both => 1,
            Self::Differs(listed) => 2 + listed,
        }
    }

    fn of(byte: u8) -> Self {
        match byte {
            0 => Self::Document,
            1 => Self::Both,
            listed => Self::Differs(listed - 2),
        }
    }
}

/// One recorded call with the store before and after it.
#[derive(Clone, Debug, PartialEq, Eq)]
pub struct Case {
    pub before: Store,
    pub call: Call,
    pub source: Source,
    pub answer: Answer,
    pub after: Store,
}

#[derive(Default)]
pub struct Writer {
    bytes: Vec<u8>,
    store: Option<Store>,
    pub calls: usize,
}

const END: u8 = 0;
const STORE: u8 = 1;
const CHANGE: u8 = 2;
const CALL: u8 = 3;

/// A run that is shorter costs more as a ramp than as literal bytes.
const SHORTEST_RAMP: usize = 8;

/// How many bytes from `at` on go up by one step.
fn ramp(bytes: &[u8], at: usize) -> usize {
    let Some(second) = bytes.get(at + 1) else {
        return 1;
    };
    let step = second.wrapping_sub(bytes[at]);
    let goes_on = |n: &usize| bytes[*n] == bytes[n - 1].wrapping_add(step);
    1 + (at + 1..bytes.len()).take_while(goes_on).count()
}

/// The first place from `at` on where two buffers of equal length differ.
fn first_difference(from: &[u8], to: &[u8], at: usize) -> Option<usize> {
    const STRIDE: usize = 4_096;
    let strides = from[at..].chunks(STRIDE).zip(to[at..].chunks(STRIDE));
    let (stride, (from, to)) = strides.enumerate().find(|(_, (a, b))| a != b)?;
    let within = from.iter().zip(to).position(|(a, b)| a != b)?;
    Some(at + stride * STRIDE + within)
}

impl Writer {
    fn u8(&mut self, value: u8) {
        self.bytes.push(value);
    }

    fn u32(&mut self, value: usize) {
        let value = u32::try_from(value).expect("a length");
        self.bytes.extend_from_slice(&value.to_le_bytes());
    }

    fn u64(&mut self, value: u64) {
        self.bytes.extend_from_slice(&value.to_le_bytes());
    }

    fn packed(&mut self, bytes: &[u8]) {
        let mut at = 0;
        while at < bytes.len() {
            let run = ramp(bytes, at);
            if run >= SHORTEST_RAMP {
                self.u8(0);
                self.u32(run);
                self.u8(bytes[at]);
                self.u8(bytes[at + 1].wrapping_sub(bytes[at]));
                at += run;
                continue;
            }
            let mut end = at + 1;
            while end < bytes.len() && ramp(bytes, end) < SHORTEST_RAMP {
                end += 1;
            }
            self.u8(1);
            self.u32(end - at);
            self.bytes.extend_from_slice(&bytes[at..end]);
            at = end;
        }
    }

    fn store(&mut self, store: &Store) {
        self.u8(STORE);
        for buffer in store.buffers() {
            self.u32(buffer.len());
        }
        for buffer in store.buffers() {
            self.packed(buffer);
        }
    }

    /// The pieces in which two stores of equal lengths differ.
    fn change(&mut self, from: &Store, to: &Store) {
        const GAP: usize = 16;
        let mut pieces = Vec::new();
        for (number, (from, to)) in from.buffers().into_iter().zip(to.buffers()).enumerate() {
            let mut at = 0;
            while let Some(start) = first_difference(from, to, at) {
                let mut end = start + 1;
                let mut same = 0;
                while end + same < to.len() && same < GAP {
                    if from[end + same] == to[end + same] {
                        same += 1;
                    } else {
                        end += same + 1;
                        same = 0;
                    }
                }
                pieces.push((number as u8, start, to[start..end].to_vec()));
                at = end;
            }
        }
        self.u32(pieces.len());
        for (number, start, bytes) in pieces {
            self.u8(number);
            self.u32(start);
            self.u32(bytes.len());
            self.packed(&bytes);
        }
    }

    fn time(&mut self, time: Time) {
        self.u64(time.seconds);
        self.u64(time.nanoseconds);
    }

    pub fn case(&mut self, case: &Case) {
        let lengths = |store: &Store| store.buffers().map(|buffer| buffer.len());
        match self.store.take() {
            Some(stands) if stands == case.before => {}
            Some(stands) if lengths(&stands) == lengths(&case.before) => {
                self.u8(CHANGE);
                self.change(&stands, &case.before);
            }
            _ => self.store(&case.before),
        }
        self.u8(CALL);
        self.u8(case.source.byte());
        match &case.call {
            Call::Fresh { uuid, reserved } => {
                self.u8(0);
                self.u32(uuid.len());
                self.packed(uuid);
                self.u64(*reserved);
            }
            Call::Enter { object, time } => {
                self.u8(1);
                self.u64(*object);
                self.time(*time);
            }
            Call::Write {
                object,
                offset,
                bytes,
                time,
            } => {
                self.u8(2);
                self.u64(*object);
                self.u64(*offset);
                self.u32(bytes.len());
                self.packed(bytes);
                self.time(*time);
            }
            Call::Grow { object, size, time } => {
                self.u8(3);
                self.u64(*object);
                self.u64(*size);
                self.time(*time);
            }
            Call::Read {
                object,
                offset,
                length,
            } => {
                self.u8(4);
                self.u64(*object);
                self.u64(*offset);
                self.u32(*length);
            }
            Call::Settle => self.u8(5),
            Call::Fill => self.u8(6),
            Call::ReadMany { list, length } => {
                self.u8(7);
                self.u32(list.len());
                self.packed(list);
                self.u32(*length);
            }
            Call::WriteBatch { list, bytes, time } => {
                self.u8(8);
                for lent in [list, bytes] {
                    self.u32(lent.len());
                    self.packed(lent);
                }
                self.time(*time);
            }
            Call::DataStretches {
                object,
                first,
                units,
                length,
            } => {
                self.u8(9);
                for number in [object, first, units] {
                    self.u64(*number);
                }
                self.u32(*length);
            }
            Call::WriteArchive {
                object,
                offset,
                bytes,
                time,
            } => {
                self.u8(10);
                self.u64(*object);
                self.u64(*offset);
                self.u32(bytes.len());
                self.packed(bytes);
                self.time(*time);
            }
        }
        self.u32(case.answer.number as usize);
        self.u64(case.answer.count);
        self.packed(&case.answer.output);
        self.change(&case.before, &case.after);
        self.store = Some(case.after.clone());
        self.calls += 1;
    }

    pub fn len(&self) -> usize {
        self.bytes.len()
    }

    pub fn is_empty(&self) -> bool {
        self.bytes.is_empty()
    }

    pub fn finish(mut self) -> Vec<u8> {
        self.u8(END);
        [MAGIC.as_slice(), &self.bytes].concat()
    }
}

/// Reads the cases one after another, holding only the store that stands.
pub struct Reader<'a> {
    bytes: &'a [u8],
    at: usize,
    store: Store,
}

impl<'a> Reader<'a> {
    pub fn new(bytes: &'a [u8]) -> Self {
        assert_eq!(&bytes[..8], MAGIC, "not a file of recorded answers");
        Self {
            bytes,
            at: 8,
            store: Store::default(),
        }
    }

    fn take(&mut self, length: usize) -> &'a [u8] {
        let taken = &self.bytes[self.at..self.at + length];
        self.at += length;
        taken
    }

    fn u8(&mut self) -> u8 {
        self.take(1)[0]
    }

    fn u32(&mut self) -> usize {
        u32::from_le_bytes(self.take(4).try_into().expect("4 bytes")) as usize
    }

    fn u64(&mut self) -> u64 {
        u64::from_le_bytes(self.take(8).try_into().expect("8 bytes"))
    }

    fn packed(&mut self, length: usize) -> Vec<u8> {
        let mut bytes = Vec::with_capacity(length);
        while bytes.len() < length {
            match self.u8() {
                0 => {
                    let (run, mut byte, step) = (self.u32(), self.u8(), self.u8());
                    for _ in 0..run {
                        bytes.push(byte);
                        byte = byte.wrapping_add(step);
                    }
                }
                _ => {
                    let run = self.u32();
                    bytes.extend_from_slice(self.take(run));
                }
            }
        }
        assert_eq!(bytes.len(), length);
        bytes
    }

    fn change(&mut self, store: &mut Store) {
        for _ in 0..self.u32() {
            let (number, start, length) = (self.u8(), self.u32(), self.u32());
            let bytes = self.packed(length);
            store.buffers_mut()[number as usize][start..start + length].copy_from_slice(&bytes);
        }
    }

    fn time(&mut self) -> Time {
        Time {
            seconds: self.u64(),
            nanoseconds: self.u64(),
        }
    }

    fn call(&mut self) -> Call {
        match self.u8() {
            0 => {
                let length = self.u32();
                Call::Fresh {
                    uuid: self.packed(length),
                    reserved: self.u64(),
                }
            }
            1 => Call::Enter {
                object: self.u64(),
                time: self.time(),
            },
            2 => {
                let (object, offset, length) = (self.u64(), self.u64(), self.u32());
                Call::Write {
                    object,
                    offset,
                    bytes: self.packed(length),
                    time: self.time(),
                }
            }
            3 => Call::Grow {
                object: self.u64(),
                size: self.u64(),
                time: self.time(),
            },
            4 => Call::Read {
                object: self.u64(),
                offset: self.u64(),
                length: self.u32(),
            },
            5 => Call::Settle,
            6 => Call::Fill,
            7 => {
                let length = self.u32();
                Call::ReadMany {
                    list: self.packed(length),
                    length: self.u32(),
                }
            }
            8 => {
                let length = self.u32();
                let list = self.packed(length);
                let length = self.u32();
                Call::WriteBatch {
                    list,
                    bytes: self.packed(length),
                    time: self.time(),
                }
            }
            9 => Call::DataStretches {
                object: self.u64(),
                first: self.u64(),
                units: self.u64(),
                length: self.u32(),
            },
            10 => {
                let (object, offset, length) = (self.u64(), self.u64(), self.u32());
                Call::WriteArchive {
                    object,
                    offset,
                    bytes: self.packed(length),
                    time: self.time(),
                }
            }
            kind => panic!("a call of kind {kind}"),
        }
    }
}

impl Iterator for Reader<'_> {
    type Item = Case;

    fn next(&mut self) -> Option<Case> {
        loop {
            match self.u8() {
                END => return None,
                STORE => {
                    let lengths: [usize; 7] = std::array::from_fn(|_| self.u32());
                    let mut store = Store::default();
                    for (buffer, length) in store.buffers_mut().into_iter().zip(lengths) {
                        *buffer = self.packed(length);
                    }
                    self.store = store;
                }
                CHANGE => {
                    let mut store = std::mem::take(&mut self.store);
                    self.change(&mut store);
                    self.store = store;
                }
                CALL => {
                    let source = Source::of(self.u8());
                    let call = self.call();
                    let (number, count) = (self.u32() as u32, self.u64());
                    let output = self.packed(call.blank_output().len());
                    let before = std::mem::take(&mut self.store);
                    let mut after = before.clone();
                    self.change(&mut after);
                    self.store = after.clone();
                    let answer = Answer {
                        number,
                        count,
                        refused: call.refused_by(number, count),
                        output,
                    };
                    return Some(Case {
                        before,
                        call,
                        source,
                        answer,
                        after,
                    });
                }
                tag => panic!("an entry of kind {tag} at byte {}", self.at - 1),
            }
        }
    }
}
