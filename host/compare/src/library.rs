//! What is held against the model: a library of the eleven calls over lent
//! buffers. The model itself, a wrong model and the linked archive can all
//! stand behind it.

use model::{Answer, Call, Store};

/// The store's buffers, lent in the order in which every call takes them.
pub struct Lent<'a> {
    pub image: &'a mut [u8],
    pub head: &'a mut [u8],
    pub cards: &'a mut [u8],
    pub extents: &'a mut [u8],
    pub groups: &'a mut [u8],
    pub used: &'a mut [u8],
    pub retired: &'a mut [u8],
}

/// A call's own arguments, with its buffers lent.
pub enum Request<'a> {
    Fresh {
        uuid: &'a [u8],
        reserved: u64,
    },
    Enter {
        object: u64,
        seconds: u64,
        nanoseconds: u64,
    },
    Write {
        object: u64,
        offset: u64,
        bytes: &'a [u8],
        seconds: u64,
        nanoseconds: u64,
    },
    WriteArchive {
        object: u64,
        offset: u64,
        bytes: &'a [u8],
        seconds: u64,
        nanoseconds: u64,
    },
    Grow {
        object: u64,
        size: u64,
        seconds: u64,
        nanoseconds: u64,
    },
    Read {
        object: u64,
        offset: u64,
        out: &'a mut [u8],
    },
    ReadMany {
        list: &'a [u8],
        out: &'a mut [u8],
    },
    WriteBatch {
        list: &'a [u8],
        bytes: &'a [u8],
        seconds: u64,
        nanoseconds: u64,
    },
    DataStretches {
        object: u64,
        first: u64,
        units: u64,
        out: &'a mut [u8],
    },
    Settle,
    Fill,
}

/// What a call returns, and whether the library calls that a refusal: of a batch
/// the number alone does not tell.
#[derive(Clone, Copy, Debug, PartialEq, Eq)]
pub struct Told {
    pub number: u32,
    pub count: u64,
    pub refused: bool,
}

pub trait Library {
    /// Whether it has the call at all. Where it has not, the comparison goes
    /// on with the model's store.
    fn supports(&self, _call: &Call) -> bool {
        true
    }

    /// Run a call on lent buffers.
    fn lent(&self, store: Lent<'_>, request: Request<'_>) -> Told;

    /// Run a call on a store. A model, which works on a store as it is,
    /// spares itself the lending.
    fn run(&self, store: &mut Store, call: &Call) -> Answer {
        let mut output = call.blank_output();
        let buffers = store.buffers_mut().map(Vec::as_mut_slice);
        let told = self.lent(Lent::of(buffers), request(call, &mut output));
        Answer {
            number: told.number,
            count: told.count,
            refused: told.refused,
            output,
        }
    }
}

impl<'a> Lent<'a> {
    /// Seven buffers in their order.
    pub fn of(buffers: [&'a mut [u8]; 7]) -> Self {
        let [image, head, cards, extents, groups, used, retired] = buffers;
        Self {
            image,
            head,
            cards,
            extents,
            groups,
            used,
            retired,
        }
    }

    pub fn buffers(self) -> [&'a mut [u8]; 7] {
        [
            self.image,
            self.head,
            self.cards,
            self.extents,
            self.groups,
            self.used,
            self.retired,
        ]
    }
}

/// The call with its buffers lent: its own input, and this output.
pub fn request<'a>(call: &'a Call, out: &'a mut [u8]) -> Request<'a> {
    match *call {
        Call::Fresh { ref uuid, reserved } => Request::Fresh { uuid, reserved },
        Call::Enter { object, time } => Request::Enter {
            object,
            seconds: time.seconds,
            nanoseconds: time.nanoseconds,
        },
        Call::Write {
            object,
            offset,
            ref bytes,
            time,
        } => Request::Write {
            object,
            offset,
            bytes,
            seconds: time.seconds,
            nanoseconds: time.nanoseconds,
        },
        Call::WriteArchive {
            object,
            offset,
            ref bytes,
            time,
        } => Request::WriteArchive {
            object,
            offset,
            bytes,
            seconds: time.seconds,
            nanoseconds: time.nanoseconds,
        },
        Call::Grow { object, size, time } => Request::Grow {
            object,
            size,
            seconds: time.seconds,
            nanoseconds: time.nanoseconds,
        },
        Call::Read { object, offset, .. } => Request::Read {
            object,
            offset,
            out,
        },
        Call::ReadMany { ref list, .. } => Request::ReadMany { list, out },
        Call::WriteBatch {
            ref list,
            ref bytes,
            time,
        } => Request::WriteBatch {
            list,
            bytes,
            seconds: time.seconds,
            nanoseconds: time.nanoseconds,
        },
        Call::DataStretches {
            object,
            first,
            units,
            ..
        } => Request::DataStretches {
            object,
            first,
            units,
            out,
        },
        Call::Settle => Request::Settle,
        Call::Fill => Request::Fill,
    }
}

/// A model as a library: a function on whole stores.
pub struct Whole<F>(pub F);

impl<F: Fn(&mut Store, &Call) -> Answer> Library for Whole<F> {
    fn lent(&self, lent: Lent<'_>, request: Request<'_>) -> Told {
        let buffers = lent.buffers();
        let mut store = Store::default();
        for (to, from) in store.buffers_mut().into_iter().zip(&buffers) {
            *to = from.to_vec();
        }
        let (call, out) = owned(request);
        let answer = (self.0)(&mut store, &call);
        for (to, from) in buffers.into_iter().zip(store.buffers()) {
            to.copy_from_slice(from);
        }
        if let Some(out) = out {
            out.copy_from_slice(&answer.output);
        }
        Told {
            number: answer.number,
            count: answer.count,
            refused: answer.refused,
        }
    }

    fn run(&self, store: &mut Store, call: &Call) -> Answer {
        (self.0)(store, call)
    }
}

/// The call with its own copy of the input, and the output buffer.
fn owned(request: Request<'_>) -> (Call, Option<&mut [u8]>) {
    let time = |seconds, nanoseconds| model::Time {
        seconds,
        nanoseconds,
    };
    let call = match request {
        Request::Fresh { uuid, reserved } => Call::Fresh {
            uuid: uuid.to_vec(),
            reserved,
        },
        Request::Enter {
            object,
            seconds,
            nanoseconds,
        } => Call::Enter {
            object,
            time: time(seconds, nanoseconds),
        },
        Request::Write {
            object,
            offset,
            bytes,
            seconds,
            nanoseconds,
        } => Call::Write {
            object,
            offset,
            bytes: bytes.to_vec(),
            time: time(seconds, nanoseconds),
        },
        Request::WriteArchive {
            object,
            offset,
            bytes,
            seconds,
            nanoseconds,
        } => Call::WriteArchive {
            object,
            offset,
            bytes: bytes.to_vec(),
            time: time(seconds, nanoseconds),
        },
        Request::Grow {
            object,
            size,
            seconds,
            nanoseconds,
        } => Call::Grow {
            object,
            size,
            time: time(seconds, nanoseconds),
        },
        Request::Read {
            object,
            offset,
            out,
        } => {
            let length = out.len();
            let call = Call::Read {
                object,
                offset,
                length,
            };
            return (call, Some(out));
        }
        Request::ReadMany { list, out } => {
            let call = Call::ReadMany {
                list: list.to_vec(),
                length: out.len(),
            };
            return (call, Some(out));
        }
        Request::WriteBatch {
            list,
            bytes,
            seconds,
            nanoseconds,
        } => Call::WriteBatch {
            list: list.to_vec(),
            bytes: bytes.to_vec(),
            time: time(seconds, nanoseconds),
        },
        Request::DataStretches {
            object,
            first,
            units,
            out,
        } => {
            let call = Call::DataStretches {
                object,
                first,
                units,
                length: out.len(),
            };
            return (call, Some(out));
        }
        Request::Settle => Call::Settle,
        Request::Fill => Call::Fill,
    };
    (call, None)
}
