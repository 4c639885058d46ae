//! The public calls and what they answer.

/// What a read's buffer holds before the call, so that a byte that is not
/// handed out can be seen to be left alone.
pub const READ_FILL: u8 = 165;

/// A time, as a caller lends it and as a card has it.
#[derive(Clone, Copy, Debug, PartialEq, Eq)]
pub struct Time {
    pub seconds: u64,
    pub nanoseconds: u64,
}

impl Time {
    pub const fn new(seconds: u64, nanoseconds: u64) -> Self {
        Self {
            seconds,
            nanoseconds,
        }
    }
}

#[derive(Clone, Debug, PartialEq, Eq)]
pub enum Call {
    Fresh {
        uuid: Vec<u8>,
        reserved: u64,
    },
    Enter {
        object: u64,
        time: Time,
    },
    Write {
        object: u64,
        offset: u64,
        bytes: Vec<u8>,
        time: Time,
    },
    /// The archive writer's write.
    WriteArchive {
        object: u64,
        offset: u64,
        bytes: Vec<u8>,
        time: Time,
    },
    Grow {
        object: u64,
        size: u64,
        time: Time,
    },
    /// A read into a buffer of `length` bytes, each [`READ_FILL`].
    Read {
        object: u64,
        offset: u64,
        length: usize,
    },
    /// The reads of a list into one buffer of `length` bytes, each
    /// [`READ_FILL`].
    ReadMany {
        list: Vec<u8>,
        length: usize,
    },
    /// The writes of a list, of which each has its part of `bytes`.
    WriteBatch {
        list: Vec<u8>,
        bytes: Vec<u8>,
        time: Time,
    },
    /// The stretches of data among `units` units from `first` on, into a buffer
    /// of `length` bytes, each [`READ_FILL`].
    DataStretches {
        object: u64,
        first: u64,
        units: u64,
        length: usize,
    },
    Settle,
    Fill,
}

impl Call {
    pub fn name(&self) -> &'static str {
        match self {
            Self::Fresh { .. } => "fresh",
            Self::Enter { .. } => "enter",
            Self::Write { .. } => "write",
            Self::WriteArchive { .. } => "write_archive",
            Self::Grow { .. } => "grow",
            Self::Read { .. } => "read",
            Self::ReadMany { .. } => "read_many",
            Self::WriteBatch { .. } => "write_batch",
            Self::DataStretches { .. } => "data_stretches",
            Self::Settle => "settle",
            Self::Fill => "fill",
        }
    }

    /// Whether the published Rust has a counterpart.
    pub fn compared(&self) -> bool {
        matches!(
            self,
            Self::Write { .. } | Self::WriteArchive { .. } | Self::Grow { .. } | Self::Read { .. }
        )
    }

    /// The lent output buffer as it is before the call.
    pub fn blank_output(&self) -> Vec<u8> {
        match self {
            Self::Read { length, .. }
            | Self::ReadMany { length, .. }
            | Self::DataStretches { length, .. } => vec![READ_FILL; *length],
            _ => Vec::new(),
        }
    }

    /// Whether an answer of this number and count is that of a refused call. A
    /// batch that stops has the number of a refusal, and is none: 1, 2 and 18
    /// alone refuse it, before its first write.
    pub fn refused_by(&self, number: u32, count: u64) -> bool {
        match self {
            Self::WriteBatch { .. } => matches!(number, 1 | 2 | 18) && count == 0,
            _ => number != 0,
        }
    }
}

/// Number 0 and a count, or a refusal's number and count 0; of a batch that
/// stops, the number that stopped it and how many writes were done. And the
/// output buffer as the call left it.
#[derive(Clone, Debug, PartialEq, Eq)]
pub struct Answer {
    pub number: u32,
    pub count: u64,
    /// Whether the call was refused, and so did nothing.
    pub refused: bool,
    pub output: Vec<u8>,
}
