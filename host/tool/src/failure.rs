//! What can keep a command from its end, as a message and an exit code.

use std::fmt;
use std::io;
use std::path::{Path, PathBuf};

use sangueko::{MOST_BLOCKS, MOST_PLACES, Refusal};

use crate::diagnose::Finding;
use crate::words::grouped;

/// The exit codes above the refusals; the first three are those of sysexits.h.
pub const USAGE: u8 = 64;
pub const NO_STORE: u8 = 66;
pub const INPUT_OUTPUT: u8 = 74;
pub const LOCKED: u8 = 75;

#[derive(Debug)]
pub enum Failure {
    /// The command line asks for nothing that there is.
    Usage(String),
    /// The library refused a call: what was being done, and for 1 and 2 what
    /// the diagnosis found.
    Refused {
        doing: String,
        refusal: Refusal,
        finding: Option<Finding>,
    },
    /// The library refused to make a store, and what was asked for.
    Unmade { refusal: Refusal, wanted: String },
    /// The folder is not a store, or cannot become one.
    NoStore(String),
    /// The system failed, and what to do next.
    System {
        doing: String,
        error: io::Error,
        next: String,
    },
    /// Another process has the folder.
    Locked(PathBuf),
    /// A journal that cannot be applied.
    Journal { folder: PathBuf, why: &'static str },
    /// Whoever read the output has gone.
    Closed,
}

impl Failure {
    pub fn refused(doing: impl Into<String>, refusal: Refusal, finding: Option<Finding>) -> Self {
        Self::Refused {
            doing: doing.into(),
            refusal,
            finding,
        }
    }

    /// A failure of the system on a path.
    pub fn on(doing: &str, path: &Path, error: io::Error) -> Self {
        let next = next_step(&error, path);
        Self::System {
            doing: format!("{doing} {}", path.display()),
            error,
            next,
        }
    }

    /// A failure to write what was asked for to standard output.
    pub fn output(error: io::Error) -> Self {
        if error.kind() == io::ErrorKind::BrokenPipe {
            return Self::Closed;
        }
        Self::on("writing to", Path::new("standard output"), error)
    }

    pub fn code(&self) -> u8 {
        match self {
            Self::Usage(_) => USAGE,
            // at most 19
            Self::Refused { refusal, .. } | Self::Unmade { refusal, .. } => refusal.number() as u8,
            Self::NoStore(_) => NO_STORE,
            Self::System { .. } | Self::Journal { .. } | Self::Closed => INPUT_OUTPUT,
            Self::Locked(_) => LOCKED,
        }
    }
}

fn next_step(error: &io::Error, path: &Path) -> String {
    match error.kind() {
        io::ErrorKind::StorageFull | io::ErrorKind::QuotaExceeded => {
            "make room on the disk and run the command again".into()
        }
        io::ErrorKind::PermissionDenied | io::ErrorKind::ReadOnlyFilesystem => format!(
            "see that you may read and write {}, or copy the store to where you may",
            path.display()
        ),
        io::ErrorKind::NotFound => "see that the name is right".into(),
        _ => "see that the disk is well, then run the command again".into(),
    }
}

impl fmt::Display for Failure {
    fn fmt(&self, f: &mut fmt::Formatter<'_>) -> fmt::Result {
        match self {
            Self::Usage(says) => write!(f, "{says} (`sangueko --help` tells the commands)"),
            Self::NoStore(says) => f.write_str(says),
            Self::Refused {
                doing,
                refusal,
                finding,
            } => {
                write!(f, "{doing}: refused by {}: {refusal}", refusal.number())?;
                match finding {
                    Some(finding) => write!(f, "\n{finding}"),
                    None => Ok(()),
                }
            }
            Self::Unmade { refusal, wanted } => write!(
                f,
                "new: refused by {}: a store has 1 to {} blocks, of which no more can be reserved than there are, \
                 and at most {} places in each book; asked for were {wanted}",
                refusal.number(),
                grouped(MOST_BLOCKS),
                grouped(MOST_PLACES)
            ),
            Self::System { doing, error, next } => write!(f, "{doing}: {error}: {next}"),
            Self::Locked(folder) => write!(
                f,
                "another process is at work on {}: try again when it is done, or leave --no-wait away",
                folder.display()
            ),
            Self::Journal { folder, why } => write!(
                f,
                "{0} has a call in its journal that cannot be stored, since {why}: nothing was changed. \
                 Restore the folder from a copy, or take the file {0}/journal away to go on \
                 with what the seven files hold, then `sangueko check`",
                folder.display()
            ),
            Self::Closed => f.write_str("the output was closed before its end"),
        }
    }
}
