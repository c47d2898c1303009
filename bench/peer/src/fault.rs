//! Why a replay ended before the end of its capture.

use std::fmt;

#[derive(Clone, Copy, Debug, PartialEq, Eq)]
pub enum Fault {
    ReadFailed,
    WriteFailed,
    BadRecord,
    ShortRecord,
    JournalFull,
}

impl fmt::Display for Fault {
    fn fmt(&self, text: &mut fmt::Formatter<'_>) -> fmt::Result {
        text.write_str(match self {
            Fault::ReadFailed => "read failed",
            Fault::WriteFailed => "write failed",
            Fault::BadRecord => "bad record",
            Fault::ShortRecord => "short record",
            Fault::JournalFull => "journal full",
        })
    }
}

impl From<std::io::Error> for Fault {
    fn from(_: std::io::Error) -> Fault {
        Fault::WriteFailed
    }
}
