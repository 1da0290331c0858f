//! What the tables refuse to hold.

use std::fmt;

/// Why a record could not be added. The tables are unchanged then.
#[derive(Clone, Copy, Debug, PartialEq, Eq)]
pub enum TableError {
    /// The table holds as many records as it may.
    TooMany {
        /// The table's number.
        table: u32,
    },
    /// The pool would pass its limit.
    PoolFull,
    /// A record that is not in these tables was named.
    Unknown {
        /// The table's number.
        table: u32,
        /// The record's number.
        record: u32,
    },
    /// Two keys of one list have equal bytes.
    SameKey {
        /// The later key's text.
        text: u32,
    },
    /// 4,294,967,295 was given as a value; it stands for "absent".
    Reserved,
    /// Case-detection was given without tags.
    CaseDetectionWithoutTags,
}

impl fmt::Display for TableError {
    fn fmt(&self, f: &mut fmt::Formatter<'_>) -> fmt::Result {
        match self {
            Self::TooMany { table } => write!(f, "table {table} is full"),
            Self::PoolFull => write!(f, "the pool is full"),
            Self::Unknown { table, record } => {
                write!(f, "table {table} has no record {record}")
            }
            Self::SameKey { text } => write!(f, "text {text} repeats an earlier key"),
            Self::Reserved => write!(f, "4294967295 stands for an absent value"),
            Self::CaseDetectionWithoutTags => write!(f, "case-detection needs tags"),
        }
    }
}

impl std::error::Error for TableError {}
