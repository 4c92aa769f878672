//! What the calls answer.

use crate::keys::Key;
use crate::raw;
use std::error::Error;
use std::fmt;

/// What became of reading a log.
#[derive(Clone, Copy, Debug, PartialEq, Eq, Hash)]
pub struct Reading {
    /// How many records there are before the log's end, or before the record that ended the reading.
    pub records: u64,
    /// The log's length, or where the reading ended: of `Full` the first byte of the record whose key there was no room
    /// for, else the place of the fault.
    pub offset: u64,
    /// What ended the reading before the log's end.
    pub fault: Option<Fault>,
}

/// What can end the reading of a log.
#[derive(Clone, Copy, Debug, PartialEq, Eq, Hash)]
pub enum Fault {
    /// 3: a record's map is 0, or one of its bits 5 to 7 is set.
    Map,
    /// 4: the log ends inside a record.
    CutOff,
    /// 5: a field of a record is out of range.
    Field,
    /// 7: a key more than 4,294,967,295.
    Full,
}

impl From<raw::Reading> for Reading {
    fn from(reading: raw::Reading) -> Reading {
        let fault = match reading.fault {
            0 => None,
            3 => Some(Fault::Map),
            4 => Some(Fault::CutOff),
            5 => Some(Fault::Field),
            7 => Some(Fault::Full),
            other => unreachable!("the library answers no fault {other}"),
        };
        Reading { records: reading.records, offset: reading.offset, fault }
    }
}

/// Why a call does nothing.
#[derive(Clone, Copy, Debug, PartialEq, Eq, Hash)]
pub enum Refusal {
    /// 1: there is no such lens, k is not 2 to 1,024, or what was given makes no key.
    OutOfRange,
    /// 8: the limit is `l` or less, so that a key that is not held could have reached it.
    LowLimit {
        /// How far a count can stand below the number of its key's entries.
        l: u32,
    },
}

impl Refusal {
    /// The refusal of this answer, if it is one; `l` is what the call wrote.
    pub(crate) fn unless_done(answer: u32, l: u32) -> Result<(), Refusal> {
        match answer {
            0 => Ok(()),
            1 => Err(Refusal::OutOfRange),
            8 => Err(Refusal::LowLimit { l }),
            other => unreachable!("the library does not answer {other} where it has room for k lines"),
        }
    }
}

impl fmt::Display for Refusal {
    fn fmt(&self, f: &mut fmt::Formatter<'_>) -> fmt::Result {
        match self {
            Refusal::OutOfRange => f.write_str("no such lens, k is not 2 to 1,024, or no key"),
            Refusal::LowLimit { l } => write!(f, "the limit is {l} or less"),
        }
    }
}

impl Error for Refusal {}

/// A line of a page: of the key's entries there are at least `count` and at most `upper`.
#[derive(Clone, Copy, Debug, PartialEq, Eq, Hash)]
pub struct Line<K> {
    /// The key.
    pub key: K,
    /// The least number of entries.
    pub count: u32,
    /// The greatest number of entries, which is `count` plus l.
    pub upper: u32,
}

/// The page of a log: every key that has reached the limit is there.
#[derive(Clone, Debug, PartialEq, Eq, Hash)]
pub struct Page {
    /// How many keys were taken.
    pub n: u32,
    /// How far a count can stand below the number of its key's entries; at most n / (k + 1).
    pub l: u32,
    /// The keys that may have reached the limit, in rising order.
    pub lines: Vec<Line<Key>>,
    /// What became of reading the log.
    pub reading: Reading,
}

/// The page of a list of numbers: every number that has reached the limit is there.
#[derive(Clone, Debug, PartialEq, Eq, Hash)]
pub struct PageOfNumbers {
    /// How many entries were taken.
    pub n: u32,
    /// How far a count can stand below the number of its key's entries; at most n / (k + 1).
    pub l: u32,
    /// The numbers that may have reached the limit, in rising order.
    pub lines: Vec<Line<u32>>,
}

/// The count of a key: of its entries there are at least `count` and at most `upper`.
#[derive(Clone, Copy, Debug, PartialEq, Eq, Hash)]
pub struct Count {
    /// How many keys were taken.
    pub n: u32,
    /// How far a count can stand below the number of its key's entries; at most n / (k + 1).
    pub l: u32,
    /// The least number of entries; of a key that is not held 0.
    pub count: u32,
    /// The greatest number of entries, which is `count` plus `l`.
    pub upper: u32,
    /// What became of reading the log.
    pub reading: Reading,
}
