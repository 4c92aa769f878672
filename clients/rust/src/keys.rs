//! Keys, as docs/KEYS.md has them.

use crate::Refusal;
use std::fmt;
use std::net::Ipv4Addr;

/// A flight word: 1 to 8 bytes, each 0x20 to 0x5F.
#[derive(Clone, Copy, PartialEq, Eq, PartialOrd, Ord, Hash)]
pub struct Word {
    bytes: [u8; 8],
    length: u8,
}

impl Word {
    /// The word of these bytes; refused unless they make one.
    pub fn new(word: &[u8]) -> Result<Word, Refusal> {
        if !(1..=8).contains(&word.len()) || word.iter().any(|byte| !(0x20..=0x5F).contains(byte)) {
            return Err(Refusal::OutOfRange);
        }
        let mut bytes = [0; 8];
        bytes[..word.len()].copy_from_slice(word);
        Ok(Word { bytes, length: word.len() as u8 })
    }

    /// The word's bytes.
    #[must_use]
    pub fn as_bytes(&self) -> &[u8] {
        &self.bytes[..usize::from(self.length)]
    }
}

impl fmt::Display for Word {
    fn fmt(&self, f: &mut fmt::Formatter<'_>) -> fmt::Result {
        // All bytes of a word are ASCII.
        self.as_bytes().iter().try_for_each(|byte| write!(f, "{}", char::from(*byte)))
    }
}

impl fmt::Debug for Word {
    fn fmt(&self, f: &mut fmt::Formatter<'_>) -> fmt::Result {
        write!(f, "Word(\"{self}\")")
    }
}

/// A key of one lens. A caller can make one that no log has, as an event kind above 63; `count` then refuses it.
#[derive(Clone, Copy, Debug, PartialEq, Eq, PartialOrd, Ord, Hash)]
pub enum Part {
    /// An event kind, 0 to 63.
    Kind(u8),
    /// A flight word.
    Word(Word),
    /// An address prefix; every bit behind the first `bits`, 0 to 32, is 0.
    Prefix {
        /// The address.
        address: Ipv4Addr,
        /// How many bits the prefix has.
        bits: u8,
    },
}

/// A key of a log: that of its lens, or the pair of those of both.
#[derive(Clone, Copy, Debug, PartialEq, Eq, PartialOrd, Ord, Hash)]
pub enum Key {
    /// The key of one lens.
    One(Part),
    /// The keys of the first and the second lens.
    Pair(Part, Part),
}
