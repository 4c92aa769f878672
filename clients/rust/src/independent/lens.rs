//! Lenses (docs/SUMMARIES.md), and keys as numbers in their order.

use super::content::Parts;
use super::reader::{Fields, word_of};
use crate::raw::Part;

/// A key of one lens as a number: an event kind; a flight word as `Fields` has it; a prefix's address and then its
/// bits. So keys are in the order of these numbers.
type Number = u64;

/// One lens.
#[derive(Clone, Copy, Debug)]
pub enum Lens {
    /// The event kind.
    Kind,
    /// The flight word.
    Word,
    /// The source address, of which these bits are kept, so many.
    Prefix {
        /// The bits that are kept are 1.
        mask: u32,
        /// How many bits are kept.
        bits: u8,
    },
}

const fn mask_of(bits: u8) -> u32 {
    match bits {
        0 => 0,
        _ => u32::MAX << (32 - bits),
    }
}

impl Lens {
    /// The lens of this number, if there is one.
    #[must_use]
    pub fn from_number(number: u32) -> Option<Lens> {
        match number {
            1 => Some(Lens::Kind),
            2 => Some(Lens::Word),
            256..=288 => {
                let bits = (number - 256) as u8;
                Some(Lens::Prefix { mask: mask_of(bits), bits })
            }
            _ => None,
        }
    }

    fn key(self, fields: &Fields) -> Option<Number> {
        match self {
            Lens::Kind => fields.kind.map(Number::from),
            Lens::Word => fields.word,
            Lens::Prefix { mask, bits } => {
                let source = fields.source?;
                Some(Number::from(source & mask) << 8 | Number::from(bits))
            }
        }
    }

    fn encode(self, number: Number) -> Part {
        match self {
            Lens::Kind => Part::of(&[number as u8]),
            Lens::Word => {
                let bytes = number.to_be_bytes();
                let length = bytes.iter().take_while(|byte| **byte != 0).count();
                Part::of(&bytes[..length])
            }
            Lens::Prefix { .. } => Part::of(&number.to_be_bytes()[3..]),
        }
    }

    /// The key that these bytes make, if they make one.
    fn decode(self, bytes: &[u8]) -> Option<Number> {
        match (self, bytes) {
            (Lens::Kind, &[kind @ 0..=63]) => Some(Number::from(kind)),
            (Lens::Word, [_, ..]) if bytes.len() <= 8 => word_of(bytes).ok(),
            (Lens::Prefix { .. }, &[a, b, c, d, bits @ 0..=32]) => {
                let address = u32::from_be_bytes([a, b, c, d]);
                (address & !mask_of(bits) == 0).then_some(Number::from(address) << 8 | Number::from(bits))
            }
            _ => None,
        }
    }
}

/// What gives keys of records: one lens, or a pair.
pub trait Looks: Copy {
    /// The keys.
    type Key: Copy + Ord;

    /// The record's key, if it has one.
    fn key(self, fields: &Fields) -> Option<Self::Key>;

    /// The key's bytes.
    fn encode(self, key: Self::Key) -> Parts;

    /// The key that the bytes of these parts make, if they make one.
    fn decode(self, first: &[u8], second: &[u8]) -> Option<Self::Key>;
}

impl Looks for Lens {
    type Key = Number;

    fn key(self, fields: &Fields) -> Option<Number> {
        Lens::key(self, fields)
    }

    fn encode(self, key: Number) -> Parts {
        [Lens::encode(self, key), Part::default()]
    }

    fn decode(self, first: &[u8], second: &[u8]) -> Option<Number> {
        Lens::decode(self, first).filter(|_| second.is_empty())
    }
}

impl Looks for (Lens, Lens) {
    type Key = (Number, Number);

    fn key(self, fields: &Fields) -> Option<(Number, Number)> {
        Some((self.0.key(fields)?, self.1.key(fields)?))
    }

    fn encode(self, key: (Number, Number)) -> Parts {
        [self.0.encode(key.0), self.1.encode(key.1)]
    }

    fn decode(self, first: &[u8], second: &[u8]) -> Option<(Number, Number)> {
        Some((self.0.decode(first)?, self.1.decode(second)?))
    }
}
