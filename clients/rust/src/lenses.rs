//! Lenses, and what stands between keys and the library's bytes.

use crate::keys::{Key, Part, Word};
use crate::raw;
use std::net::Ipv4Addr;

/// What of a record is looked at. It gives a key of a record, or none.
#[derive(Clone, Copy, Debug, PartialEq, Eq, Hash)]
pub enum Lens {
    /// The event kind.
    Kind,
    /// The flight word.
    Word,
    /// The first bits of the source address; there is a lens of 0 to 32 bits.
    Prefix(u8),
}

/// One lens or two. Of two the key is the pair of both, and there is none if either gives none.
#[derive(Clone, Copy, Debug, PartialEq, Eq, Hash)]
pub enum Lenses {
    /// One lens.
    One(Lens),
    /// The first lens and the second.
    Pair(Lens, Lens),
}

impl Lens {
    /// The library's number of the lens.
    fn number(self) -> u32 {
        match self {
            Lens::Kind => raw::KIND,
            Lens::Word => raw::WORD,
            Lens::Prefix(bits) => raw::prefix(bits),
        }
    }

    /// The bytes of a part, if it is of the kind of key that the lens gives.
    fn encode(self, part: Part) -> Option<raw::Part> {
        match (self, part) {
            (Lens::Kind, Part::Kind(number)) => Some(raw::Part::of(&[number])),
            (Lens::Word, Part::Word(word)) => Some(raw::Part::of(word.as_bytes())),
            (Lens::Prefix(_), Part::Prefix { address, bits }) => {
                let [a, b, c, d] = address.octets();
                Some(raw::Part::of(&[a, b, c, d, bits]))
            }
            _ => None,
        }
    }

    /// The part that the library wrote for the lens.
    fn decode(self, part: &raw::Part) -> Part {
        match (self, part.as_bytes()) {
            (Lens::Kind, &[number]) => Part::Kind(number),
            (Lens::Word, bytes) => Part::Word(Word::new(bytes).expect("the library writes words")),
            (Lens::Prefix(_), &[a, b, c, d, bits]) => Part::Prefix { address: Ipv4Addr::new(a, b, c, d), bits },
            (lens, bytes) => unreachable!("the library wrote {bytes:?} for {lens:?}"),
        }
    }
}

impl Lenses {
    /// The library's numbers of the first lens and the second.
    pub(crate) fn numbers(self) -> (u32, u32) {
        match self {
            Lenses::One(first) => (first.number(), raw::NONE),
            Lenses::Pair(first, second) => (first.number(), second.number()),
        }
    }

    /// The bytes of a key, if it is of the kind that the lenses give.
    pub(crate) fn encode(self, key: Key) -> Option<(raw::Part, raw::Part)> {
        match (self, key) {
            (Lenses::One(lens), Key::One(part)) => Some((lens.encode(part)?, raw::Part::default())),
            (Lenses::Pair(first, second), Key::Pair(one, other)) => Some((first.encode(one)?, second.encode(other)?)),
            _ => None,
        }
    }

    /// The key that the library wrote for the lenses.
    pub(crate) fn decode(self, line: &raw::Line) -> Key {
        match self {
            Lenses::One(lens) => Key::One(lens.decode(&line.first)),
            Lenses::Pair(first, second) => Key::Pair(first.decode(&line.first), second.decode(&line.second)),
        }
    }
}
