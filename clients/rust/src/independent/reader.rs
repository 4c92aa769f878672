//! The log's reader (docs/FORMATS.md).

use crate::raw::Reading;

/// A fault's number, and its place in the bytes that were read.
#[derive(Clone, Copy, Debug, PartialEq, Eq)]
pub struct Fault {
    /// 3, 4 or 5.
    pub number: u32,
    /// How many bytes are before it.
    pub place: usize,
}

const fn fault<T>(number: u32, place: usize) -> Result<T, Fault> {
    Err(Fault { number, place })
}

/// What the lenses look at of a record.
#[derive(Clone, Copy, Debug, Default, PartialEq, Eq)]
pub struct Fields {
    /// The event kind.
    pub kind: Option<u8>,
    /// The source address.
    pub source: Option<u32>,
    /// The flight word's bytes, the first byte highest, and zeros. So words are in the order of these numbers.
    pub word: Option<u64>,
}

/// The bytes that are left of a record, and where they begin.
struct Cursor<'a> {
    bytes: &'a [u8],
    at: usize,
}

impl<'a> Cursor<'a> {
    fn take<const N: usize>(&mut self) -> Result<[u8; N], Fault> {
        match self.bytes[self.at..].first_chunk() {
            Some(taken) => {
                self.at += N;
                Ok(*taken)
            }
            None => fault(4, self.bytes.len()),
        }
    }

    /// A field that ends here and is N bytes long, if it is within its range.
    fn ranged<const N: usize>(&self, within: bool) -> Result<(), Fault> {
        if within { Ok(()) } else { fault(5, self.at - N) }
    }

    fn time(&mut self) -> Result<(), Fault> {
        let time = u32::from_be_bytes(self.take()?);
        self.ranged::<4>(time < 86_400)
    }

    fn kind(&mut self) -> Result<u8, Fault> {
        let [kind] = self.take()?;
        self.ranged::<1>(kind < 64)?;
        Ok(kind)
    }

    fn console(&mut self) -> Result<(), Fault> {
        let [console] = self.take()?;
        self.ranged::<1>((1..=250).contains(&console))
    }

    fn source(&mut self) -> Result<u32, Fault> {
        Ok(u32::from_be_bytes(self.take()?))
    }

    fn word(&mut self) -> Result<u64, Fault> {
        let [length] = self.take()?;
        self.ranged::<1>((1..=8).contains(&length))?;
        let Some(bytes) = self.bytes.get(self.at..self.at + usize::from(length)) else {
            return fault(4, self.bytes.len());
        };
        let word = word_of(bytes).map_err(|place| Fault { number: 5, place: self.at + place })?;
        self.at += bytes.len();
        Ok(word)
    }
}

/// The word of at most 8 bytes, or the place of the first wrong byte.
pub(crate) fn word_of(bytes: &[u8]) -> Result<u64, usize> {
    let mut word = 0;
    for (place, &byte) in bytes.iter().enumerate() {
        if !(0x20..=0x5F).contains(&byte) {
            return Err(place);
        }
        word |= u64::from(byte) << (56 - 8 * place);
    }
    Ok(word)
}

/// The record at the start of these bytes, with its length; or its first fault.
pub fn read(bytes: &[u8]) -> Result<(Fields, usize), Fault> {
    let mut cursor = Cursor { bytes, at: 0 };
    let [map] = cursor.take()?;
    if !(1..32).contains(&map) {
        return fault(3, 0);
    }
    let mut fields = Fields::default();
    if map & 1 != 0 {
        cursor.time()?;
    }
    if map & 2 != 0 {
        fields.kind = Some(cursor.kind()?);
    }
    if map & 4 != 0 {
        cursor.console()?;
    }
    if map & 8 != 0 {
        fields.source = Some(cursor.source()?);
    }
    if map & 16 != 0 {
        fields.word = Some(cursor.word()?);
    }
    Ok((fields, cursor.at))
}

/// Reads a log, and hands each record on for as long as it is taken.
pub fn read_log(log: &[u8], mut taken: impl FnMut(&Fields) -> bool) -> Reading {
    let mut reading = Reading::default();
    let mut left = log;
    while !left.is_empty() {
        let at = log.len() - left.len();
        match read(left) {
            Err(fault) => {
                reading.fault = fault.number;
                reading.offset = (at + fault.place) as u64;
                return reading;
            }
            Ok((fields, _)) if !taken(&fields) => {
                reading.fault = 7;
                reading.offset = at as u64;
                return reading;
            }
            Ok((_, length)) => left = &left[length..],
        }
        reading.records += 1;
    }
    reading.offset = log.len() as u64;
    reading
}

/// Reads a log.
#[must_use]
pub fn check(log: &[u8]) -> Reading {
    read_log(log, |_| true)
}
