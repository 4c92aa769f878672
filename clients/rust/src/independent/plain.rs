//! The same in the plainest way: a record as a list of numbers, a key as lists of bytes, and a sketch as a list of keys
//! with their counts, each of which a lowering writes.

use super::content::Content;
use crate::raw::{Part, Reading};

/// A key of a log: the bytes of its first part and of its second.
pub type Key = [Vec<u8>; 2];

/// What a record has, by bit: the bytes of a field, and of a flight word without its length.
type Record<'a> = [Option<&'a [u8]>; 5];

/// How many bytes each field but the flight word has, its least value and its greatest.
const FIELDS: [(usize, u64, u64); 4] = [(4, 0, 86_399), (1, 0, 63), (1, 1, 250), (4, 0, 0xFFFF_FFFF)];

fn number(bytes: &[u8]) -> u64 {
    bytes.iter().fold(0, |number, byte| number * 256 + u64::from(*byte))
}

/// The field at this place of the log; or the fault's number and place.
fn field(log: &[u8], at: usize, (size, least, greatest): (usize, u64, u64)) -> Result<&[u8], (u32, usize)> {
    if log.len() - at < size {
        return Err((4, log.len()));
    }
    let bytes = &log[at..at + size];
    if number(bytes) < least || number(bytes) > greatest {
        return Err((5, at));
    }
    Ok(bytes)
}

fn word(log: &[u8], at: usize) -> Result<&[u8], (u32, usize)> {
    let length = usize::from(field(log, at, (1, 1, 8))?[0]);
    if log.len() - at - 1 < length {
        return Err((4, log.len()));
    }
    let wrong = |place: &usize| log[*place] < 0x20 || log[*place] > 0x5F;
    match (at + 1..at + 1 + length).find(wrong) {
        Some(place) => Err((5, place)),
        None => Ok(&log[at + 1..at + 1 + length]),
    }
}

/// The record at this place of the log, and where it ends.
fn record(log: &[u8], at: usize) -> Result<(Record<'_>, usize), (u32, usize)> {
    let map = log[at];
    if map == 0 || map > 31 {
        return Err((3, at));
    }
    let mut record = Record::default();
    let mut end = at + 1;
    for bit in 0..4 {
        if map >> bit & 1 == 1 {
            let bytes = field(log, end, FIELDS[bit])?;
            end += bytes.len();
            record[bit] = Some(bytes);
        }
    }
    if map >> 4 == 1 {
        let bytes = word(log, end)?;
        end += 1 + bytes.len();
        record[4] = Some(bytes);
    }
    Ok((record, end))
}

/// A log's records, and what became of reading it.
fn records(log: &[u8]) -> (Vec<Record<'_>>, Reading) {
    let mut records = Vec::new();
    let mut at = 0;
    let mut fault = 0;
    while at < log.len() && fault == 0 {
        match record(log, at) {
            Ok((record, end)) => {
                records.push(record);
                at = end;
            }
            Err((number, place)) => (fault, at) = (number, place),
        }
    }
    let reading = Reading { records: records.len() as u64, offset: at as u64, fault };
    (records, reading)
}

/// The bytes of the key that the lens of this number gives of a record, if it gives one. Without a lens they are none.
fn part(record: &Record<'_>, lens: u32) -> Option<Vec<u8>> {
    match lens {
        0 => Some(Vec::new()),
        1 => Some(record[1]?.to_vec()),
        2 => Some(record[4]?.to_vec()),
        _ => {
            let bits = lens - 256;
            let kept = |bit: u32, byte: u8| if bit < bits { byte & (0x80 >> (bit % 8)) } else { 0 };
            let source = record[3]?.iter().zip(0_u32..);
            let mut bytes: Vec<u8> =
                source.map(|(byte, i)| (8 * i..8 * i + 8).map(|bit| kept(bit, *byte)).sum()).collect();
            bytes.push(bits as u8);
            Some(bytes)
        }
    }
}

/// The keys that these lenses give of a log's records, in order, and what became of reading it. There must be such
/// lenses.
#[must_use]
pub fn keys(log: &[u8], first: u32, second: u32) -> (Vec<Key>, Reading) {
    let (records, reading) = records(log);
    let key = |record: &Record<'_>| Some([part(record, first)?, part(record, second)?]);
    (records.iter().filter_map(key).collect(), reading)
}

/// The key of a number.
#[must_use]
pub fn number_key(number: u32) -> Key {
    [number.to_be_bytes().to_vec(), Vec::new()]
}

/// The content of a sketch of k keys that has taken these keys.
#[must_use]
pub fn sketch(keys: &[Key], k: u32) -> Content {
    let mut counts: Vec<(&Key, u32)> = Vec::new();
    let mut l = 0;
    for key in keys {
        match counts.binary_search_by_key(&key, |(held, _)| *held) {
            Ok(place) => counts[place].1 += 1,
            Err(place) => match counts.iter().position(|(_, count)| *count == 0) {
                Some(leaving) => {
                    counts.remove(leaving);
                    counts.insert(if leaving < place { place - 1 } else { place }, (key, 1));
                }
                None if counts.len() < k as usize => counts.insert(place, (key, 1)),
                None => {
                    l += 1;
                    counts.iter_mut().for_each(|(_, count)| *count -= 1);
                }
            },
        }
    }
    let parts = |(key, count): (&Key, u32)| ([Part::of(&key[0]), Part::of(&key[1])], count);
    Content { k, n: keys.len() as u32, l, held: counts.into_iter().map(parts).collect() }
}

fn is_part(lens: u32, bytes: &[u8]) -> bool {
    match lens {
        0 => bytes.is_empty(),
        1 => bytes.len() == 1 && bytes[0] <= 63,
        2 => word(&[&[bytes.len() as u8], bytes].concat(), 0).is_ok(),
        _ => {
            let behind = |bit: usize| bytes[bit / 8] >> (7 - bit % 8) & 1;
            bytes.len() == 5 && bytes[4] <= 32 && (usize::from(bytes[4])..32).all(|bit| behind(bit) == 0)
        }
    }
}

/// Whether these bytes make a key of these lenses. There must be such lenses.
#[must_use]
pub fn is_key(first: u32, second: u32, key: &Key) -> bool {
    is_part(first, &key[0]) && is_part(second, &key[1])
}
