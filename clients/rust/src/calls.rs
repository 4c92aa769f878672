//! The calls.

use crate::answers::{Count, Line, Page, PageOfNumbers, Reading, Refusal};
use crate::keys::Key;
use crate::lenses::Lenses;
use crate::{MOST_KEYS, raw};

/// Room for k lines. Of a k that is out of range no line is written.
fn room(k: u32) -> Vec<raw::Line> {
    vec![raw::Line::default(); k.min(MOST_KEYS) as usize]
}

/// Reads a log, and tells what became of it.
#[must_use]
pub fn check(log: &[u8]) -> Reading {
    let mut reading = raw::Reading::default();
    raw::check(log, &mut reading);
    reading.into()
}

/// The page of a log: the keys that may have reached the limit, with their bounds, by a sketch of k keys of what the
/// lenses give of the log's records, up to the log's end or to what ends the reading.
pub fn page(log: &[u8], lenses: Lenses, k: u32, limit: u32) -> Result<Page, Refusal> {
    let (first, second) = lenses.numbers();
    let mut lines = room(k);
    let mut reading = raw::Reading::default();
    let mut page = raw::PageNumbers::default();
    let answer = raw::page(log, first, second, k, limit, &mut lines, &mut reading, &mut page);
    Refusal::unless_done(answer, page.l)?;
    let line = |line: &raw::Line| Line { key: lenses.decode(line), count: line.count, upper: line.upper };
    Ok(Page {
        n: page.n,
        l: page.l,
        lines: lines[..page.lines as usize].iter().map(line).collect(),
        reading: reading.into(),
    })
}

/// The count of one key in a log, by a sketch of k keys of what the lenses give of the log's records, up to the log's
/// end or to what ends the reading. A key of another kind than the lenses give is refused.
pub fn count(log: &[u8], lenses: Lenses, k: u32, key: Key) -> Result<Count, Refusal> {
    let (first, second) = lenses.numbers();
    let (one, other) = lenses.encode(key).ok_or(Refusal::OutOfRange)?;
    let mut reading = raw::Reading::default();
    let mut count = raw::CountNumbers::default();
    let (one, other) = (one.as_bytes(), other.as_bytes());
    let answer = raw::count(log, first, second, k, one, other, &mut reading, &mut count);
    Refusal::unless_done(answer, count.l)?;
    Ok(Count { n: count.n, l: count.l, count: count.count, upper: count.upper, reading: reading.into() })
}

/// The page of a list of numbers, by a sketch of k keys, each entry a key. The first 4,294,967,295 entries are taken.
pub fn page_of_numbers(entries: &[u32], k: u32, limit: u32) -> Result<PageOfNumbers, Refusal> {
    let mut lines = room(k);
    let mut page = raw::PageNumbers::default();
    let answer = raw::page_of_numbers(entries, k, limit, &mut lines, &mut page);
    Refusal::unless_done(answer, page.l)?;
    let line = |line: &raw::Line| {
        let [a, b, c, d, ..] = line.first.bytes;
        Line { key: u32::from_be_bytes([a, b, c, d]), count: line.count, upper: line.upper }
    };
    Ok(PageOfNumbers { n: page.n, l: page.l, lines: lines[..page.lines as usize].iter().map(line).collect() })
}
