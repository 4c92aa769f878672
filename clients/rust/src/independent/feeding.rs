//! A log fed to a sketch through lenses (docs/SUMMARIES.md).

use super::content::{Content, Parts};
use super::lens::{Lens, Looks};
use super::reader::read_log;
use super::sketch::Sketch;
use crate::raw::{NONE, Part, Reading};

/// What becomes of reading the log, and the content of a sketch of k keys that was fed it; nothing if k is not 2 to
/// 1,024.
fn feed<L: Looks>(log: &[u8], lens: L, k: u32) -> Option<(Reading, Content)> {
    let mut sketch = Sketch::new(k)?;
    let reading = read_log(log, |fields| match lens.key(fields) {
        Some(key) => sketch.take(key),
        None => true,
    });
    Some((reading, sketch.content(|key| lens.encode(key))))
}

/// The same of the lenses of these numbers; nothing, too, if there is no such lens.
#[must_use]
pub fn sketch_log(log: &[u8], first: u32, second: u32, k: u32) -> Option<(Reading, Content)> {
    let first = Lens::from_number(first)?;
    match second {
        NONE => feed(log, first, k),
        _ => feed(log, (first, Lens::from_number(second)?), k),
    }
}

/// The key that the bytes of these parts make of the lenses of these numbers, if they make one.
#[must_use]
pub fn parts_of(first: u32, second: u32, first_part: &[u8], second_part: &[u8]) -> Option<Parts> {
    let first = Lens::from_number(first)?;
    match second {
        NONE => first.decode(first_part, second_part).map(|_| ()),
        _ => (first, Lens::from_number(second)?).decode(first_part, second_part).map(|_| ()),
    }?;
    Some([Part::of(first_part), Part::of(second_part)])
}
