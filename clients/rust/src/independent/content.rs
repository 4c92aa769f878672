//! What a sketch holds, and what is asked of it.

use crate::raw::{CountNumbers, Line, PageNumbers, Part};

/// A key of a log as the library's bytes. Without a second lens the second part is blank.
pub type Parts = [Part; 2];

/// A sketch's content: its numbers, and the real keys that it holds, in rising order, with their counts. The other held
/// keys are dummies.
#[derive(Clone, Debug, PartialEq, Eq)]
pub struct Content {
    /// How many keys the sketch holds.
    pub k: u32,
    /// How many entries it has taken.
    pub n: u32,
    /// How many entries lowered every count.
    pub l: u32,
    /// The real keys with their counts.
    pub held: Vec<(Parts, u32)>,
}

impl Content {
    /// What a page at this limit answers and writes, where there is room for so many lines.
    #[must_use]
    pub fn page(&self, limit: u32, room: usize) -> (u32, PageNumbers, Vec<Line>) {
        let (answer, lines) = if limit <= self.l {
            (8, Vec::new())
        } else if room < self.k as usize {
            (9, Vec::new())
        } else {
            (0, self.lines(limit))
        };
        let numbers = PageNumbers { n: self.n, l: self.l, lines: lines.len() as u32 };
        (answer, numbers, lines)
    }

    fn lines(&self, limit: u32) -> Vec<Line> {
        let reached = self.held.iter().filter(|(_, count)| count + self.l >= limit);
        let line = |(parts, count): &(Parts, u32)| Line {
            first: parts[0],
            second: parts[1],
            count: *count,
            upper: count + self.l,
        };
        reached.map(line).collect()
    }

    /// What is written of the count of a key.
    #[must_use]
    pub fn count(&self, key: &Parts) -> CountNumbers {
        let held = self.held.iter().find(|(parts, _)| parts == key);
        let count = held.map_or(0, |(_, count)| *count);
        CountNumbers { n: self.n, l: self.l, count, upper: count + self.l }
    }
}
