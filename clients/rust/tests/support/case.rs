//! Calls of the library, with all that they answer and write compared.

use konjacattic::independent::content::{Content, Parts};
use konjacattic::independent::feeding::{parts_of, sketch_log};
use konjacattic::independent::plain::{self, Key};
use konjacattic::raw::{self, CountNumbers, Line, PageNumbers, Part, Reading};
use std::collections::BTreeMap;

/// What stands in everything that a call may write, before it is called.
const PART: Part = Part { bytes: [0xA5; 8], length: 0x5A };
pub const LINE: Line = Line { first: PART, second: PART, count: 0xA5A5_A5A5, upper: 0x5A5A_5A5A };
pub const READING: Reading =
    Reading { records: 0xA5A5_A5A5_5A5A_5A5A, offset: 0x5A5A_A5A5_A5A5_5A5A, fault: 0xA5A5_5A5A };
pub const PAGE: PageNumbers = PageNumbers { n: 0xA5A5_5A5A, l: 0x5A5A_A5A5, lines: 0xA55A_A55A };
pub const COUNT: CountNumbers = CountNumbers { n: 0xA5A5_5A5A, l: 0x5A5A_A5A5, count: 0xA55A_A55A, upper: 0x5AA5_5AA5 };

/// A log, two lenses and k, and what is known of them.
pub struct Case {
    pub seed: u64,
    pub log: Vec<u8>,
    pub lenses: (u32, u32),
    pub k: u32,
    pub reading: Reading,
    pub content: Content,
    /// How often each key was taken.
    pub entries: BTreeMap<Key, u32>,
}

impl Case {
    /// The case of a log, whose content both implementations have to agree on.
    pub fn new(seed: u64, log: &[u8], lenses: (u32, u32), k: u32) -> Case {
        let (reading, content) =
            sketch_log(log, lenses.0, lenses.1, k).expect("there are such lenses, and k is in range");
        let (keys, plain_reading) = plain::keys(log, lenses.0, lenses.1);
        assert_eq!(reading, plain_reading, "seed {seed}");
        assert_eq!(content, plain::sketch(&keys, k), "seed {seed}, lenses {lenses:?}, k {k}");
        let entries = entries_of(&keys);
        check_laws(&content, &entries);
        Case { seed, log: log.to_vec(), lenses, k, reading, content, entries }
    }

    pub fn name(&self) -> String {
        format!("seed {}, lenses {:?}, k {}", self.seed, self.lenses, self.k)
    }

    /// Asks for a page, and compares all that is answered and written.
    pub fn check_page(&self, limit: u32, room: usize) {
        let mut lines = lines_for(room);
        let (mut reading, mut page) = (READING, PAGE);
        let (first, second) = self.lenses;
        let answer = raw::page(&self.log, first, second, self.k, limit, &mut lines[..room], &mut reading, &mut page);
        let name = format!("{}, limit {limit}, room {room}", self.name());
        assert_eq!(reading, self.reading, "{name}");
        check_page(&self.content, &self.entries, limit, (answer, page, &lines), &name);
    }

    /// Asks for the count of a key that bytes may make, and compares all that is answered and written.
    pub fn check_count(&self, key: &Key) {
        let (mut reading, mut count) = (READING, COUNT);
        let (first, second) = self.lenses;
        let answer = raw::count(&self.log, first, second, self.k, &key[0], &key[1], &mut reading, &mut count);
        let name = format!("{}, key {key:?}", self.name());
        let parts = parts_of(first, second, &key[0], &key[1]);
        assert_eq!(parts.is_some(), plain::is_key(first, second, key), "{name}");
        let expected = match parts {
            Some(parts) => (0, self.reading, self.content.count(&parts)),
            None => (1, READING, COUNT),
        };
        assert_eq!((answer, reading, count), expected, "{name}");
        if answer == 0 {
            let entries = self.entries.get(key).copied().unwrap_or(0);
            assert!(count.count <= entries && entries <= count.upper, "{name}");
        }
    }
}

pub fn entries_of(keys: &[Key]) -> BTreeMap<Key, u32> {
    let mut entries = BTreeMap::new();
    for key in keys {
        *entries.entry(key.clone()).or_insert(0) += 1;
    }
    entries
}

/// The bytes of a key's parts.
pub fn key_of(parts: &Parts) -> Key {
    parts.map(|part| part.as_bytes().to_vec())
}

/// The laws of a content: (k + 1) l and all counts make n, and every count is at most its key's entries and at most l
/// below them.
pub fn check_laws(content: &Content, entries: &BTreeMap<Key, u32>) {
    let Content { k, n, l, held } = content;
    assert_eq!(entries.values().sum::<u32>(), *n);
    assert_eq!((k + 1) * l + held.iter().map(|(_, count)| count).sum::<u32>(), *n);
    assert!(held.len() <= *k as usize && held.is_sorted_by(|a, b| key_of(&a.0) < key_of(&b.0)));
    for (parts, count) in held {
        let entries = entries[&key_of(parts)];
        assert!(*count <= entries && entries <= count + l);
    }
}

/// How many lines are behind those that a call is lent.
const BEHIND: usize = 3;

/// Lines for a page with so much room, and those behind.
pub fn lines_for(room: usize) -> Vec<Line> {
    vec![LINE; room + BEHIND]
}

/// Compares what a call answered and wrote of a page, with the lines behind, and checks the page against the true
/// numbers.
pub fn check_page(
    content: &Content,
    entries: &BTreeMap<Key, u32>,
    limit: u32,
    (answer, page, lines): (u32, PageNumbers, &[Line]),
    name: &str,
) {
    let (expected, numbers, written) = content.page(limit, lines.len() - BEHIND);
    assert_eq!((answer, page), (expected, numbers), "{name}");
    let (first, behind) = lines.split_at(written.len());
    assert_eq!(first, written, "{name}");
    assert!(behind.iter().all(|line| *line == LINE), "{name}");
    if answer != 0 {
        return;
    }
    let shown: BTreeMap<Key, &Line> = first.iter().map(|line| (key_of(&[line.first, line.second]), line)).collect();
    for (key, entries) in entries {
        assert!(*entries < limit || shown.contains_key(key), "{name}: {key:?} is missing");
    }
    for (key, line) in shown {
        assert!(line.count <= entries[&key] && entries[&key] <= line.upper, "{name}: {key:?}");
    }
}
