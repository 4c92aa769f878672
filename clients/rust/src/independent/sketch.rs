//! The sketch (docs/SUMMARIES.md), by Rust's own ordered maps.

use super::content::{Content, Parts};
use crate::raw::Part;
use std::collections::BTreeMap;
use std::collections::btree_map::Entry;

/// A held key. All dummies come after the real keys.
#[derive(Clone, Copy, Debug, PartialEq, Eq, PartialOrd, Ord)]
enum Held<K> {
    Real(K),
    Dummy(u32),
}

/// A sketch. A stored count is the count plus l, so a lowering changes none of them.
#[derive(Clone, Debug)]
pub struct Sketch<K> {
    n: u32,
    l: u32,
    stored: BTreeMap<Held<K>, u32>,
    /// Stored counts and keys. It is a set, but a map finds its first entry and takes it out by one look-up.
    ranks: BTreeMap<(u32, Held<K>), ()>,
}

impl<K: Copy + Ord> Sketch<K> {
    /// A fresh sketch of k keys, if k is 2 to 1,024.
    #[must_use]
    pub fn new(k: u32) -> Option<Sketch<K>> {
        if !(2..=1_024).contains(&k) {
            return None;
        }
        Some(Sketch {
            n: 0,
            l: 0,
            stored: (0..k).map(|number| (Held::Dummy(number), 0)).collect(),
            ranks: (0..k).map(|number| ((0, Held::Dummy(number)), ())).collect(),
        })
    }

    /// Takes a key, and tells whether there was room for it.
    pub fn take(&mut self, key: K) -> bool {
        let Some(n) = self.n.checked_add(1) else {
            return false;
        };
        self.n = n;
        let key = Held::Real(key);
        match self.stored.entry(key) {
            Entry::Occupied(mut entry) => {
                let stored = entry.get_mut();
                self.ranks.remove(&(*stored, key));
                *stored += 1;
                self.ranks.insert((*stored, key), ());
            }
            Entry::Vacant(entry) => {
                let least = self.ranks.first_entry().expect("k keys are held");
                if least.key().0 > self.l {
                    self.l += 1;
                } else {
                    entry.insert(self.l + 1);
                    let ((_, leaving), ()) = least.remove_entry();
                    self.stored.remove(&leaving);
                    self.ranks.insert((self.l + 1, key), ());
                }
            }
        }
        true
    }

    /// The sketch's content, with the bytes of each key.
    pub fn content(&self, encode: impl Fn(K) -> Parts) -> Content {
        let real = |(held, stored): (&Held<K>, &u32)| match held {
            Held::Real(key) => Some((encode(*key), stored - self.l)),
            Held::Dummy(_) => None,
        };
        Content {
            k: self.stored.len() as u32,
            n: self.n,
            l: self.l,
            held: self.stored.iter().filter_map(real).collect(),
        }
    }
}

/// The content of a sketch of k keys that has taken these numbers, if k is 2 to 1,024.
#[must_use]
pub fn sketch_numbers(entries: &[u32], k: u32) -> Option<Content> {
    let mut sketch = Sketch::new(k)?;
    for entry in entries {
        if !sketch.take(*entry) {
            break;
        }
    }
    Some(sketch.content(|number| [Part::of(&number.to_be_bytes()), Part::default()]))
}
