//! The stack that the header promises to suffice, tried with the most keys in rising and in falling order, by which the
//! sketch's trees become as deep as they can.

use konjacattic::{Key, Lens, Lenses, MOST_KEYS, Part, Word, count, page, page_of_numbers};
use std::thread;

/// The stack of a call, and of the thread around it.
const STACK: usize = 400_000 + 32_768;

/// Enough entries for lowerings and replacements too.
const ENTRIES: u32 = MOST_KEYS + 100;

/// The letters of a word that stand in the order of numbers.
fn letters(number: u32) -> [u8; 8] {
    [7, 6, 5, 4, 3, 2, 1, 0].map(|power| b'0' + (number >> (4 * power) & 15) as u8)
}

/// A record with an address and a flight word; both stand in the order of numbers.
fn record(number: u32) -> Vec<u8> {
    [&[0x18], number.to_be_bytes().as_slice(), &[8], &letters(number)].concat()
}

fn on_a_small_stack(calls: impl FnOnce() + Send + 'static) {
    let small = thread::Builder::new().stack_size(STACK);
    small.spawn(calls).expect("there is a thread").join().expect("the calls return");
}

/// Makes the calls of a log with all lenses whose keys are all different.
fn ask(log: &[u8]) {
    let word = Part::Word(Word::new(b"00000000").expect("it is a word"));
    let prefix = Lens::Prefix(32);
    for lenses in [
        Lenses::One(Lens::Word),
        Lenses::One(prefix),
        Lenses::Pair(Lens::Word, Lens::Word),
        Lenses::Pair(Lens::Word, prefix),
        Lenses::Pair(prefix, Lens::Word),
        Lenses::Pair(prefix, prefix),
    ] {
        let page = page(log, lenses, MOST_KEYS, 2).expect("the limit is above l");
        assert_eq!((page.n, page.l), (ENTRIES, 1));
    }
    let lenses = Lenses::Pair(Lens::Word, Lens::Word);
    let count = count(log, lenses, MOST_KEYS, Key::Pair(word, word)).expect("it is a key");
    assert_eq!((count.n, count.l), (ENTRIES, 1));
}

#[test]
fn logs_of_rising_keys() {
    let log: Vec<u8> = (0..ENTRIES).flat_map(record).collect();
    on_a_small_stack(move || ask(&log));
}

#[test]
fn logs_of_falling_keys() {
    let log: Vec<u8> = (0..ENTRIES).rev().flat_map(record).collect();
    on_a_small_stack(move || ask(&log));
}

#[test]
fn numbers_that_rise_and_fall() {
    let rising: Vec<u32> = (0..ENTRIES).collect();
    let falling: Vec<u32> = (0..ENTRIES).rev().collect();
    on_a_small_stack(move || {
        for entries in [rising, falling] {
            let page = page_of_numbers(&entries, MOST_KEYS, 2).expect("the limit is above l");
            assert_eq!((page.n, page.l), (ENTRIES, 1));
        }
    });
}
