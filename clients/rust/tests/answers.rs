//! Each answer once, by hand: the cases of docs/FORMATS.md and docs/SUMMARIES.md, and what calls leave as it was. The
//! fault 7 needs a log of more than 4,294,967,295 keys, and is not tried.

use konjacattic::raw;
use konjacattic::{
    Count, Fault, Key, Lens, Lenses, Line, Part, Reading, Refusal, Word, check, count, page, page_of_numbers,
};
use std::net::Ipv4Addr;

/// The flight words A, B, C, C, A and A.
const WORDS: &[u8] = b"\x10\x01A\x10\x01B\x10\x01C\x10\x01C\x10\x01A\x10\x01A";

/// The event kind 7 with the source address 10.1.2.3, twice, and the flight word KLM with the event kind 63 between.
const MIXED: &[u8] = b"\x0A\x07\x0A\x01\x02\x03\x12\x3F\x03KLM\x0A\x07\x0A\x01\x02\x03";

const WORD: Lenses = Lenses::One(Lens::Word);

fn word(bytes: &[u8]) -> Part {
    Part::Word(Word::new(bytes).unwrap())
}

fn prefix(a: u8, b: u8, c: u8, d: u8, bits: u8) -> Part {
    let address = Ipv4Addr::new(a, b, c, d);
    Part::Prefix { address, bits }
}

fn line<K>(key: K, count: u32, upper: u32) -> Line<K> {
    Line { key, count, upper }
}

fn reading(records: u64, offset: u64, fault: Option<Fault>) -> Reading {
    Reading { records, offset, fault }
}

#[test]
fn logs_that_are_read_to_their_end() {
    assert_eq!(check(b""), reading(0, 0, None));
    assert_eq!(check(WORDS), reading(6, 18, None));
    assert_eq!(check(MIXED), reading(3, 18, None));
}

#[test]
fn fault_3_is_at_the_map() {
    let map = Some(Fault::Map);
    assert_eq!(check(b"\x20"), reading(0, 0, map));
    assert_eq!(check(b"\x00"), reading(0, 0, map));
    assert_eq!(check(b"\x02\x3F\x80\x00"), reading(1, 2, map));
}

#[test]
fn fault_4_is_at_the_end() {
    let cut_off = Some(Fault::CutOff);
    assert_eq!(check(b"\x10"), reading(0, 1, cut_off));
    assert_eq!(check(b"\x10\x03KL"), reading(0, 4, cut_off));
    assert_eq!(check(b"\x10\x03Kl"), reading(0, 4, cut_off));
    assert_eq!(check(b"\x02\x07\x08\x0A\x01\x02"), reading(1, 6, cut_off));
}

#[test]
fn fault_5_is_at_the_field_or_at_the_wrong_byte() {
    let field = Some(Fault::Field);
    assert_eq!(check(b"\x01\x00\x01\x51\x7F"), reading(1, 5, None));
    assert_eq!(check(b"\x01\x00\x01\x51\x80"), reading(0, 1, field));
    assert_eq!(check(b"\x02\x3F\x02\x40"), reading(1, 3, field));
    assert_eq!(check(b"\x04\x01\x04\xFA\x04\xFB"), reading(2, 5, field));
    assert_eq!(check(b"\x04\x00"), reading(0, 1, field));
    assert_eq!(check(b"\x10\x00"), reading(0, 1, field));
    assert_eq!(check(b"\x10\x09ABCDEFGHI"), reading(0, 1, field));
    assert_eq!(check(b"\x10\x04A _`"), reading(0, 5, field));
    assert_eq!(check(b"\x10\x01\x1F"), reading(0, 2, field));
}

#[test]
fn pages_of_the_worked_cases() {
    let answer = page(WORDS, WORD, 2, 2).unwrap();
    assert_eq!((answer.n, answer.l, answer.reading), (6, 1, reading(6, 18, None)));
    let [a, b, c] = [b"A", b"B", b"C"].map(|bytes| Key::One(word(bytes)));
    assert_eq!(answer.lines, [line(a, 2, 3), line(c, 1, 2)]);
    assert_eq!(page(WORDS, WORD, 2, 3).unwrap().lines, [line(a, 2, 3)]);
    assert_eq!(page(WORDS, WORD, 2, 4).unwrap().lines, []);
    let answer = page(WORDS, WORD, 8, 1).unwrap();
    assert_eq!((answer.n, answer.l), (6, 0));
    assert_eq!(answer.lines, [line(a, 3, 3), line(b, 1, 1), line(c, 2, 2)]);
}

#[test]
fn a_page_is_of_the_records_before_a_fault() {
    let log = [WORDS, b"\x10\x02Z".as_slice()].concat();
    let answer = page(&log, WORD, 8, 3).unwrap();
    assert_eq!(answer.reading, reading(6, 21, Some(Fault::CutOff)));
    assert_eq!(answer.lines, [line(Key::One(word(b"A")), 3, 3)]);
}

#[test]
fn each_lens_and_a_pair() {
    let lines = |lenses| page(MIXED, lenses, 2, 1).unwrap().lines;
    let kinds = [line(Key::One(Part::Kind(7)), 2, 2), line(Key::One(Part::Kind(63)), 1, 1)];
    assert_eq!(lines(Lenses::One(Lens::Kind)), kinds);
    assert_eq!(lines(WORD), [line(Key::One(word(b"KLM")), 1, 1)]);
    let of_16 = prefix(10, 1, 0, 0, 16);
    assert_eq!(lines(Lenses::One(Lens::Prefix(16))), [line(Key::One(of_16), 2, 2)]);
    let of_0 = prefix(0, 0, 0, 0, 0);
    assert_eq!(lines(Lenses::One(Lens::Prefix(0))), [line(Key::One(of_0), 2, 2)]);
    let of_32 = prefix(10, 1, 2, 3, 32);
    assert_eq!(lines(Lenses::One(Lens::Prefix(32))), [line(Key::One(of_32), 2, 2)]);
    let pair = Key::Pair(of_16, Part::Kind(7));
    assert_eq!(lines(Lenses::Pair(Lens::Prefix(16), Lens::Kind)), [line(pair, 2, 2)]);
    assert_eq!(lines(Lenses::Pair(Lens::Prefix(16), Lens::Word)), []);
}

#[test]
fn counts_of_held_keys_and_of_others() {
    let of = |bytes: &[u8]| count(WORDS, WORD, 2, Key::One(word(bytes))).unwrap();
    let counted = |count| Count { n: 6, l: 1, count, upper: count + 1, reading: reading(6, 18, None) };
    assert_eq!(of(b"A"), counted(2));
    assert_eq!(of(b"B"), counted(0));
    assert_eq!(of(b"C"), counted(1));
    assert_eq!(of(b"NOT HERE"), counted(0));
    let pair = Key::Pair(Part::Kind(7), prefix(10, 0, 0, 0, 8));
    let answer = count(MIXED, Lenses::Pair(Lens::Kind, Lens::Prefix(8)), 2, pair).unwrap();
    assert_eq!((answer.n, answer.l, answer.count, answer.upper), (2, 0, 2, 2));
}

#[test]
fn refusal_1_of_lenses_and_k() {
    let out_of_range = Refusal::OutOfRange;
    assert_eq!(page(WORDS, Lenses::One(Lens::Prefix(33)), 2, 9), Err(out_of_range));
    assert_eq!(page(WORDS, Lenses::Pair(Lens::Word, Lens::Prefix(255)), 2, 9), Err(out_of_range));
    for k in [0, 1, 1_025, u32::MAX] {
        assert_eq!(page(WORDS, WORD, k, 9), Err(out_of_range));
        assert_eq!(page_of_numbers(&[], k, 9), Err(out_of_range));
        assert_eq!(count(WORDS, WORD, k, Key::One(word(b"A"))), Err(out_of_range));
    }
    assert!(page(WORDS, WORD, 1_024, 9).is_ok());
}

#[test]
fn refusal_1_of_keys() {
    let of = |lenses, key| count(MIXED, lenses, 2, key).err();
    let out_of_range = Some(Refusal::OutOfRange);
    let kind = Lenses::One(Lens::Kind);
    assert_eq!(of(kind, Key::One(Part::Kind(63))), None);
    assert_eq!(of(kind, Key::One(Part::Kind(64))), out_of_range);
    // The byte of the word A is no event kind here.
    assert_eq!(of(kind, Key::One(word(b"\x20"))), out_of_range);
    assert_eq!(of(kind, Key::Pair(Part::Kind(7), Part::Kind(7))), out_of_range);
    assert_eq!(of(Lenses::Pair(Lens::Kind, Lens::Kind), Key::One(Part::Kind(7))), out_of_range);
    let prefixes = Lenses::One(Lens::Prefix(16));
    assert_eq!(of(prefixes, Key::One(prefix(10, 1, 0, 0, 16))), None);
    assert_eq!(of(prefixes, Key::One(prefix(10, 1, 0, 1, 16))), out_of_range);
    assert_eq!(of(prefixes, Key::One(prefix(10, 1, 0, 0, 33))), out_of_range);
    assert_eq!(Word::new(b""), Err(Refusal::OutOfRange));
    assert_eq!(Word::new(b"NINE LONG"), Err(Refusal::OutOfRange));
    assert_eq!(Word::new(b"\x1F"), Err(Refusal::OutOfRange));
    assert_eq!(Word::new(b"a"), Err(Refusal::OutOfRange));
}

#[test]
fn refusal_8_of_limits_up_to_l() {
    assert_eq!(page(WORDS, WORD, 2, 0), Err(Refusal::LowLimit { l: 1 }));
    assert_eq!(page(WORDS, WORD, 2, 1), Err(Refusal::LowLimit { l: 1 }));
    assert_eq!(page(b"", WORD, 2, 0), Err(Refusal::LowLimit { l: 0 }));
    assert_eq!(page_of_numbers(&[1, 2, 3], 2, 1), Err(Refusal::LowLimit { l: 1 }));
}

/// What a page with so much room answers, its numbers, and whether the lines are as they were.
fn page_in(room: usize, limit: u32) -> (u32, raw::PageNumbers, bool) {
    let before = raw::Line { count: 7, ..raw::Line::default() };
    let mut lines = vec![before; room];
    let (mut reading, mut page) = Default::default();
    let answer = raw::page(WORDS, raw::WORD, raw::NONE, 2, limit, &mut lines, &mut reading, &mut page);
    assert_eq!((reading.records, reading.offset, reading.fault), (6, 18, 0));
    (answer, page, lines.iter().all(|line| *line == before))
}

#[test]
fn refusal_9_of_short_outputs_comes_after_8() {
    let numbers = |lines| raw::PageNumbers { n: 6, l: 1, lines };
    assert_eq!(page_in(1, 2), (9, numbers(0), true));
    assert_eq!(page_in(0, 4), (9, numbers(0), true));
    assert_eq!(page_in(1, 1), (8, numbers(0), true));
    assert_eq!(page_in(2, 1), (8, numbers(0), true));
    assert_eq!(page_in(2, 4), (0, numbers(0), true));
    assert_eq!(page_in(2, 2), (0, numbers(2), false));
}

#[test]
fn pages_of_numbers() {
    let answer = page_of_numbers(&[5, 0x0102_0304, 5, u32::MAX, 5], 2, 2).unwrap();
    assert_eq!((answer.n, answer.l), (5, 1));
    assert_eq!(answer.lines, [line(5, 2, 3)]);
    let answer = page_of_numbers(&[0x0102_0304, 0, u32::MAX], 3, 1).unwrap();
    assert_eq!(answer.lines, [line(0, 1, 1), line(0x0102_0304, 1, 1), line(u32::MAX, 1, 1)]);
    let answer = page_of_numbers(&[], 2, 1).unwrap();
    assert_eq!((answer.n, answer.l, answer.lines), (0, 0, vec![]));
}
