//! Times the library beside the implementation of `independent`, whose sketch stands on Rust's own ordered maps.
//! Both work on the same entries and the same log, by turns, and have to give the same pages. Printed is the best of
//! several rounds of each, by the clock.

use konjacattic::independent::content::Content;
use konjacattic::independent::feeding::sketch_log;
use konjacattic::independent::random::Random;
use konjacattic::independent::reader;
use konjacattic::independent::sketch::sketch_numbers;
use konjacattic::raw::{self, Line, PageNumbers, Reading};
use std::hint::black_box;
use std::time::Instant;

const ROUNDS: u32 = 5;

/// How many keys the sketches of a log hold.
const LOG_KEYS: u32 = 64;

/// At this limit a page has no line here.
const NO_LINES: u32 = u32::MAX;

/// The seconds that a call takes.
fn seconds<A>(call: impl FnOnce() -> A) -> f64 {
    let start = Instant::now();
    black_box(call());
    start.elapsed().as_secs_f64()
}

/// The least seconds that the library and its rival take, by turns.
fn race<A, B>(mut library: impl FnMut() -> A, mut rival: impl FnMut() -> B) -> (f64, f64) {
    let mut best = (f64::INFINITY, f64::INFINITY);
    for _ in 0..ROUNDS {
        best.0 = best.0.min(seconds(&mut library));
        best.1 = best.1.min(seconds(&mut rival));
    }
    best
}

/// Prints a line of a table: how much was done in a second, and the library's share of its rival's.
fn print_row(name: &str, k: &str, amount: f64, (library, rival): (f64, f64)) {
    let (library, rival) = (amount / library, amount / rival);
    let ratio = library / rival;
    println!("{name:<28}{k:>6}{library:>12.3}{rival:>12.3}{ratio:>8.3}");
}

fn print_head(title: &str) {
    println!("{title}\n{:<28}{:>6}{:>12}{:>12}{:>8}", "", "k", "library", "Rust", "ratio");
}

/// What the library writes of a page: its numbers and its lines.
fn library_numbers(entries: &[u32], k: u32, limit: u32) -> (PageNumbers, Vec<Line>) {
    let mut lines = vec![Line::default(); k as usize];
    let mut page = PageNumbers::default();
    let answer = raw::page_of_numbers(black_box(entries), k, limit, &mut lines, &mut page);
    assert_eq!(answer, 0, "the limit is above l");
    lines.truncate(page.lines as usize);
    (page, lines)
}

/// The same of a log.
fn library_log(log: &[u8], (first, second): (u32, u32), limit: u32) -> (Reading, PageNumbers, Vec<Line>) {
    let mut lines = vec![Line::default(); LOG_KEYS as usize];
    let (mut reading, mut page) = <(Reading, PageNumbers)>::default();
    let log = black_box(log);
    let answer = raw::page(log, first, second, LOG_KEYS, limit, &mut lines, &mut reading, &mut page);
    assert_eq!(answer, 0, "the limit is above l");
    lines.truncate(page.lines as usize);
    (reading, page, lines)
}

/// What the other implementation makes of the same.
fn rival_numbers(entries: &[u32], k: u32) -> Content {
    sketch_numbers(black_box(entries), k).expect("k is in range")
}

fn rival_log(log: &[u8], (first, second): (u32, u32)) -> (Reading, Content) {
    sketch_log(black_box(log), first, second, LOG_KEYS).expect("there are such lenses, and k is in range")
}

/// Times sketches of k keys on these entries.
fn time_numbers(name: &str, k: u32, entries: &[u32]) {
    let content = rival_numbers(entries, k);
    let limit = content.l + 1;
    let (_, numbers, lines) = content.page(limit, k as usize);
    assert_eq!(library_numbers(entries, k, limit), (numbers, lines));
    let times = race(|| library_numbers(entries, k, NO_LINES), || rival_numbers(entries, k).page(NO_LINES, k as usize));
    print_row(name, &k.to_string(), entries.len() as f64 / 1e6, times);
}

/// Times the feeding of a log through lenses.
fn time_log(name: &str, log: &[u8], lenses: (u32, u32)) {
    let (reading, content) = rival_log(log, lenses);
    let limit = content.l + 1;
    let room = LOG_KEYS as usize;
    let (_, numbers, lines) = content.page(limit, room);
    assert_eq!(library_log(log, lenses, limit), (reading, numbers, lines));
    let times = race(|| library_log(log, lenses, NO_LINES), || rival_log(log, lenses).1.page(NO_LINES, room));
    print_row(name, &LOG_KEYS.to_string(), log.len() as f64 / 1e6, times);
}

/// Times the reading of a log.
fn time_check(log: &[u8]) {
    let check = || {
        let mut reading = Reading::default();
        raw::check(black_box(log), &mut reading);
        reading
    };
    assert_eq!(check(), reader::check(log));
    let times = race(check, || reader::check(black_box(log)));
    print_row("check alone", "", log.len() as f64 / 1e6, times);
}

/// A log of about so many bytes. Each set of fields is as frequent as any other; few keys are frequent, and many are
/// not.
fn mixed_log(random: &mut Random, length: usize) -> Vec<u8> {
    let letters = |number: u64| [b'A' + (number % 26) as u8, b'A' + (number / 26 % 26) as u8];
    let mut log = Vec::with_capacity(length + 20);
    while log.len() < length {
        let map = 1 + random.below(31) as u8;
        log.push(map);
        if map & 1 != 0 {
            log.extend((random.below(86_400) as u32).to_be_bytes());
        }
        if map & 2 != 0 {
            log.push(random.skewed(64) as u8);
        }
        if map & 4 != 0 {
            log.push(1 + random.below(250) as u8);
        }
        if map & 8 != 0 {
            log.extend((0x0A00_0000 + 0x0000_3039 * random.skewed(20_000) as u32).to_be_bytes());
        }
        if map & 16 != 0 {
            let number = random.skewed(5_000);
            let digits = (number % 1_000).to_string();
            log.push(2 + digits.len() as u8);
            log.extend(letters(number));
            log.extend(digits.bytes());
        }
    }
    log
}

fn time_all_numbers(random: &mut Random) {
    print_head("Sketches of numbers: millions of entries a second");
    let drawn: Vec<u32> = (0..2_000_000).map(|_| random.below(2_000) as u32).collect();
    let skewed: Vec<u32> = (0..2_000_000).map(|_| random.skewed(2_000) as u32).collect();
    let rising: Vec<u32> = (0..2_000_000).collect();
    for k in [8, 64, 1_024] {
        time_numbers("drawn from 2,000", k, &drawn);
    }
    for k in [8, 64, 1_024] {
        time_numbers("drawn from 2,000, skewed", k, &skewed);
    }
    for (k, length) in [(8, 2_000_000), (64, 200_000), (1_024, 20_000)] {
        time_numbers("rising", k, &rising[..length]);
    }
}

fn time_all_lenses(random: &mut Random) {
    let log = mixed_log(random, 20_000_000);
    print_head("A log of 20 megabytes: megabytes a second");
    time_check(&log);
    time_log("event kind", &log, (raw::KIND, raw::NONE));
    time_log("flight word", &log, (raw::WORD, raw::NONE));
    time_log("prefix of 16 bits", &log, (raw::prefix(16), raw::NONE));
    time_log("prefix of 32 bits", &log, (raw::prefix(32), raw::NONE));
    time_log("event kind, flight word", &log, (raw::KIND, raw::WORD));
    time_log("flight word, 24 bits", &log, (raw::WORD, raw::prefix(24)));
}

fn main() {
    let mut random = Random::new(1);
    time_all_numbers(&mut random);
    println!();
    time_all_lenses(&mut random);
}
