//! Thousands of logs, drawn by fixed seeds: all that the library answers and writes, beside two implementations of its
//! rules that share nothing with it, and beside the true numbers of entries.

mod support;

use konjacattic::independent::plain::{self, Key};
use konjacattic::independent::random::Random;
use konjacattic::independent::reader;
use konjacattic::independent::sketch::sketch_numbers;
use konjacattic::raw::{self, Part as RawPart};
use konjacattic::{Count, Key as SafeKey, Lens, Lenses, Line, Page, Part, Refusal, Word, count, page};
use std::net::Ipv4Addr;
use support::case::{COUNT, Case, LINE, PAGE, READING, check_laws, check_page, entries_of, key_of, lines_for};
use support::draws::{NO_KEYS, NO_LENSES, keys, lenses, limits, part, rooms};
use support::logs::MadeLog;

const LOGS: u64 = 7_000;

/// Calls a function with every log, and with three cases of lenses and k of each.
fn for_all_cases(mut ask: impl FnMut(&mut Random, &Case)) {
    for seed in 0..LOGS {
        let mut random = Random::new(seed);
        let log = MadeLog::draw(&mut random);
        for turn in 0..3 {
            let lenses = lenses(&mut random, 3 * seed + turn);
            let k = keys(&mut random);
            ask(&mut random, &Case::new(seed, &log.bytes, lenses, k));
        }
    }
}

#[test]
fn logs_are_checked() {
    let mut faults = [0; 6];
    for seed in 0..LOGS {
        let log = MadeLog::draw(&mut Random::new(seed));
        let mut reading = READING;
        let answer = raw::check(&log.bytes, &mut reading);
        assert_eq!(answer, reading.fault, "seed {seed}");
        assert_eq!(reading, reader::check(&log.bytes), "seed {seed}");
        assert_eq!(reading, plain::keys(&log.bytes, raw::KIND, raw::NONE).1, "seed {seed}");
        assert_eq!(reading, log.known.unwrap_or(reading), "seed {seed}");
        faults[answer as usize] += 1;
    }
    assert!([0, 3, 4, 5].iter().all(|fault| faults[*fault] > 300), "{faults:?}");
}

#[test]
fn every_cut_of_a_log_is_checked() {
    for seed in 0..40 {
        let log = MadeLog::draw(&mut Random::new(seed)).bytes;
        for end in 0..log.len().min(400) {
            let mut reading = READING;
            raw::check(&log[..end], &mut reading);
            assert_eq!(reading, reader::check(&log[..end]), "seed {seed}, end {end}");
        }
    }
}

#[test]
fn pages_are_as_defined() {
    let mut lowered = 0;
    for_all_cases(|random, case| {
        lowered += u32::from(case.content.l > 0);
        for limit in limits(random, &case.content) {
            for room in rooms(random, &case.content, limit) {
                case.check_page(limit, room);
            }
        }
    });
    assert!(lowered > 3_000, "{lowered}");
}

/// A key with one bit changed.
fn changed(random: &mut Random, key: &Key) -> Key {
    let mut key = key.clone();
    let part = if key[1].is_empty() { 0 } else { random.below(2) as usize };
    let place = random.below(key[part].len() as u64) as usize;
    key[part][place] ^= 1 << random.below(8);
    key
}

/// Keys of the log that are held and that are not, and bytes that may make a key or not.
fn asked(random: &mut Random, case: &Case) -> Vec<Key> {
    let held: Vec<Key> = case.content.held.iter().map(|(parts, _)| key_of(parts)).collect();
    let mut keys = vec![[part(random, case.lenses.0), part(random, case.lenses.1)]];
    if !held.is_empty() {
        keys.push(held[random.below(held.len() as u64) as usize].clone());
    }
    keys.extend(case.entries.keys().find(|key| !held.contains(key)).cloned());
    let [first, second] = keys[keys.len() - 1].clone();
    keys.push(changed(random, &[first.clone(), second.clone()]));
    keys.push([first.clone(), Vec::new()]);
    keys.push([first.clone(), first]);
    keys.push([Vec::new(), second]);
    let lengths = [random.below(11) as usize, random.below(11) as usize];
    keys.push(lengths.map(|length| random.bytes(length)));
    keys
}

#[test]
fn counts_are_as_defined() {
    for_all_cases(|random, case| {
        for key in asked(random, case) {
            case.check_count(&key);
        }
    });
}

#[test]
fn every_lens_and_every_pair_of_lenses() {
    let prefixes = (0..=32).map(raw::prefix);
    let all: Vec<u32> = [raw::KIND, raw::WORD].into_iter().chain(prefixes).collect();
    let mut random = Random::new(35);
    let mut logs = std::iter::repeat_with(|| MadeLog::draw(&mut random).bytes);
    let log = logs.find(|log| log.len() > 1_000).expect("some log is long");
    for first in &all {
        for second in all.iter().chain([&raw::NONE]) {
            let case = Case::new(35, &log, (*first, *second), 4);
            let limit = case.content.l + 1;
            case.check_page(limit, 4);
            for line in case.content.page(limit, 4).2 {
                case.check_count(&key_of(&[line.first, line.second]));
            }
        }
    }
}

#[test]
fn out_of_range_writes_nothing() {
    for seed in 0..LOGS {
        let mut random = Random::new(seed);
        let log = MadeLog::draw(&mut random).bytes;
        let which = random.next();
        let (mut first, mut second) = lenses(&mut random, which);
        let mut k = 2 + random.below(10) as u32;
        match seed % 4 {
            0 => first = raw::NONE,
            1 => first = random.one_of(&NO_LENSES),
            2 => second = random.one_of(&NO_LENSES),
            _ => k = random.one_of(&NO_KEYS),
        }
        let limit = random.below(4) as u32;
        let mut lines = vec![LINE; random.below(14) as usize];
        let (mut reading, mut page, mut count) = (READING, PAGE, COUNT);
        let name = format!("seed {seed}, lenses {first} {second}, k {k}");
        let answer = raw::page(&log, first, second, k, limit, &mut lines, &mut reading, &mut page);
        assert_eq!((answer, reading, page), (1, READING, PAGE), "{name}");
        assert!(lines.iter().all(|line| *line == LINE), "{name}");
        let key = [part(&mut random, first.min(256)), part(&mut random, second.min(256))];
        let answer = raw::count(&log, first, second, k, &key[0], &key[1], &mut reading, &mut count);
        assert_eq!((answer, reading, count), (1, READING, COUNT), "{name}");
    }
}

/// A list of numbers: evenly drawn or skewed from few ones, any ones, rising or falling.
fn entries(random: &mut Random) -> Vec<u32> {
    let most = if random.once_in(30) { 4_000 } else { 150 };
    let length = random.below(most);
    let end = 1 + random.below(60);
    let shift = random.one_of(&[0, 0, 8, 26]);
    let kind = random.below(5);
    let number = |i: u64| match kind {
        0 => random.below(end),
        1 => i,
        2 => length - i,
        3 => random.next(),
        _ => random.skewed(end),
    };
    (0..length).map(number).map(|number| (number << shift) as u32).collect()
}

#[test]
fn pages_of_numbers_are_as_defined() {
    for seed in 0..LOGS {
        let mut random = Random::new(seed);
        let entries = entries(&mut random);
        let k = keys(&mut random);
        let content = sketch_numbers(&entries, k).expect("k is in range");
        let keys: Vec<Key> = entries.iter().map(|number| plain::number_key(*number)).collect();
        let name = format!("seed {seed}, k {k}");
        assert_eq!(content, plain::sketch(&keys, k), "{name}");
        let numbers = entries_of(&keys);
        check_laws(&content, &numbers);
        for limit in limits(&mut random, &content) {
            for room in rooms(&mut random, &content, limit) {
                let (mut lines, mut page) = (lines_for(room), PAGE);
                let answer = raw::page_of_numbers(&entries, k, limit, &mut lines[..room], &mut page);
                let name = format!("{name}, limit {limit}, room {room}");
                check_page(&content, &numbers, limit, (answer, page, &lines), &name);
            }
        }
        let (mut lines, mut page) = (vec![LINE; 12], PAGE);
        let answer = raw::page_of_numbers(&entries, random.one_of(&NO_KEYS), 1, &mut lines, &mut page);
        assert_eq!((answer, page), (1, PAGE), "{name}");
        assert!(lines.iter().all(|line| *line == LINE), "{name}");
    }
}

fn lens_of(number: u32) -> Lens {
    match number {
        raw::KIND => Lens::Kind,
        raw::WORD => Lens::Word,
        _ => Lens::Prefix((number - raw::prefix(0)) as u8),
    }
}

fn lenses_of((first, second): (u32, u32)) -> Lenses {
    match second {
        raw::NONE => Lenses::One(lens_of(first)),
        _ => Lenses::Pair(lens_of(first), lens_of(second)),
    }
}

fn part_of(lens: u32, part: &RawPart) -> Part {
    let bytes = part.as_bytes();
    match lens {
        raw::KIND => Part::Kind(bytes[0]),
        raw::WORD => Part::Word(Word::new(bytes).expect("it is a word")),
        _ => Part::Prefix { address: Ipv4Addr::new(bytes[0], bytes[1], bytes[2], bytes[3]), bits: bytes[4] },
    }
}

fn line_of((first, second): (u32, u32), line: &raw::Line) -> Line<SafeKey> {
    let one = part_of(first, &line.first);
    let key = match second {
        raw::NONE => SafeKey::One(one),
        _ => SafeKey::Pair(one, part_of(second, &line.second)),
    };
    let raw::Line { count, upper, .. } = *line;
    Line { key, count, upper }
}

#[test]
fn the_safe_calls_answer_the_same() {
    for_all_cases(|_, case| {
        let (log, lenses, k) = (&case.log, lenses_of(case.lenses), case.k);
        let (n, l, reading) = (case.content.n, case.content.l, case.reading.into());
        let written = case.content.page(l + 1, k as usize).2;
        let lines: Vec<_> = written.iter().map(|line| line_of(case.lenses, line)).collect();
        for Line { key, count: least, upper } in lines.iter().take(2).copied() {
            let answer = Count { n, l, count: least, upper, reading };
            assert_eq!(count(log, lenses, k, key), Ok(answer), "{}", case.name());
        }
        let answer = Page { n, l, lines, reading };
        assert_eq!(page(log, lenses, k, l + 1), Ok(answer), "{}", case.name());
        assert_eq!(page(log, lenses, k, l), Err(Refusal::LowLimit { l }), "{}", case.name());
    });
}
