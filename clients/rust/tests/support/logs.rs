//! Logs that are drawn by a seed, and what is known of them.

use konjacattic::independent::random::Random;
use konjacattic::raw::Reading;

/// A log, and what becomes of reading it where that is known from how it was made.
#[derive(Debug)]
pub struct MadeLog {
    pub bytes: Vec<u8>,
    pub known: Option<Reading>,
}

/// What a log's records have, and from what their fields are drawn.
struct Pools {
    usual: u8,
    kinds: Vec<u8>,
    sources: Vec<u32>,
    words: Vec<Vec<u8>>,
}

/// A flight word. Most are of few letters, so that one begins another.
pub fn word(random: &mut Random) -> Vec<u8> {
    let letters: &[u8] = random.one_of(&[b"AB".as_slice(), b"AB", b" _", b"KLM 0123456789"]);
    let length = 1 + random.below(8) as usize;
    (0..length).map(|_| random.one_of(letters)).collect()
}

/// An address. Many differ only in their last bits.
pub fn source(random: &mut Random) -> u32 {
    match random.below(4) {
        0 => random.next() as u32,
        1 => random.one_of(&[0, 1, 0x7FFF_FFFF, 0x8000_0000, u32::MAX]),
        _ => 0x0A01_0000 + random.below(1 << 10) as u32,
    }
}

impl Pools {
    fn draw(random: &mut Random) -> Pools {
        let size = 1 + random.below(24);
        Pools {
            usual: random.below(32) as u8,
            kinds: (0..size).map(|_| random.below(64) as u8).collect(),
            sources: (0..size).map(|_| source(random)).collect(),
            words: (0..size).map(|_| word(random)).collect(),
        }
    }

    /// One of the pool, the first ones more often.
    fn skewed<'a, T>(random: &mut Random, pool: &'a [T]) -> &'a T {
        &pool[random.skewed(pool.len() as u64) as usize]
    }

    /// A field's bytes.
    fn field(&self, random: &mut Random, bit: u8) -> Vec<u8> {
        match bit {
            0 => (random.below(86_400) as u32).to_be_bytes().to_vec(),
            1 => vec![*Self::skewed(random, &self.kinds)],
            2 => vec![1 + random.below(250) as u8],
            3 => Self::skewed(random, &self.sources).to_be_bytes().to_vec(),
            _ => {
                let word = Self::skewed(random, &self.words);
                [&[word.len() as u8], word.as_slice()].concat()
            }
        }
    }

    /// A record's map and its fields.
    fn record(&self, random: &mut Random) -> (u8, Vec<Vec<u8>>) {
        let map = (1 + random.below(31) as u8) | self.usual;
        let bits = (0..5).filter(|bit| map >> bit & 1 == 1);
        let fields = bits.map(|bit| self.field(random, bit)).collect();
        (map, fields)
    }
}

/// A field out of range, and the place of the fault in it.
fn wrong_field(random: &mut Random, bit: u8) -> (Vec<u8>, usize) {
    match bit {
        0 => {
            let time = random.one_of(&[86_400, 86_401, 0x8000_0000, u32::MAX]);
            (time.to_be_bytes().to_vec(), 0)
        }
        1 => (vec![random.one_of(&[64, 65, 255])], 0),
        2 => (vec![random.one_of(&[0, 251, 255])], 0),
        _ if random.once_in(2) => (vec![random.one_of(&[0, 9, 255])], 0),
        _ => {
            let mut word = word(random);
            let place = random.below(word.len() as u64) as usize;
            word[place] = random.one_of(&[0, 0x1F, 0x60, 0xFF]);
            ([&[word.len() as u8], word.as_slice()].concat(), 1 + place)
        }
    }
}

/// A record that is refused, and the number and the place of its fault.
fn wrong_record(random: &mut Random, pools: &Pools) -> (Vec<u8>, u32, usize) {
    let (map, fields) = pools.record(random);
    let bits: Vec<u8> = (0..5).filter(|bit| map >> bit & 1 == 1).collect();
    let wrong = random.below(bits.len() as u64) as usize;
    let mut record = vec![map];
    record.extend(fields[..wrong].concat());
    if bits[wrong] == 3 || random.once_in(4) {
        record[0] = random.one_of(&[0, 0x20, 0x40, 0x80, map | 0x20]);
        return (record, 3, 0);
    }
    let (field, place) = wrong_field(random, bits[wrong]);
    let place = record.len() + place;
    record.extend(field);
    (record, 5, place)
}

/// A log of so many records, and where each ends.
fn valid(random: &mut Random, pools: &Pools, records: u64) -> (Vec<u8>, Vec<usize>) {
    let mut bytes = Vec::new();
    let mut ends = Vec::new();
    for _ in 0..records {
        let (map, fields) = pools.record(random);
        bytes.push(map);
        bytes.extend(fields.concat());
        ends.push(bytes.len());
    }
    (bytes, ends)
}

/// What becomes of a log of whole records that is cut off here.
fn cut(ends: &[usize], at: usize) -> Reading {
    let whole = ends.iter().filter(|end| **end <= at).count();
    let boundary = at == 0 || ends.contains(&at);
    Reading { records: whole as u64, offset: at as u64, fault: if boundary { 0 } else { 4 } }
}

impl MadeLog {
    /// A log of records; of these two in five are read to their end, and the others torn, with a record that is refused
    /// inside, with some bytes changed, or bytes of any kind.
    pub fn draw(random: &mut Random) -> MadeLog {
        let most = if random.once_in(50) { 2_000 } else { 120 };
        let records = random.below(most);
        let pools = Pools::draw(random);
        let (mut bytes, ends) = valid(random, &pools, records);
        match random.below(10) {
            0..=3 => MadeLog { known: Some(cut(&ends, bytes.len())), bytes },
            4..=5 => {
                let at = random.below(bytes.len() as u64 + 1) as usize;
                bytes.truncate(at);
                MadeLog { known: Some(cut(&ends, at)), bytes }
            }
            6..=7 => MadeLog::refused(random, &pools, bytes, ends.len()),
            8 => MadeLog::changed(random, bytes),
            _ => {
                let length = random.below(40) as usize;
                MadeLog { bytes: random.bytes(length), known: None }
            }
        }
    }

    /// A log with a record behind these that is refused, and more behind that.
    fn refused(random: &mut Random, pools: &Pools, mut bytes: Vec<u8>, records: usize) -> MadeLog {
        let (record, fault, place) = wrong_record(random, pools);
        let known = Reading { records: records as u64, offset: (bytes.len() + place) as u64, fault };
        bytes.extend(record);
        let length = random.below(30) as usize;
        bytes.extend(random.bytes(length));
        MadeLog { bytes, known: Some(known) }
    }

    fn changed(random: &mut Random, mut bytes: Vec<u8>) -> MadeLog {
        for _ in 0..=random.below(3) {
            let at = random.below(bytes.len() as u64 + 1) as usize;
            let any = random.next() as u8;
            if let Some(byte) = bytes.get_mut(at) {
                *byte = random.one_of(&[*byte ^ 1, *byte ^ 0x20, byte.wrapping_add(1), 0, any]);
            }
        }
        MadeLog { bytes, known: None }
    }
}
