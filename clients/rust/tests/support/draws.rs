//! What is asked of a log: lenses, k, limits, rooms for lines, keys.

use super::logs::{source, word};
use konjacattic::independent::content::Content;
use konjacattic::independent::random::Random;
use konjacattic::raw;

/// Numbers of no lens.
pub const NO_LENSES: [u32; 12] = [3, 4, 32, 255, 289, 290, 511, 512, 0x0001_0001, 0x0100_0100, 0x8000_0001, u32::MAX];

/// Numbers of keys that no sketch can hold.
pub const NO_KEYS: [u32; 6] = [0, 1, 1_025, 1_026, 0x0001_0002, u32::MAX];

/// The lens of the event kind, or of the flight word, or of a prefix of some length.
fn lens(random: &mut Random, kind: u64) -> u32 {
    match kind {
        0 => raw::KIND,
        1 => raw::WORD,
        _ => raw::prefix(random.one_of(&[0, 1, 7, 8, 9, 16, 24, 28, 31, 32])),
    }
}

/// A lens or a pair of lenses; by `which` it is of each of the twelve kinds in turn.
pub fn lenses(random: &mut Random, which: u64) -> (u32, u32) {
    let first = lens(random, which % 3);
    match which / 3 % 4 {
        0 => (first, raw::NONE),
        second => (first, lens(random, second - 1)),
    }
}

/// A k, mostly small, since a call takes some 30 ms at the greatest.
pub fn keys(random: &mut Random) -> u32 {
    let any = 2 + random.below(1_023) as u32;
    match random.below(3_000) {
        0 => random.one_of(&[any, 1_023, 1_024]),
        1..=300 => 2 + random.below(63) as u32,
        _ => 2 + random.below(11) as u32,
    }
}

/// The limits l and l + 1, and two others.
pub fn limits(random: &mut Random, content: &Content) -> [u32; 4] {
    let l = content.l;
    let greatest = content.held.iter().map(|(_, count)| count + l).max().unwrap_or(0);
    let any = random.below(u64::from(content.n) + 2) as u32;
    let others = [0, 1, l.saturating_sub(1), l + 2, greatest, greatest + 1, content.n, u32::MAX, any];
    [l, l + 1, random.one_of(&others), random.one_of(&others)]
}

/// Two lengths of buffers, around k and around the number of lines.
pub fn rooms(random: &mut Random, content: &Content, limit: u32) -> [usize; 2] {
    let k = content.k as usize;
    let lines = content.page(limit, k).2.len();
    let any = random.below(2 * k as u64) as usize;
    let around = [0, 1, k - 1, k, k, k, k + 1, k + 9, lines.saturating_sub(1), lines, lines + 1, any];
    [random.one_of(&around), random.one_of(&around)]
}

/// Bytes that make a key of the lens; a prefix has any number of bits.
pub fn part(random: &mut Random, lens: u32) -> Vec<u8> {
    match lens {
        raw::NONE => Vec::new(),
        raw::KIND => vec![random.below(64) as u8],
        raw::WORD => word(random),
        _ => {
            let bits = random.below(33) as u32;
            let kept = u32::MAX.checked_shl(32 - bits).unwrap_or(0);
            let mut part = (source(random) & kept).to_be_bytes().to_vec();
            part.push(bits as u8);
            part
        }
    }
}
