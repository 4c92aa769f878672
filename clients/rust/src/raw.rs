//! The library's calls as they are: numbers for lenses, answers and refusals, and keys as bytes. What a call writes it
//! writes to what the caller lends; nothing is allocated. include/konjacattic.h says of each call what it answers, what
//! it writes, and what it leaves as it was.
#![allow(unsafe_code)]

/// No lens; it can only be the second.
pub const NONE: u32 = 0;

/// The lens of the event kind.
pub const KIND: u32 = 1;

/// The lens of the flight word.
pub const WORD: u32 = 2;

/// The lens of the first bits of the source address. There is one of 0 to 32 bits.
#[must_use]
pub const fn prefix(bits: u8) -> u32 {
    256 + bits as u32
}

/// A key, or one key of a pair, as bytes; those behind it are 0. With length 0 there is none.
#[repr(C)]
#[derive(Clone, Copy, Debug, Default, PartialEq, Eq, Hash)]
pub struct Part {
    /// The key's bytes, and zeros.
    pub bytes: [u8; 8],
    /// How many bytes the key has.
    pub length: u8,
}

impl Part {
    /// The part of these bytes, at most 8.
    #[must_use]
    pub fn of(key: &[u8]) -> Part {
        let mut bytes = [0; 8];
        bytes[..key.len()].copy_from_slice(key);
        Part { bytes, length: key.len() as u8 }
    }

    /// The key's bytes.
    #[must_use]
    pub fn as_bytes(&self) -> &[u8] {
        &self.bytes[..usize::from(self.length)]
    }
}

/// A line of a page: of the key's entries there are at least `count` and at most `upper`.
#[repr(C)]
#[derive(Clone, Copy, Debug, Default, PartialEq, Eq, Hash)]
pub struct Line {
    /// The key, or the first key of the pair.
    pub first: Part,
    /// The second key of the pair, if there is a second lens.
    pub second: Part,
    /// The least number of entries.
    pub count: u32,
    /// The greatest number of entries.
    pub upper: u32,
}

/// What became of reading a log.
#[repr(C)]
#[derive(Clone, Copy, Debug, Default, PartialEq, Eq, Hash)]
pub struct Reading {
    /// How many records there are before the log's end, or before the record that ended the reading.
    pub records: u64,
    /// The log's length, or where the reading ended.
    pub offset: u64,
    /// 0 if the log was read to its end; else 3, 4, 5 or 7.
    pub fault: u32,
}

/// The numbers of a page.
#[repr(C)]
#[derive(Clone, Copy, Debug, Default, PartialEq, Eq, Hash)]
pub struct PageNumbers {
    /// How many keys were taken.
    pub n: u32,
    /// How far a count can stand below the number of its key's entries.
    pub l: u32,
    /// How many lines were written.
    pub lines: u32,
}

/// The count of a key, with the sketch's numbers.
#[repr(C)]
#[derive(Clone, Copy, Debug, Default, PartialEq, Eq, Hash)]
pub struct CountNumbers {
    /// How many keys were taken.
    pub n: u32,
    /// How far a count can stand below the number of its key's entries.
    pub l: u32,
    /// The least number of entries.
    pub count: u32,
    /// The greatest number of entries.
    pub upper: u32,
}

// The sizes and alignments that the header's structs have.
const _: () = assert!(size_of::<Part>() == 9 && align_of::<Part>() == 1);
const _: () = assert!(size_of::<Line>() == 28 && align_of::<Line>() == 4);
const _: () = assert!(size_of::<Reading>() == 24 && align_of::<Reading>() == 8);
const _: () = assert!(size_of::<PageNumbers>() == 12 && align_of::<PageNumbers>() == 4);
const _: () = assert!(size_of::<CountNumbers>() == 16 && align_of::<CountNumbers>() == 4);

unsafe extern "C" {
    fn konjacattic_check(log: *const u8, log_length: usize, reading: *mut Reading) -> u32;

    fn konjacattic_page(
        log: *const u8,
        log_length: usize,
        first: u32,
        second: u32,
        k: u32,
        limit: u32,
        lines: *mut Line,
        lines_length: usize,
        reading: *mut Reading,
        page: *mut PageNumbers,
    ) -> u32;

    fn konjacattic_count(
        log: *const u8,
        log_length: usize,
        first: u32,
        second: u32,
        k: u32,
        first_part: *const u8,
        first_part_length: usize,
        second_part: *const u8,
        second_part_length: usize,
        reading: *mut Reading,
        count: *mut CountNumbers,
    ) -> u32;

    fn konjacattic_page_of_numbers(
        entries: *const u32,
        entries_length: usize,
        k: u32,
        limit: u32,
        lines: *mut Line,
        lines_length: usize,
        page: *mut PageNumbers,
    ) -> u32;
}

/// Reads a log, and answers what ended the reading.
pub fn check(log: &[u8], reading: &mut Reading) -> u32 {
    // SAFETY: the declaration fits the header. The pointers are of a slice, with its length, and of a reference, so not
    // null, also where the length is 0. What is written overlaps nothing, since it is borrowed exclusively.
    unsafe { konjacattic_check(log.as_ptr(), log.len(), reading) }
}

/// Writes the page of a log, and answers 0, 1, 8 or 9.
#[expect(clippy::too_many_arguments, reason = "they are the library's")]
pub fn page(
    log: &[u8],
    first: u32,
    second: u32,
    k: u32,
    limit: u32,
    lines: &mut [Line],
    reading: &mut Reading,
    page: &mut PageNumbers,
) -> u32 {
    // SAFETY: as in `check`; the lines are a slice with its length, and no two of what is written overlap.
    unsafe {
        konjacattic_page(
            log.as_ptr(),
            log.len(),
            first,
            second,
            k,
            limit,
            lines.as_mut_ptr(),
            lines.len(),
            reading,
            page,
        )
    }
}

/// Writes the count of one key, which is given by the bytes of its parts, and answers 0 or 1.
#[expect(clippy::too_many_arguments, reason = "they are the library's")]
pub fn count(
    log: &[u8],
    first: u32,
    second: u32,
    k: u32,
    first_part: &[u8],
    second_part: &[u8],
    reading: &mut Reading,
    count: &mut CountNumbers,
) -> u32 {
    // SAFETY: as in `check`; both parts are slices with their lengths.
    unsafe {
        konjacattic_count(
            log.as_ptr(),
            log.len(),
            first,
            second,
            k,
            first_part.as_ptr(),
            first_part.len(),
            second_part.as_ptr(),
            second_part.len(),
            reading,
            count,
        )
    }
}

/// Writes the page of a list of numbers, and answers 0, 1, 8 or 9.
pub fn page_of_numbers(entries: &[u32], k: u32, limit: u32, lines: &mut [Line], page: &mut PageNumbers) -> u32 {
    // SAFETY: as in `page`; the entries are a slice with its length.
    unsafe {
        konjacattic_page_of_numbers(entries.as_ptr(), entries.len(), k, limit, lines.as_mut_ptr(), lines.len(), page)
    }
}
