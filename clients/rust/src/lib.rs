//! What a console asks of a log: whether it can be read, the page of the keys that come most often in it, and the count
//! of one key. The calls are those of the proved library of crates/console_c; docs/LIBRARY.md has its promises, and
//! docs/SUMMARIES.md says what a sketch, a lens and a page are.
//!
//! A call takes up to 400,000 bytes of stack. It keeps nothing from one call to the next.
//!
//! ```
//! use konjacattic::{Key, Lens, Lenses, Part, Word, page};
//!
//! // The flight words A, B, C, C, A and A.
//! let log = b"\x10\x01A\x10\x01B\x10\x01C\x10\x01C\x10\x01A\x10\x01A";
//! let page = page(log, Lenses::One(Lens::Word), 2, 3)?;
//! assert_eq!((page.n, page.l, page.reading.fault), (6, 1, None));
//! let [line] = page.lines.as_slice() else { panic!() };
//! assert_eq!(line.key, Key::One(Part::Word(Word::new(b"A")?)));
//! assert_eq!((line.count, line.upper), (2, 3));
//! # Ok::<(), konjacattic::Refusal>(())
//! ```

mod answers;
mod calls;
pub mod independent;
mod keys;
mod lenses;
pub mod raw;

pub use answers::{Count, Fault, Line, Page, PageOfNumbers, Reading, Refusal};
pub use calls::{check, count, page, page_of_numbers};
pub use keys::{Key, Part, Word};
pub use lenses::{Lens, Lenses};

/// The fewest keys that a sketch can hold.
pub const LEAST_KEYS: u32 = 2;

/// The most keys that a sketch can hold.
pub const MOST_KEYS: u32 = 1_024;
