//! For tests and timing only: what the library does, written again from docs/ alone. `reader`, `lens`, `sketch` and
//! `feeding` are written for speed. `plain` is slow, and shares with them no more than the types of their answers.
//! `content` says what is answered of a sketch's content.

pub mod content;
pub mod feeding;
pub mod lens;
pub mod plain;
pub mod random;
pub mod reader;
pub mod sketch;
