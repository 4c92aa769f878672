//! Logs and questions that are drawn by a seed, and what is compared of each.

pub mod case;
pub mod draws;
pub mod logs;
