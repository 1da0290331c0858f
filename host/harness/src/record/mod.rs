//! Stored answers, for replay where neither the original nor Rust is at hand.
//!
//! The format is described in `host/REPLAY.md`.

mod pairs;
mod read;
mod select;
mod write;

pub use crate::remote::bytes;
pub use pairs::{Pairs, holds_pairs, pair_words, pairs, replay_pairs};
pub use read::{Replayed, replay, stored_call};
pub use select::{Kind, Sample, sample};
pub use write::{HEADER_WORDS, MAGIC, VERSION, words};
