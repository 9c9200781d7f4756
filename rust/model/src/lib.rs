//! Document 01 in plain Rust, with what landed of document 02, written from their text alone.
//!
//! It is the reference that the archive's tests compare with, slot by slot, and the plain rows arena that the
//! benchmark measures against. It shares no code with the proved crates.
//!
//! - [layout]: head, keys, refusals, and how the numbers lie in the tables
//! - [rows]: the calls on a sound state
//! - [whole]: the calls on a whole ring or on all of them
//! - [ordered]: compression in slot order
//! - [undo]: the last union taken back
//! - [copy]: a study copied to other tables
//! - [transfer]: a study moved to other tables
//! - [file]: run files, written and read
//! - [check]: the soundness check, linear
//! - [sets]: soundness sentence by sentence, by sets, to test the check with
//! - [described]: the sentence of soundness about what the head remembers, by taking the union back and making it again
//! - [door]: the host's calls: shape and soundness first
//! - [figures]: the ceiling on union work, which takes no tables

pub mod check;
pub mod copy;
pub mod described;
pub mod door;
pub mod figures;
pub mod file;
pub mod layout;
pub mod ordered;
pub mod rows;
pub mod sets;
pub mod transfer;
pub mod undo;
pub mod whole;

pub use copy::Source;
pub use layout::{Cause, FRAME, HEAD, HEADER, Head, Key, Memory, PAIR, PLACE, Pool, RECORD, Refusal, SEAL_PLACE};
pub use rows::{Joined, Removed, Rows};
pub use transfer::Study;
