//! Runs of frames in lent tables, with a shared value for each run, over the proved archive libhost.a.
//!
//! An [Arena] holds frames, each with a payload and a size in bytes. Frames stand in rings, called runs, and each run has one
//! shared value and the total of its frames' sizes.
//! Runs are begun, grown, joined and taken apart, and the last union can be [undone](Arena::undo); a [Key] stays valid until
//! its frame is removed or the arena is compressed. A study can be [copied](Arena::clone_from) to another arena, where its keys
//! are valid too, or [moved](Arena::transfer_canonical) there, where its frames have new ones; and it can be
//! [written](Arena::write_file) as bytes and [read](Arena::read_file) back. Every call tests the tables, and what it cannot do it
//! refuses with a [Refusal], changing nothing.
//!
//! ```
//! use doorsedge::{Arena, Cause, Refusal};
//!
//! # fn main() -> Result<(), Refusal> {
//! let mut arena = Arena::fresh(4, 3)?;
//! let first = arena.insert_surject(10, 100, 4_000)?;
//! let second = arena.insert(first, 11, 5_000)?;
//! let other = arena.insert_surject(20, 200, 600)?;
//! assert_eq!((arena.get_size(second)?, arena.get_total(second)?), (5_000, 9_000));
//!
//! // the larger run's shared value is kept, and the totals are added
//! let joined = arena.union(other, first)?;
//! assert_eq!((joined.was, joined.kept, joined.moved), (200, first, 1));
//! assert_eq!(arena.list(first)?, [first, other, second]);
//! assert_eq!(arena.get_total(other)?, 9_600);
//! assert_eq!(arena.union(other, first), Err(Refusal::SameClass));
//!
//! // a removed frame's key is dead, and the refusal says why
//! assert_eq!(arena.remove_element(other)?.payload, 20);
//! assert_eq!(arena.get(other), Err(Refusal::Dead(Cause::FreeSlot)));
//! # Ok(())
//! # }
//! ```
//!
//! Whoever saves a run seals it, and has its value, count, keys and payloads of one moment. A count that was read before
//! another call need not be the run's count after it; a sealed run lets no frame in:
//!
//! ```
//! use doorsedge::{Arena, Refusal};
//!
//! # fn main() -> Result<(), Refusal> {
//! let mut arena = Arena::fresh(4, 3)?;
//! let first = arena.insert_surject(10, 100, 0)?;
//! let second = arena.insert(first, 11, 0)?;
//!
//! let saved = arena.seal(first)?;
//! assert_eq!((saved.value, saved.frames.len()), (100, 2));
//! assert_eq!((saved.frames[1].key, saved.frames[1].payload), (second, 11));
//!
//! // a writer that comes too late is told so, and begins a run of its own
//! assert_eq!(arena.insert(second, 12, 0), Err(Refusal::Sealed));
//! let late = arena.insert_surject(12, 100, 0)?;
//! assert_eq!(arena.union(late, first), Err(Refusal::Sealed));
//! # Ok(())
//! # }
//! ```
//!
//! The tables may also be the caller's own, as one that maps a file or shares memory with C would have them:
//!
//! ```
//! use doorsedge::{Arena, HEAD, Refusal, elems_len, shared_len};
//!
//! # fn main() -> Result<(), Refusal> {
//! let (mut head, mut elems, mut shared) = ([0; HEAD], [0; elems_len(2)], [0; shared_len(1)]);
//! Arena::fresh_in(2, 1, &mut head, &mut elems, &mut shared)?.insert_surject(7, 70, 0)?;
//!
//! // later: whatever stands there now is tested before it is used
//! let mut arena = Arena::borrowed(&mut head, &mut elems, &mut shared)?;
//! assert_eq!(arena.insert_surject(8, 80, 0), Err(Refusal::NoShared));
//!
//! elems[1] ^= 1; // another payload: still sound
//! assert!(Arena::borrowed(&mut head, &mut elems, &mut shared).is_ok());
//! elems[4] = 2; // a link to a slot that is not live
//! assert_eq!(Arena::borrowed(&mut head, &mut elems, &mut shared).err(), Some(Refusal::Unsound));
//! # Ok(())
//! # }
//! ```

mod answers;
mod arena;
mod copies;
mod figures;
mod files;
mod moves;
pub mod sys;
mod tables;
mod writer;

pub use answers::{Cause, Compressed, Joined, Key, Moved, Record, Refusal, Removed, RemovedShared};
pub use answers::{SealedFrame, SealedHeader, SealedRun};
pub use arena::Arena;
pub use figures::union_ceiling;
pub use files::{FILE_BODY, FILE_ENTRY, FILE_FRAME, FILE_PREFACE, FILE_VERSION, file_len};
pub use tables::{Borrowed, Owned, Tables};
pub use writer::Writer;

/// Numbers to a head.
pub const HEAD: usize = 13;
/// Numbers to an element slot.
pub const FRAME: usize = 6;
/// Numbers to a shared slot.
pub const HEADER: usize = 5;
/// Numbers to a place that a listing writes.
pub const PLACE: usize = 2;
/// Numbers to a place that a seal writes.
pub const SEAL_PLACE: usize = 3;
/// Numbers to a drain's record.
pub const RECORD: usize = 6;
/// Numbers to a pair of keys that a compression in slot order writes.
pub const PAIR: usize = 4;

/// How many numbers an element table of this capacity has; also the scratch that canonical compression needs.
pub const fn elems_len(capacity: usize) -> usize {
    capacity * FRAME
}

/// How many numbers a shared table of this capacity has.
pub const fn shared_len(capacity: usize) -> usize {
    capacity * HEADER
}
