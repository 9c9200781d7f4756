//! The oracle: `SurjectArena` as published, over a plain stand-in for what lies below it.
//!
//! The three files of docs/src/src/surject (crate triple_arena 0.15.1, MIT OR Apache-2.0) are compiled unmodified, by path.
//! The rest of that crate could not be had, so what they import is written here for this purpose: as little as they and
//! their doc examples need, in the plainest form. What the stand-in decides by itself:
//!
//! - `LinkInsertKind::NextToInx` puts the new link immediately after the target (before it, with the feature `before`);
//! - the slot freed last is taken first, and a removed ring is freed from the given link along next;
//! - the first generation is 2, as the doc example of `transfer_canonical_reallocating` shows; `clear` raises it by one;
//! - `compress_canonical` of the links orders rings by their lowest slot;
//! - `compress_with` of the links moves them down in the order of their slots, and calls its closure in that order.
//!
//! All chains are cyclic: no other kind is made by the three files.

// the original's `recasting` crate: its two traits stand at this crate's root
extern crate self as recasting;

mod arena;
mod chain;
mod copy;
mod direct;
mod fundamental;
mod recast;
mod stack;
mod surject;

pub use arena::{Arena, arena_iterators};
pub use chain::{ChainArena, LinkInsertKind, LinkNoGen};
pub use direct::DirectArena;
pub use fundamental::{InvalidationOption, InvalidationResult, errors};
pub use recast::{Recast, Recaster};
pub use stack::HeapBacking;
pub use surject::{SurjectArena, surject_iterators};

pub mod utils {
    pub use crate::arena::ArenaSlot;
    pub use crate::fundamental::{PtrNoGen, nzusize_iter};
    pub use crate::surject::{SurjectElement, SurjectShared};

    pub mod traits {
        pub use crate::fundamental::{PtrGen, PtrInx};
        pub use crate::stack::{ArenaBacking, NonZeroInxGenericStack};
    }
}

pub mod traits {
    pub use crate::arena::{
        ArenaCloneFromWith, ArenaInsertEntryTrait, ArenaInsertTrait, ArenaTrait, CompactArenaTrait,
        DisjointableArenaTrait,
    };
    pub use crate::chain::ChainArenaTrait;
    pub use crate::fundamental::{Advancer, Ptr};
    pub use crate::recast::{Recast, Recaster};
    pub use crate::stack::SetMaxCapacity;
}
