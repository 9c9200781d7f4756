//! The three files as published. What they import and do not use over this stand-in is no fault of theirs.

#[allow(unused_imports)]
#[path = "../../../docs/src/src/surject/impl_surject_arena_trait.rs"]
mod impl_surject_arena_trait;
#[allow(unused_imports)]
#[path = "../../../docs/src/src/surject/surject_arena.rs"]
mod surject_arena;
#[allow(unused_imports)]
#[path = "../../../docs/src/src/surject/surject_iterators.rs"]
pub mod surject_iterators;

pub use surject_arena::{SurjectArena, SurjectElement, SurjectShared};
