//! A copy in every slot, for a caller that takes calls back. The original's `clone` keeps pointers, but chains free slots anew, so that
//! the next frames would come into other slots.

use crate::arena::{Arena, ArenaSlot};
use crate::chain::ChainArena;
use crate::fundamental::Ptr;
use crate::stack::{ArenaBacking, NonZeroInxGenericStack};
use crate::surject::SurjectArena;

impl<P: Ptr, T: Clone, B: ArenaBacking> Arena<P, T, B> {
    fn exact_copy(&self) -> Self {
        let mut m = B::Stack::with_min_capacity(self.m.capacity()).unwrap();
        for inx in self.nziter() {
            let slot = match self.m.get(inx).unwrap() {
                ArenaSlot::Free(next) => ArenaSlot::Free(*next),
                ArenaSlot::Allocated(generation, t) => ArenaSlot::Allocated(*generation, t.clone()),
            };
            assert!(m.push(slot).is_ok());
        }
        Arena { m, freelist_root: self.freelist_root, len: self.len, generation: self.generation }
    }
}

impl<P: Ptr, T: Clone, S: Clone, B: ArenaBacking> SurjectArena<P, T, S, B> {
    /// The same in every slot, free ones included.
    pub fn exact_copy(&self) -> Self {
        SurjectArena {
            elements: ChainArena { a: self.elements.a.exact_copy() },
            shared_vals: self.shared_vals.exact_copy(),
        }
    }
}
