//! `DirectArena`, as far as the doc example of `transfer_canonical_reallocating` uses it: a map from pointers.

use crate::arena::{ArenaCloneFromWith, ArenaTrait, from_checked_ptr, from_checked_raw};
use crate::errors::ReallocationError;
use crate::fundamental::{Ptr, PtrInx, nzusize_iter};
use crate::recast::Recaster;
use crate::stack::{ArenaBacking, HeapBacking};
use std::fmt::{self, Debug};
use std::marker::PhantomData;
use std::num::NonZeroUsize;
use std::ops::{Index, IndexMut};

pub struct DirectArena<P: Ptr, T, B: ArenaBacking = HeapBacking> {
    slots: Vec<Option<(P::Gen, T)>>,
    _b: PhantomData<B>,
}

impl<P: Ptr, T, B: ArenaBacking> DirectArena<P, T, B> {
    #[allow(clippy::new_without_default)]
    pub fn new() -> Self {
        DirectArena { slots: Vec::new(), _b: PhantomData }
    }

    pub fn get(&self, p: P) -> Option<&T> {
        let slot = self.slots.get(P::Inx::try_into_usize(p.inx())?.get() - 1)?;
        slot.as_ref().filter(|(generation, _)| *generation == p.generation()).map(|(_, t)| t)
    }
}

impl<P: Ptr, T, B: ArenaBacking> ArenaCloneFromWith<P, T> for DirectArena<P, T, B> {
    fn clone_from_with<T1, A: ArenaTrait<P, T1>, F: FnMut(P, &T1) -> T>(
        &mut self,
        source: &A,
        mut map: F,
    ) -> Result<(), ReallocationError> {
        let last = source.find_last_inx_ptr().map(|p| from_checked_ptr::<P>(p.inx()));
        let slot = |inx| {
            let (generation, t) = source.get_inx(from_checked_raw::<P>(inx))?;
            Some((generation, map(P::_from_raw(from_checked_raw::<P>(inx), generation), t)))
        };
        self.slots = nzusize_iter(NonZeroUsize::MIN, last).map(slot).collect();
        Ok(())
    }
}

impl<P: Ptr, T, B: ArenaBacking> Index<P> for DirectArena<P, T, B> {
    type Output = T;

    fn index(&self, p: P) -> &T {
        self.get(p).expect("indexed `DirectArena` with invalidated `Ptr`")
    }
}

impl<P: Ptr, T, B: ArenaBacking> IndexMut<P> for DirectArena<P, T, B> {
    fn index_mut(&mut self, p: P) -> &mut T {
        self.get(p).expect("indexed `DirectArena` with invalidated `Ptr`");
        &mut self.slots[from_checked_ptr::<P>(p.inx()).get() - 1].as_mut().unwrap().1
    }
}

impl<P: Ptr, T: Debug, B: ArenaBacking> Debug for DirectArena<P, T, B> {
    fn fmt(&self, f: &mut fmt::Formatter<'_>) -> fmt::Result {
        let inx = nzusize_iter(NonZeroUsize::MIN, NonZeroUsize::new(self.slots.len()));
        let entries = inx.zip(&self.slots).filter_map(|(inx, slot)| {
            slot.as_ref().map(|(generation, t)| (P::_from_raw(from_checked_raw::<P>(inx), *generation), t))
        });
        f.debug_map().entries(entries).finish()
    }
}

impl<P: Ptr, B: ArenaBacking> Recaster for DirectArena<P, P, B> {
    type Item = P;

    fn recast_item(&self, item: &mut P) -> Result<(), P> {
        *item = *self.get(*item).ok_or(*item)?;
        Ok(())
    }
}
