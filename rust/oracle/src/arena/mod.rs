//! The plain arena: slots, a free list and one generation.

pub mod arena_iterators;
mod traits;

pub use traits::{
    ArenaCloneFromWith, ArenaInsertEntryTrait, ArenaInsertTrait, ArenaTrait, CompactArenaTrait, DisjointableArenaTrait,
};

use crate::errors::{AllocError, MaxCapacityReductionError, NotWithinCapacityError, ReallocationError};
use crate::fundamental::{InvalidationOption, InvalidationResult, Ptr, PtrGen, PtrInx, nzusize_iter};
use crate::stack::{ArenaBacking, HeapBacking, NonZeroInxGenericStack, SetMaxCapacity};
use std::mem;
use std::num::NonZeroUsize;
use std::slice::GetDisjointMutError;

/// A slot: free, with the next free one (itself at the end of the list), or allocated.
pub enum ArenaSlot<P: Ptr, T> {
    Free(P::Inx),
    Allocated(P::Gen, T),
}

pub struct Arena<P: Ptr, T, B: ArenaBacking = HeapBacking> {
    pub(crate) m: B::Stack<ArenaSlot<P, T>>,
    pub(crate) freelist_root: Option<P::Inx>,
    pub(crate) len: usize,
    pub(crate) generation: P::Gen,
}

/// An index that is known to fit.
pub(crate) fn from_checked_raw<P: Ptr>(inx: NonZeroUsize) -> P::Inx {
    P::Inx::try_from_usize(inx).unwrap()
}

pub(crate) fn from_checked_ptr<P: Ptr>(inx: P::Inx) -> NonZeroUsize {
    P::Inx::try_into_usize(inx).unwrap()
}

impl<P: Ptr, T, B: ArenaBacking> Arena<P, T, B> {
    /// The free list meets only free slots, and the allocated ones are as many as said.
    pub fn _check_invariants(this: &Self) -> Result<(), &'static str> {
        let allocated = this.nziter().filter(|inx| matches!(this.m.get(*inx), Some(ArenaSlot::Allocated(..)))).count();
        if allocated != this.len {
            return Err("the number of allocated slots is not the length");
        }
        let mut inx = this.freelist_root;
        for _ in 0..this.m.len() {
            let Some(now) = inx else { return Ok(()) };
            let Some(ArenaSlot::Free(next)) = this.m.get(from_checked_ptr::<P>(now)) else {
                return Err("the free list meets a slot that is not free");
            };
            inx = (*next != now).then_some(*next);
        }
        if inx.is_none() { Ok(()) } else { Err("the free list has no end") }
    }

    /// The indexes of all slots, free or not.
    pub(crate) fn nziter(&self) -> impl Iterator<Item = NonZeroUsize> + use<P, T, B> {
        nzusize_iter(NonZeroUsize::MIN, NonZeroUsize::new(self.m.len()))
    }

    pub fn generation(&self) -> P::Gen {
        self.generation
    }

    pub fn set_generation(&mut self, generation: P::Gen) {
        self.generation = generation;
    }

    pub fn inc_generation(&mut self) -> InvalidationOption<()> {
        let (next, overflow) = P::Gen::generational_inc(self.generation);
        self.generation = next;
        InvalidationOption::new((), overflow)
    }

    pub fn backing(&self) -> &B::Stack<ArenaSlot<P, T>> {
        &self.m
    }

    /// # Safety
    ///
    /// Which slots are free must not be changed.
    pub unsafe fn backing_mut(&mut self) -> &mut B::Stack<ArenaSlot<P, T>> {
        &mut self.m
    }

    /// Takes free slots off the end. The free list is left to the caller.
    pub(crate) fn remove_free_end_slots(&mut self) {
        while let Some(last) = NonZeroUsize::new(self.m.len())
            && let Some(ArenaSlot::Free(_)) = self.m.get(last)
        {
            self.m.pop();
        }
    }

    pub(crate) fn full(&self) -> bool {
        self.freelist_root.is_none() && self.m.len() == self.m.capacity()
    }

    /// The index that the next insertion takes.
    pub(crate) fn next_inx(&self) -> P::Inx {
        self.freelist_root.unwrap_or_else(|| from_checked_raw::<P>(NonZeroUsize::new(self.m.len() + 1).unwrap()))
    }

    /// Makes room where there is none: twice the capacity.
    pub(crate) fn grow(&mut self) -> Result<(), ReallocationError> {
        if self.full() {
            self.m.reallocate_min_capacity((2 * self.m.capacity()).max(4))?;
        }
        Ok(())
    }

    /// Inserts where there is room.
    pub(crate) fn put(&mut self, t: T) -> P {
        let inx = self.next_inx();
        let slot = ArenaSlot::Allocated(self.generation, t);
        if self.freelist_root.is_some() {
            let old = mem::replace(self.m.get_mut(from_checked_ptr::<P>(inx)).unwrap(), slot);
            let ArenaSlot::Free(next) = old else { unreachable!() };
            self.freelist_root = (next != inx).then_some(next);
        } else if self.m.push(slot).is_err() {
            unreachable!()
        }
        self.len += 1;
        P::_from_raw(inx, self.generation)
    }

    /// Frees an allocated slot, which is then taken first. The generation is left to the caller.
    pub(crate) fn free(&mut self, inx: P::Inx) -> Option<(P::Gen, T)> {
        let next = self.freelist_root.unwrap_or(inx);
        let slot = self.m.get_mut(from_checked_ptr::<P>(inx))?;
        let ArenaSlot::Allocated(..) = slot else { return None };
        let ArenaSlot::Allocated(generation, t) = mem::replace(slot, ArenaSlot::Free(next)) else { unreachable!() };
        self.freelist_root = Some(inx);
        self.len -= 1;
        Some((generation, t))
    }

    /// Fills an empty arena slot by slot: what is `None` is free, and the lowest free slot is taken first.
    pub(crate) fn fill(&mut self, slots: Vec<Option<(P::Gen, T)>>) {
        let mut free = Vec::new();
        for (slot, inx) in slots.into_iter().zip(nzusize_iter(NonZeroUsize::MIN, Some(NonZeroUsize::MAX))) {
            let slot = match slot {
                Some((generation, t)) => {
                    self.len += 1;
                    ArenaSlot::Allocated(generation, t)
                }
                None => {
                    free.push(inx);
                    ArenaSlot::Free(from_checked_raw::<P>(inx))
                }
            };
            if self.m.push(slot).is_err() {
                unreachable!()
            }
        }
        for inx in free.into_iter().rev() {
            let next = self.freelist_root.unwrap_or(from_checked_raw::<P>(inx));
            *self.m.get_mut(inx).unwrap() = ArenaSlot::Free(next);
            self.freelist_root = Some(from_checked_raw::<P>(inx));
        }
    }
}

impl<P: Ptr, T, B: ArenaBacking> ArenaTrait<P, T> for Arena<P, T, B> {
    type PtrAdvancer = arena_iterators::PtrAdvancer<P>;

    fn new() -> Self {
        Arena { m: NonZeroInxGenericStack::new(), freelist_root: None, len: 0, generation: P::Gen::two() }
    }

    fn with_min_capacity(min_capacity: usize) -> Result<Self, AllocError> {
        Ok(Arena { m: NonZeroInxGenericStack::with_min_capacity(min_capacity)?, ..Self::new() })
    }

    fn capacity(&self) -> usize {
        self.m.capacity()
    }

    fn max_capacity(&self) -> Option<usize> {
        self.m.max_capacity()
    }

    fn reallocate_min_capacity(&mut self, min_capacity: usize) -> Result<(), ReallocationError> {
        self.m.reallocate_min_capacity(min_capacity)
    }

    fn len(&self) -> usize {
        self.len
    }

    fn is_empty(&self) -> bool {
        self.len == 0
    }

    fn singular_generation(&self) -> Option<P::Gen> {
        Some(self.generation)
    }

    fn get_inx(&self, p: P::Inx) -> Option<(P::Gen, &T)> {
        match self.m.get(P::Inx::try_into_usize(p)?)? {
            ArenaSlot::Allocated(generation, t) => Some((*generation, t)),
            ArenaSlot::Free(_) => None,
        }
    }

    fn get_inx_mut(&mut self, p: P::Inx) -> Option<(P::Gen, &mut T)> {
        match self.m.get_mut(P::Inx::try_into_usize(p)?)? {
            ArenaSlot::Allocated(generation, t) => Some((*generation, t)),
            ArenaSlot::Free(_) => None,
        }
    }

    fn find_first_inx_ptr(&self) -> Option<P> {
        self.iter().next().map(|(p, _)| p)
    }

    fn find_last_inx_ptr(&self) -> Option<P> {
        self.iter().last().map(|(p, _)| p)
    }

    fn advancer_inx(&self, inx: P::Inx, rev: bool) -> Self::PtrAdvancer {
        arena_iterators::PtrAdvancer::new(inx, rev)
    }

    fn invalidate(&mut self, p: P) -> InvalidationResult<P> {
        if !self.contains(p) {
            return InvalidationResult::InvalidPtr;
        }
        let (_, overflow) = self.inc_generation().overflowing();
        let next = self.generation;
        if let Some(ArenaSlot::Allocated(generation, _)) = self.m.get_mut(from_checked_ptr::<P>(p.inx())) {
            *generation = next;
        }
        InvalidationResult::new(P::_from_raw(p.inx(), next), overflow)
    }

    fn drain(&mut self) -> impl Iterator<Item = InvalidationOption<(P, T)>> {
        let mut left = self.nziter();
        std::iter::from_fn(move || {
            let p = left.by_ref().find_map(|inx| self.ptr_at(inx))?;
            Some(self.remove(p).unwrap().map(|t| (p, t)))
        })
    }

    fn remove_inx(&mut self, p: P::Inx) -> InvalidationResult<(P::Gen, T)> {
        let Some(removed) = self.free(p) else { return InvalidationResult::InvalidPtr };
        let (_, overflow) = self.inc_generation().overflowing();
        InvalidationResult::new(removed, overflow)
    }

    fn clear(&mut self) -> InvalidationOption<()> {
        self.m.clear();
        self.freelist_root = None;
        self.len = 0;
        self.inc_generation()
    }

    fn compress_with<F: FnMut(P, &mut T, P)>(&mut self, reset: bool, mut map: F) -> InvalidationOption<()> {
        let res = self.next_generation(reset);
        let mut i = NonZeroUsize::MIN;
        for j in self.nziter() {
            let Some(old) = self.ptr_at(j) else { continue };
            let new = P::_from_raw(from_checked_raw::<P>(i), self.generation);
            let slot = mem::replace(self.m.get_mut(j).unwrap(), ArenaSlot::Free(old.inx()));
            let ArenaSlot::Allocated(_, mut t) = slot else { unreachable!() };
            map(old, &mut t, new);
            *self.m.get_mut(i).unwrap() = ArenaSlot::Allocated(self.generation, t);
            i = i.checked_add(1).unwrap();
        }
        self.remove_free_end_slots();
        self.freelist_root = None;
        res
    }
}

impl<P: Ptr, T, B: ArenaBacking> Arena<P, T, B> {
    /// The first generation again, or the next one.
    pub(crate) fn next_generation(&mut self, reset: bool) -> InvalidationOption<()> {
        if reset {
            self.generation = P::Gen::two();
            return InvalidationOption::Success(());
        }
        self.inc_generation()
    }

    pub(crate) fn ptr_at(&self, inx: NonZeroUsize) -> Option<P> {
        match self.m.get(inx) {
            Some(ArenaSlot::Allocated(generation, _)) => Some(P::_from_raw(from_checked_raw::<P>(inx), *generation)),
            _ => None,
        }
    }
}

impl<P: Ptr, T, B: ArenaBacking> DisjointableArenaTrait<P, T> for Arena<P, T, B> {
    fn get_disjoint_inx_mut<const N: usize>(
        &mut self,
        indices: [P::Inx; N],
    ) -> Result<[(P::Gen, &mut T); N], GetDisjointMutError> {
        if indices.iter().any(|inx| self.get_inx(*inx).is_none()) {
            return Err(GetDisjointMutError::IndexOutOfBounds);
        }
        let slots = self.m.get_disjoint_mut(indices.map(from_checked_ptr::<P>))?;
        Ok(slots.map(|slot| match slot {
            ArenaSlot::Allocated(generation, t) => (*generation, t),
            ArenaSlot::Free(_) => unreachable!(),
        }))
    }

    fn iter_mut<'a>(&'a mut self) -> impl Iterator<Item = (P, &'a mut T)>
    where
        T: 'a,
    {
        let inx = nzusize_iter(NonZeroUsize::MIN, Some(NonZeroUsize::MAX));
        self.m.slice_mut().iter_mut().zip(inx).filter_map(|(slot, inx)| match slot {
            ArenaSlot::Allocated(generation, t) => Some((P::_from_raw(from_checked_raw::<P>(inx), *generation), t)),
            ArenaSlot::Free(_) => None,
        })
    }
}

/// What the next insertion would be: the room is there.
pub struct ArenaInsertEntry<'a, P: Ptr, T, B: ArenaBacking> {
    this: &'a mut Arena<P, T, B>,
}

impl<P: Ptr, T, B: ArenaBacking> ArenaInsertEntryTrait<P, T> for ArenaInsertEntry<'_, P, T, B> {
    fn ptr(&self) -> P {
        P::_from_raw(self.this.next_inx(), self.this.generation)
    }

    fn insert(self, t: T) {
        self.this.put(t);
    }
}

impl<P: Ptr, T, B: ArenaBacking> ArenaInsertTrait<P, T> for Arena<P, T, B> {
    type Entry<'a>
        = ArenaInsertEntry<'a, P, T, B>
    where
        Self: 'a;

    fn entry_insert_within_capacity(&mut self) -> Result<Self::Entry<'_>, NotWithinCapacityError> {
        if self.full() {
            return Err(NotWithinCapacityError);
        }
        Ok(ArenaInsertEntry { this: self })
    }

    fn entry_insert_reallocating(&mut self) -> Result<Self::Entry<'_>, ReallocationError> {
        self.grow()?;
        Ok(ArenaInsertEntry { this: self })
    }
}

impl<P: Ptr, T, B: ArenaBacking> ArenaCloneFromWith<P, T> for Arena<P, T, B> {
    fn clone_from_with<T1, A: ArenaTrait<P, T1>, F: FnMut(P, &T1) -> T>(
        &mut self,
        source: &A,
        mut map: F,
    ) -> Result<(), ReallocationError> {
        let last = source.find_last_inx_ptr().map_or(0, |p| from_checked_ptr::<P>(p.inx()).get());
        self.m.reallocate_min_capacity(last)?;
        self.clear().allow();
        if let Some(generation) = source.singular_generation() {
            self.generation = generation;
        }
        let slot = |inx| {
            let (generation, t) = source.get_inx(from_checked_raw::<P>(inx))?;
            Some((generation, map(P::_from_raw(from_checked_raw::<P>(inx), generation), t)))
        };
        let slots = nzusize_iter(NonZeroUsize::MIN, NonZeroUsize::new(last)).map(slot).collect();
        self.fill(slots);
        Ok(())
    }
}

impl<P: Ptr, T: Clone, B: ArenaBacking> Clone for Arena<P, T, B> {
    fn clone(&self) -> Self {
        let mut copy = Self::with_min_capacity(self.capacity()).unwrap();
        copy.clone_from_with(self, |_, t: &T| t.clone()).unwrap();
        copy
    }
}

impl<P: Ptr, T, B: ArenaBacking> SetMaxCapacity for Arena<P, T, B>
where
    B::Stack<ArenaSlot<P, T>>: SetMaxCapacity,
{
    fn set_max_capacity(&mut self, max_capacity: usize) -> Result<(), MaxCapacityReductionError> {
        self.m.set_max_capacity(max_capacity)
    }
}
