//! The traits that arenas share, as far as the three files use them.

use crate::errors::{AllocError, NotWithinCapacityError, ReallocationError};
use crate::fundamental::{Advancer, InvalidationOption, InvalidationResult, Ptr};
use std::slice::GetDisjointMutError;

pub trait ArenaTrait<P: Ptr, T>: Sized {
    type PtrAdvancer: Advancer<Self, Item = P>;

    fn new() -> Self;
    fn with_min_capacity(min_capacity: usize) -> Result<Self, AllocError>;
    fn capacity(&self) -> usize;
    fn max_capacity(&self) -> Option<usize>;
    fn reallocate_min_capacity(&mut self, min_capacity: usize) -> Result<(), ReallocationError>;
    fn len(&self) -> usize;
    fn is_empty(&self) -> bool;
    fn singular_generation(&self) -> Option<P::Gen>;
    fn get_inx(&self, p: P::Inx) -> Option<(P::Gen, &T)>;
    fn get_inx_mut(&mut self, p: P::Inx) -> Option<(P::Gen, &mut T)>;
    fn find_first_inx_ptr(&self) -> Option<P>;
    fn find_last_inx_ptr(&self) -> Option<P>;
    fn advancer_inx(&self, inx: P::Inx, rev: bool) -> Self::PtrAdvancer;
    fn invalidate(&mut self, p: P) -> InvalidationResult<P>;
    fn drain(&mut self) -> impl Iterator<Item = InvalidationOption<(P, T)>>;
    fn remove_inx(&mut self, p: P::Inx) -> InvalidationResult<(P::Gen, T)>;
    fn clear(&mut self) -> InvalidationOption<()>;
    fn compress_with<F: FnMut(P, &mut T, P)>(&mut self, reset_generation: bool, map: F) -> InvalidationOption<()>;

    fn get(&self, p: P) -> Option<&T> {
        self.get_inx(p.inx()).filter(|(generation, _)| *generation == p.generation()).map(|(_, t)| t)
    }

    fn get_mut(&mut self, p: P) -> Option<&mut T> {
        self.get_inx_mut(p.inx()).filter(|(generation, _)| *generation == p.generation()).map(|(_, t)| t)
    }

    fn contains(&self, p: P) -> bool {
        self.get(p).is_some()
    }

    #[track_caller]
    fn get_inx_unwrap(&self, p: P::Inx) -> &T {
        self.get_inx(p).unwrap().1
    }

    #[track_caller]
    fn get_inx_mut_unwrap(&mut self, p: P::Inx) -> &mut T {
        self.get_inx_mut(p).unwrap().1
    }

    fn remove(&mut self, p: P) -> InvalidationResult<T> {
        if !self.contains(p) {
            return InvalidationResult::InvalidPtr;
        }
        self.remove_inx(p.inx()).map(|(_, t)| t)
    }

    fn advancer(&self) -> Self::PtrAdvancer {
        self.find_first_inx_ptr().map_or_else(Self::PtrAdvancer::empty, |first| self.advancer_inx(first.inx(), false))
    }

    fn vals<'a>(&'a self) -> impl Iterator<Item = &'a T>
    where
        T: 'a,
    {
        let mut adv = self.advancer();
        std::iter::from_fn(move || adv.advance(self).map(|p| self.get_inx_unwrap(p.inx())))
    }
}

/// Several entries can be had at once.
pub trait DisjointableArenaTrait<P: Ptr, T>: ArenaTrait<P, T> {
    fn get_disjoint_inx_mut<const N: usize>(
        &mut self,
        indices: [P::Inx; N],
    ) -> Result<[(P::Gen, &mut T); N], GetDisjointMutError>;

    fn iter_mut<'a>(&'a mut self) -> impl Iterator<Item = (P, &'a mut T)>
    where
        T: 'a;

    fn get_disjoint_mut<const N: usize>(&mut self, indices: [P; N]) -> Result<[&mut T; N], GetDisjointMutError> {
        if indices.iter().any(|p| !self.contains(*p)) {
            return Err(GetDisjointMutError::IndexOutOfBounds);
        }
        Ok(self.get_disjoint_inx_mut(indices.map(Ptr::inx))?.map(|(_, t)| t))
    }

    fn vals_mut<'a>(&'a mut self) -> impl Iterator<Item = &'a mut T>
    where
        T: 'a,
    {
        self.iter_mut().map(|(_, t)| t)
    }
}

/// Compression takes all free slots away.
pub trait CompactArenaTrait<P: Ptr, T>: ArenaTrait<P, T> {}

pub trait ArenaInsertEntryTrait<P: Ptr, T> {
    fn ptr(&self) -> P;
    fn insert(self, t: T);
}

pub trait ArenaInsertTrait<P: Ptr, T>: ArenaTrait<P, T> {
    type Entry<'a>: ArenaInsertEntryTrait<P, T>
    where
        Self: 'a;

    fn entry_insert_within_capacity(&mut self) -> Result<Self::Entry<'_>, NotWithinCapacityError>;
    fn entry_insert_reallocating(&mut self) -> Result<Self::Entry<'_>, ReallocationError>;

    #[track_caller]
    fn insert(&mut self, t: T) -> P {
        let entry = self.entry_insert_reallocating().expect("insertion failed");
        let p = entry.ptr();
        entry.insert(t);
        p
    }
}

/// Becomes a copy of another arena: the same pointers are valid.
pub trait ArenaCloneFromWith<P: Ptr, T> {
    fn clone_from_with<T1, A: ArenaTrait<P, T1>, F: FnMut(P, &T1) -> T>(
        &mut self,
        source: &A,
        map: F,
    ) -> Result<(), ReallocationError>;
}
