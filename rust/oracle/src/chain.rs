//! The chain arena: an arena of links. All chains are cyclic here.

use crate::arena::{
    Arena, ArenaCloneFromWith, ArenaSlot, ArenaTrait, DisjointableArenaTrait, arena_iterators, from_checked_ptr,
    from_checked_raw,
};
use crate::errors::{AllocError, ChainInsertionError, MaxCapacityReductionError, ReallocationError};
use crate::fundamental::{Advancer, InvalidationOption, InvalidationResult, Ptr};
use crate::stack::{ArenaBacking, HeapBacking, NonZeroInxGenericStack, SetMaxCapacity};
use std::mem;
use std::num::NonZeroUsize;
use std::slice::GetDisjointMutError;

/// A value and its neighbours.
#[derive(Clone)]
pub struct LinkNoGen<P: Ptr, T> {
    prev_next: (Option<P::Inx>, Option<P::Inx>),
    pub t: T,
}

impl<P: Ptr, T> LinkNoGen<P, T> {
    pub fn new(prev_next: (Option<P::Inx>, Option<P::Inx>), t: T) -> Self {
        LinkNoGen { prev_next, t }
    }

    pub fn prev_next(&self) -> (Option<P::Inx>, Option<P::Inx>) {
        self.prev_next
    }

    pub fn prev(&self) -> Option<P::Inx> {
        self.prev_next.0
    }

    pub fn next(&self) -> Option<P::Inx> {
        self.prev_next.1
    }
}

/// Where a new link goes.
pub enum LinkInsertKind<P: Ptr> {
    /// A chain of its own.
    SingleLinkCyclic,
    /// Next to this one: the side is the stand-in's choice.
    NextToInx(P::Inx),
}

pub struct ChainArena<P: Ptr, T, B: ArenaBacking = HeapBacking> {
    pub(crate) a: Arena<P, LinkNoGen<P, T>, B>,
}

/// What the next insertion would be: the room is there.
pub struct ChainArenaInsertEntry<P: Ptr> {
    p: P,
}

impl<P: Ptr> ChainArenaInsertEntry<P> {
    pub fn ptr(&self) -> P {
        self.p
    }
}

impl<P: Ptr, T, B: ArenaBacking> ChainArena<P, T, B> {
    pub fn _check_invariants(this: &Self) -> Result<(), &'static str> {
        Arena::_check_invariants(&this.a)?;
        for (p, link) in &this.a {
            let (Some(prev), Some(next)) = link.prev_next else { return Err("a chain is not cyclic") };
            let (Some((_, before)), Some((_, after))) = (this.a.get_inx(prev), this.a.get_inx(next)) else {
                return Err("a link leads to a free slot");
            };
            if before.next() != Some(p.inx()) || after.prev() != Some(p.inx()) {
                return Err("links do not undo each other");
            }
        }
        Ok(())
    }

    fn next_of(&self, inx: P::Inx) -> P::Inx {
        self.a.get_inx_unwrap(inx).next().unwrap()
    }

    /// The second stands immediately after the first.
    fn join(&mut self, first: P::Inx, second: P::Inx) {
        self.a.get_inx_mut_unwrap(first).prev_next.1 = Some(second);
        self.a.get_inx_mut_unwrap(second).prev_next.0 = Some(first);
    }

    /// Inserts, making room where there is none.
    pub(crate) fn insert(&mut self, kind: LinkInsertKind<P>, t: T) -> P {
        self.a.grow().unwrap();
        let p = self.a.put(LinkNoGen::new((None, None), t));
        let inx = p.inx();
        match kind {
            LinkInsertKind::SingleLinkCyclic => self.join(inx, inx),
            LinkInsertKind::NextToInx(target) => {
                let (before, after) = if cfg!(feature = "before") {
                    (self.a.get_inx_unwrap(target).prev().unwrap(), target)
                } else {
                    (target, self.next_of(target))
                };
                self.join(before, inx);
                self.join(inx, after);
            }
        }
        p
    }

    fn entry(&self) -> ChainArenaInsertEntry<P> {
        ChainArenaInsertEntry { p: P::_from_raw(self.a.next_inx(), self.a.generation) }
    }

    pub(crate) fn entry_insert_within_capacity(
        &mut self,
        _kind: LinkInsertKind<P>,
    ) -> Result<ChainArenaInsertEntry<P>, ChainInsertionError> {
        if self.a.full() { Err(ChainInsertionError::NotWithinCapacity) } else { Ok(self.entry()) }
    }

    pub(crate) fn entry_insert_reallocating(
        &mut self,
        _kind: LinkInsertKind<P>,
    ) -> Result<ChainArenaInsertEntry<P>, ChainInsertionError> {
        self.a.grow().map_err(|_| ChainInsertionError::AllocError)?;
        Ok(self.entry())
    }

    pub fn generation(&self) -> P::Gen {
        self.a.generation()
    }

    pub fn set_generation(&mut self, generation: P::Gen) {
        self.a.set_generation(generation);
    }

    pub fn inc_generation(&mut self) -> InvalidationOption<()> {
        self.a.inc_generation()
    }

    pub(crate) fn internal_iter(&self) -> arena_iterators::Iter<'_, P, LinkNoGen<P, T>, B> {
        self.a.iter()
    }

    /// Frees a chain from the given link along next. The generation is left to the caller.
    pub(crate) fn remove_cyclic_chain_internal(&mut self, init: P::Inx) {
        let mut inx = init;
        loop {
            let (_, link) = self.a.free(inx).unwrap();
            inx = link.next().unwrap();
            if inx == init {
                break;
            }
        }
    }

    /// All links chain by chain, each chain from its lowest; and the chains' sizes.
    fn canonical_order(&self) -> (Vec<P::Inx>, Vec<usize>) {
        let mut met = vec![false; self.a.m.len()];
        let (mut order, mut sizes) = (Vec::with_capacity(self.a.len), vec![]);
        for (p, _) in &self.a {
            let first = order.len();
            let mut inx = p.inx();
            while !mem::replace(&mut met[from_checked_ptr::<P>(inx).get() - 1], true) {
                order.push(inx);
                inx = self.next_of(inx);
            }
            if order.len() > first {
                sizes.push(order.len() - first);
            }
        }
        (order, sizes)
    }

    /// Fills an empty arena with chains of these sizes, in order.
    fn lay_out(&mut self, sizes: Vec<usize>, ts: Vec<T>) {
        let mut ts = ts.into_iter();
        for size in sizes {
            let first = self.a.m.len() + 1;
            for at in first..first + size {
                let inx = |at: usize| Some(from_checked_raw::<P>(NonZeroUsize::new(at).unwrap()));
                let prev = if at == first { first + size - 1 } else { at - 1 };
                let next = if at == first + size - 1 { first } else { at + 1 };
                self.a.put(LinkNoGen::new((inx(prev), inx(next)), ts.next().unwrap()));
            }
        }
    }

    /// Moves all links of `source` here, chain by chain.
    pub fn transfer_canonical_reallocating<
        Q: Ptr,
        T1,
        B1: ArenaBacking,
        F: FnMut(Q, InvalidationOption<T1>, P) -> T,
    >(
        &mut self,
        new_generation: P::Gen,
        source: &mut ChainArena<Q, T1, B1>,
        mut map: F,
    ) -> Result<(), ReallocationError> {
        self.a.m.reallocate_min_capacity(source.a.len)?;
        self.clear().allow();
        self.set_generation(new_generation);
        let (order, sizes) = source.canonical_order();
        let mut ts = Vec::with_capacity(order.len());
        for inx in order {
            let to = from_checked_raw::<P>(NonZeroUsize::new(ts.len() + 1).unwrap());
            let ((generation, t), overflow) = source.remove_inx(inx).unwrap().overflowing();
            let p = P::_from_raw(to, new_generation);
            ts.push(map(Q::_from_raw(inx, generation), InvalidationOption::new(t, overflow), p));
        }
        self.lay_out(sizes, ts);
        Ok(())
    }

    pub fn clone_from_with<T1, B1: ArenaBacking, F: FnMut(P, &LinkNoGen<P, T1>) -> T>(
        &mut self,
        source: &ChainArena<P, T1, B1>,
        mut map: F,
    ) -> Result<(), ReallocationError> {
        self.a.clone_from_with(&source.a, |p, link: &LinkNoGen<P, T1>| LinkNoGen::new(link.prev_next, map(p, link)))
    }

    pub fn clone_to_arena<U, A: ArenaCloneFromWith<P, U>, F: FnMut(P, &LinkNoGen<P, T>) -> U>(
        &self,
        arena: &mut A,
        map: F,
    ) -> Result<(), ReallocationError> {
        arena.clone_from_with(&self.a, map)
    }

    pub fn backing(&self) -> &B::Stack<ArenaSlot<P, LinkNoGen<P, T>>> {
        self.a.backing()
    }

    /// # Safety
    ///
    /// Which slots are free and how they are linked must not be changed.
    pub unsafe fn backing_mut(&mut self) -> &mut B::Stack<ArenaSlot<P, LinkNoGen<P, T>>> {
        unsafe { self.a.backing_mut() }
    }
}

/// What is particular to chains.
pub trait ChainArenaTrait<P: Ptr, T> {
    fn get_inx_link_no_gen(&self, p: P::Inx) -> Option<(P::Gen, &LinkNoGen<P, T>)>;
    fn advancer_chain(&self, p_init: P) -> Option<ChainPtrAdvancer<P>>;
    /// Exchanges what comes next after the two, previous links following.
    fn exchange_next(&mut self, p0: P, p1: P) -> Option<()>;
    /// Chains by their lowest slot, each from there, move down to the first slots.
    fn compress_canonical(&mut self, reset_generation: bool) -> InvalidationOption<()>;
}

impl<P: Ptr, T, B: ArenaBacking> ChainArenaTrait<P, T> for ChainArena<P, T, B> {
    fn get_inx_link_no_gen(&self, p: P::Inx) -> Option<(P::Gen, &LinkNoGen<P, T>)> {
        self.a.get_inx(p)
    }

    fn advancer_chain(&self, p_init: P) -> Option<ChainPtrAdvancer<P>> {
        self.contains(p_init).then_some(ChainPtrAdvancer { init: p_init.inx(), next: Some(p_init.inx()) })
    }

    fn exchange_next(&mut self, p0: P, p1: P) -> Option<()> {
        if !self.contains(p0) || !self.contains(p1) {
            return None;
        }
        let (next0, next1) = (self.next_of(p0.inx()), self.next_of(p1.inx()));
        self.join(p0.inx(), next1);
        self.join(p1.inx(), next0);
        Some(())
    }

    fn compress_canonical(&mut self, reset_generation: bool) -> InvalidationOption<()> {
        let (order, sizes) = self.canonical_order();
        let res = self.a.next_generation(reset_generation);
        let ts = order.into_iter().map(|inx| self.a.free(inx).unwrap().1.t).collect();
        self.a.m.clear();
        self.a.freelist_root = None;
        self.lay_out(sizes, ts);
        res
    }
}

/// Goes once round a chain.
pub struct ChainPtrAdvancer<P: Ptr> {
    init: P::Inx,
    next: Option<P::Inx>,
}

impl<P: Ptr, T, B: ArenaBacking> Advancer<ChainArena<P, T, B>> for ChainPtrAdvancer<P> {
    type Item = P;

    fn advance(&mut self, collection: &ChainArena<P, T, B>) -> Option<P> {
        let inx = self.next?;
        let (generation, link) = collection.a.get_inx(inx)?;
        self.next = link.next().filter(|next| *next != self.init);
        Some(P::_from_raw(inx, generation))
    }

    fn empty() -> Self {
        ChainPtrAdvancer { init: P::invalid().inx(), next: None }
    }
}

/// Goes over all links.
pub struct PtrAdvancer<P: Ptr>(arena_iterators::PtrAdvancer<P>);

impl<P: Ptr, T, B: ArenaBacking> Advancer<ChainArena<P, T, B>> for PtrAdvancer<P> {
    type Item = P;

    fn advance(&mut self, collection: &ChainArena<P, T, B>) -> Option<P> {
        self.0.advance(&collection.a)
    }

    fn empty() -> Self {
        PtrAdvancer(<arena_iterators::PtrAdvancer<P> as Advancer<Arena<P, LinkNoGen<P, T>, B>>>::empty())
    }
}

impl<P: Ptr, T, B: ArenaBacking> ArenaTrait<P, T> for ChainArena<P, T, B> {
    type PtrAdvancer = PtrAdvancer<P>;

    fn new() -> Self {
        ChainArena { a: Arena::new() }
    }

    fn with_min_capacity(min_capacity: usize) -> Result<Self, AllocError> {
        Ok(ChainArena { a: Arena::with_min_capacity(min_capacity)? })
    }

    fn capacity(&self) -> usize {
        self.a.capacity()
    }

    fn max_capacity(&self) -> Option<usize> {
        self.a.max_capacity()
    }

    fn reallocate_min_capacity(&mut self, min_capacity: usize) -> Result<(), ReallocationError> {
        self.a.reallocate_min_capacity(min_capacity)
    }

    fn len(&self) -> usize {
        self.a.len()
    }

    fn is_empty(&self) -> bool {
        self.a.is_empty()
    }

    fn singular_generation(&self) -> Option<P::Gen> {
        self.a.singular_generation()
    }

    fn get_inx(&self, p: P::Inx) -> Option<(P::Gen, &T)> {
        self.a.get_inx(p).map(|(generation, link)| (generation, &link.t))
    }

    fn get_inx_mut(&mut self, p: P::Inx) -> Option<(P::Gen, &mut T)> {
        self.a.get_inx_mut(p).map(|(generation, link)| (generation, &mut link.t))
    }

    fn find_first_inx_ptr(&self) -> Option<P> {
        self.a.find_first_inx_ptr()
    }

    fn find_last_inx_ptr(&self) -> Option<P> {
        self.a.find_last_inx_ptr()
    }

    fn advancer_inx(&self, inx: P::Inx, rev: bool) -> PtrAdvancer<P> {
        PtrAdvancer(self.a.advancer_inx(inx, rev))
    }

    fn invalidate(&mut self, p: P) -> InvalidationResult<P> {
        self.a.invalidate(p)
    }

    fn drain(&mut self) -> impl Iterator<Item = InvalidationOption<(P, T)>> {
        self.a.drain().map(|o| o.map(|(p, link)| (p, link.t)))
    }

    /// The neighbours of the removed link become neighbours.
    fn remove_inx(&mut self, p: P::Inx) -> InvalidationResult<(P::Gen, T)> {
        let Some((_, link)) = self.a.get_inx(p) else { return InvalidationResult::InvalidPtr };
        let (prev, next) = (link.prev().unwrap(), link.next().unwrap());
        self.join(prev, next);
        self.a.remove_inx(p).map(|(generation, link)| (generation, link.t))
    }

    fn clear(&mut self) -> InvalidationOption<()> {
        self.a.clear()
    }

    fn compress_with<F: FnMut(P, &mut T, P)>(&mut self, reset: bool, mut map: F) -> InvalidationOption<()> {
        let mut to = vec![None; self.a.m.len()];
        let res = self.a.compress_with(reset, |old, link, new| {
            to[from_checked_ptr::<P>(old.inx()).get() - 1] = Some(new.inx());
            map(old, &mut link.t, new);
        });
        for (_, link) in self.a.iter_mut() {
            let moved = |inx: Option<P::Inx>| to[from_checked_ptr::<P>(inx.unwrap()).get() - 1];
            link.prev_next = (moved(link.prev_next.0), moved(link.prev_next.1));
        }
        res
    }
}

impl<P: Ptr, T, B: ArenaBacking> DisjointableArenaTrait<P, T> for ChainArena<P, T, B> {
    fn get_disjoint_inx_mut<const N: usize>(
        &mut self,
        indices: [P::Inx; N],
    ) -> Result<[(P::Gen, &mut T); N], GetDisjointMutError> {
        Ok(self.a.get_disjoint_inx_mut(indices)?.map(|(generation, link)| (generation, &mut link.t)))
    }

    fn iter_mut<'a>(&'a mut self) -> impl Iterator<Item = (P, &'a mut T)>
    where
        T: 'a,
    {
        self.a.iter_mut().map(|(p, link)| (p, &mut link.t))
    }
}

impl<P: Ptr, T: Clone, B: ArenaBacking> Clone for ChainArena<P, T, B> {
    fn clone(&self) -> Self {
        ChainArena { a: self.a.clone() }
    }
}

impl<P: Ptr, T, B: ArenaBacking> SetMaxCapacity for ChainArena<P, T, B>
where
    B::Stack<ArenaSlot<P, LinkNoGen<P, T>>>: SetMaxCapacity,
{
    fn set_max_capacity(&mut self, max_capacity: usize) -> Result<(), MaxCapacityReductionError> {
        self.a.set_max_capacity(max_capacity)
    }
}
