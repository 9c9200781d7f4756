//! Going over an arena.

use super::{Arena, ArenaTrait, from_checked_ptr};
use crate::fundamental::{Advancer, Ptr};
use crate::stack::{ArenaBacking, NonZeroInxGenericStack};
use std::num::NonZeroUsize;

/// Goes over the allocated slots, upwards or downwards.
pub struct PtrAdvancer<P: Ptr> {
    next: Option<NonZeroUsize>,
    rev: bool,
    _p: std::marker::PhantomData<P>,
}

impl<P: Ptr> PtrAdvancer<P> {
    pub(crate) fn new(inx: P::Inx, rev: bool) -> Self {
        PtrAdvancer { next: Some(from_checked_ptr::<P>(inx)), rev, _p: std::marker::PhantomData }
    }
}

impl<P: Ptr, T, B: ArenaBacking> Advancer<Arena<P, T, B>> for PtrAdvancer<P> {
    type Item = P;

    fn advance(&mut self, collection: &Arena<P, T, B>) -> Option<P> {
        while let Some(inx) = self.next {
            if inx.get() > collection.m.len() {
                self.next = None;
                break;
            }
            self.next = if self.rev { NonZeroUsize::new(inx.get() - 1) } else { inx.checked_add(1) };
            if let Some(p) = collection.ptr_at(inx) {
                return Some(p);
            }
        }
        None
    }

    fn empty() -> Self {
        PtrAdvancer { next: None, rev: false, _p: std::marker::PhantomData }
    }
}

/// The allocated slots, upwards.
pub struct Iter<'a, P: Ptr, T, B: ArenaBacking> {
    arena: &'a Arena<P, T, B>,
    adv: PtrAdvancer<P>,
}

impl<'a, P: Ptr, T, B: ArenaBacking> Iterator for Iter<'a, P, T, B> {
    type Item = (P, &'a T);

    fn next(&mut self) -> Option<(P, &'a T)> {
        let p = self.adv.advance(self.arena)?;
        self.arena.get_inx(p.inx()).map(|(_, t)| (p, t))
    }
}

impl<P: Ptr, T, B: ArenaBacking> Arena<P, T, B> {
    pub fn iter(&self) -> Iter<'_, P, T, B> {
        let first = super::from_checked_raw::<P>(NonZeroUsize::MIN);
        Iter { arena: self, adv: PtrAdvancer::new(first, false) }
    }
}

impl<'a, P: Ptr, T, B: ArenaBacking> IntoIterator for &'a Arena<P, T, B> {
    type IntoIter = Iter<'a, P, T, B>;
    type Item = (P, &'a T);

    fn into_iter(self) -> Iter<'a, P, T, B> {
        self.iter()
    }
}
