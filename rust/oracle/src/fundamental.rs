//! Pointers, generations, and the answers of calls that invalidate.

use std::fmt::{self, Debug};
use std::num::{NonZeroU32, NonZeroUsize};

/// An index from 1.
pub trait PtrInx: Copy + Eq + Debug {
    fn try_from_usize(inx: NonZeroUsize) -> Option<Self>;
    fn try_into_usize(inx: Self) -> Option<NonZeroUsize>;
}

impl PtrInx for NonZeroUsize {
    fn try_from_usize(inx: NonZeroUsize) -> Option<Self> {
        Some(inx)
    }

    fn try_into_usize(inx: Self) -> Option<NonZeroUsize> {
        Some(inx)
    }
}

/// A generation: invalid pointers have the first, arenas start with the second.
pub trait PtrGen: Copy + Eq + Debug {
    fn one() -> Self;
    fn two() -> Self;
    /// The next generation, and whether it overflowed.
    fn generational_inc(generation: Self) -> (Self, bool);
}

impl PtrGen for NonZeroU32 {
    fn one() -> Self {
        NonZeroU32::MIN
    }

    fn two() -> Self {
        NonZeroU32::new(2).unwrap()
    }

    fn generational_inc(generation: Self) -> (Self, bool) {
        generation.checked_add(1).map_or((Self::two(), true), |next| (next, false))
    }
}

impl PtrGen for () {
    fn one() -> Self {}

    fn two() -> Self {}

    fn generational_inc(_: Self) -> (Self, bool) {
        ((), false)
    }
}

/// An index and a generation.
pub trait Ptr: Copy + Eq + Debug {
    type Inx: PtrInx;
    type Gen: PtrGen;

    fn inx(self) -> Self::Inx;
    fn generation(self) -> Self::Gen;
    fn _from_raw(inx: Self::Inx, generation: Self::Gen) -> Self;

    fn invalid() -> Self {
        Self::_from_raw(Self::Inx::try_from_usize(NonZeroUsize::MAX).unwrap(), Self::Gen::one())
    }
}

/// A pointer without a generation, with the indexes of `P`.
pub struct PtrNoGen<P: Ptr>(P::Inx);

impl<P: Ptr> Clone for PtrNoGen<P> {
    fn clone(&self) -> Self {
        *self
    }
}

impl<P: Ptr> Copy for PtrNoGen<P> {}

impl<P: Ptr> PartialEq for PtrNoGen<P> {
    fn eq(&self, other: &Self) -> bool {
        self.0 == other.0
    }
}

impl<P: Ptr> Eq for PtrNoGen<P> {}

impl<P: Ptr> Debug for PtrNoGen<P> {
    fn fmt(&self, f: &mut fmt::Formatter<'_>) -> fmt::Result {
        write!(f, "[{:?}]", self.0)
    }
}

impl<P: Ptr> Ptr for PtrNoGen<P> {
    type Gen = ();
    type Inx = P::Inx;

    fn inx(self) -> P::Inx {
        self.0
    }

    fn generation(self) {}

    fn _from_raw(inx: P::Inx, _: ()) -> Self {
        PtrNoGen(inx)
    }
}

/// Makes a pointer type of this name.
#[macro_export]
macro_rules! ptr_struct {
    ($name:ident) => {
        #[derive(Clone, Copy, PartialEq, Eq, PartialOrd, Ord, Hash)]
        pub struct $name {
            inx: ::core::num::NonZeroUsize,
            generation: ::core::num::NonZeroU32,
        }

        impl $crate::traits::Ptr for $name {
            type Gen = ::core::num::NonZeroU32;
            type Inx = ::core::num::NonZeroUsize;

            fn inx(self) -> Self::Inx {
                self.inx
            }

            fn generation(self) -> Self::Gen {
                self.generation
            }

            fn _from_raw(inx: Self::Inx, generation: Self::Gen) -> Self {
                $name { inx, generation }
            }
        }

        impl ::core::fmt::Debug for $name {
            fn fmt(&self, f: &mut ::core::fmt::Formatter<'_>) -> ::core::fmt::Result {
                write!(f, "{}[{}]({})", stringify!($name), self.inx, self.generation)
            }
        }

        impl $crate::traits::Recast<$name> for $name {
            fn recast<R: $crate::traits::Recaster<Item = $name>>(
                &mut self,
                recaster: &R,
            ) -> Result<(), <R as $crate::traits::Recaster>::Item> {
                recaster.recast_item(self)
            }
        }
    };
}

/// The indexes from `start` to `end`, both included.
pub fn nzusize_iter(start: NonZeroUsize, end: Option<NonZeroUsize>) -> impl Iterator<Item = NonZeroUsize> {
    (start.get()..=end.map_or(0, NonZeroUsize::get)).map(|inx| NonZeroUsize::new(inx).unwrap())
}

/// Goes over a collection that may change between the steps.
pub trait Advancer<C: ?Sized> {
    type Item;

    fn advance(&mut self, collection: &C) -> Option<Self::Item>;
    fn empty() -> Self;
}

/// What came of an invalidation that cannot meet an invalid pointer.
#[derive(Clone, Copy, PartialEq, Eq, Debug)]
pub enum InvalidationOption<T> {
    Success(T),
    GenerationOverflow(T),
}

impl<T> InvalidationOption<T> {
    pub fn allow(self) -> T {
        self.overflowing().0
    }

    pub fn overflowing(self) -> (T, bool) {
        match self {
            InvalidationOption::Success(t) => (t, false),
            InvalidationOption::GenerationOverflow(t) => (t, true),
        }
    }

    pub fn map<U, F: FnOnce(T) -> U>(self, map: F) -> InvalidationOption<U> {
        let (t, overflow) = self.overflowing();
        InvalidationOption::new(map(t), overflow)
    }

    pub(crate) fn new(t: T, overflow: bool) -> Self {
        if overflow { InvalidationOption::GenerationOverflow(t) } else { InvalidationOption::Success(t) }
    }
}

/// What came of an invalidation.
#[derive(Clone, Copy, PartialEq, Eq, Debug)]
pub enum InvalidationResult<T> {
    Success(T),
    GenerationOverflow(T),
    InvalidPtr,
}

impl<T> InvalidationResult<T> {
    pub fn allow(self) -> Option<T> {
        match self {
            InvalidationResult::Success(t) | InvalidationResult::GenerationOverflow(t) => Some(t),
            InvalidationResult::InvalidPtr => None,
        }
    }

    #[track_caller]
    pub fn unwrap(self) -> InvalidationOption<T> {
        match self {
            InvalidationResult::Success(t) => InvalidationOption::Success(t),
            InvalidationResult::GenerationOverflow(t) => InvalidationOption::GenerationOverflow(t),
            InvalidationResult::InvalidPtr => panic!("an invalid `Ptr`"),
        }
    }

    pub fn map<U, F: FnOnce(T) -> U>(self, map: F) -> InvalidationResult<U> {
        match self {
            InvalidationResult::Success(t) => InvalidationResult::Success(map(t)),
            InvalidationResult::GenerationOverflow(t) => InvalidationResult::GenerationOverflow(map(t)),
            InvalidationResult::InvalidPtr => InvalidationResult::InvalidPtr,
        }
    }

    pub(crate) fn new(t: T, overflow: bool) -> Self {
        if overflow { InvalidationResult::GenerationOverflow(t) } else { InvalidationResult::Success(t) }
    }
}

pub mod errors {
    #[derive(Clone, Copy, PartialEq, Eq, Debug)]
    pub struct AllocError;

    #[derive(Clone, Copy, PartialEq, Eq, Debug)]
    pub struct NotWithinCapacityError;

    #[derive(Clone, Copy, PartialEq, Eq, Debug)]
    pub struct MaxCapacityReductionError;

    #[derive(Clone, Copy, PartialEq, Eq, Debug)]
    pub enum ReallocationError {
        AllocError,
        BeyondMaxCapacity,
    }

    #[derive(Clone, Copy, PartialEq, Eq, Debug)]
    pub enum ChainInsertionError {
        FailedLinkRequirement,
        NotWithinCapacity,
        AllocError,
        BeyondMaxCapacity,
    }
}
