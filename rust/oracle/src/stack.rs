//! Where an arena's slots stand: a vector with indexes from 1.

use crate::errors::{AllocError, MaxCapacityReductionError, ReallocationError};
use std::num::NonZeroUsize;
use std::slice::GetDisjointMutError;

pub trait ArenaBacking {
    type Stack<T>: NonZeroInxGenericStack<T>;
}

pub trait NonZeroInxGenericStack<T>: Sized {
    fn new() -> Self;
    fn with_min_capacity(capacity: usize) -> Result<Self, AllocError>;
    fn capacity(&self) -> usize;
    fn max_capacity(&self) -> Option<usize>;
    fn reallocate_min_capacity(&mut self, capacity: usize) -> Result<(), ReallocationError>;
    fn len(&self) -> usize;
    fn get(&self, inx: NonZeroUsize) -> Option<&T>;
    fn get_mut(&mut self, inx: NonZeroUsize) -> Option<&mut T>;
    fn get_disjoint_mut<const N: usize>(&mut self, inx: [NonZeroUsize; N]) -> Result<[&mut T; N], GetDisjointMutError>;
    /// Within capacity, else the value comes back.
    fn push(&mut self, t: T) -> Result<(), T>;
    fn pop(&mut self) -> Option<T>;
    fn clear(&mut self);
    fn slice_mut(&mut self) -> &mut [T];
}

/// A limit on the capacity can be set.
pub trait SetMaxCapacity {
    fn set_max_capacity(&mut self, max_capacity: usize) -> Result<(), MaxCapacityReductionError>;
}

/// The heap.
pub struct HeapBacking;

impl ArenaBacking for HeapBacking {
    type Stack<T> = NonZeroInxVec<T>;
}

/// A vector with indexes from 1 and a capacity of its own, exactly as large as was asked for.
pub struct NonZeroInxVec<T> {
    v: Vec<T>,
    capacity: usize,
}

impl<T> NonZeroInxGenericStack<T> for NonZeroInxVec<T> {
    fn new() -> Self {
        NonZeroInxVec { v: Vec::new(), capacity: 0 }
    }

    fn with_min_capacity(capacity: usize) -> Result<Self, AllocError> {
        Ok(NonZeroInxVec { v: Vec::with_capacity(capacity), capacity })
    }

    fn capacity(&self) -> usize {
        self.capacity
    }

    fn max_capacity(&self) -> Option<usize> {
        None
    }

    fn reallocate_min_capacity(&mut self, capacity: usize) -> Result<(), ReallocationError> {
        if capacity > self.capacity {
            self.v.reserve(capacity - self.v.len());
            self.capacity = capacity;
        }
        Ok(())
    }

    fn len(&self) -> usize {
        self.v.len()
    }

    fn get(&self, inx: NonZeroUsize) -> Option<&T> {
        self.v.get(inx.get() - 1)
    }

    fn get_mut(&mut self, inx: NonZeroUsize) -> Option<&mut T> {
        self.v.get_mut(inx.get() - 1)
    }

    fn get_disjoint_mut<const N: usize>(&mut self, inx: [NonZeroUsize; N]) -> Result<[&mut T; N], GetDisjointMutError> {
        self.v.get_disjoint_mut(inx.map(|inx| inx.get() - 1))
    }

    fn push(&mut self, t: T) -> Result<(), T> {
        if self.v.len() == self.capacity {
            return Err(t);
        }
        self.v.push(t);
        Ok(())
    }

    fn pop(&mut self) -> Option<T> {
        self.v.pop()
    }

    fn clear(&mut self) {
        self.v.clear();
    }

    fn slice_mut(&mut self) -> &mut [T] {
        &mut self.v
    }
}
