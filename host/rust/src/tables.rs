//! Where an arena's head and tables stand: in memory of its own, or in the caller's.

use crate::sys::Head;

/// A head and two tables. What they hold is tested by every call, so any implementation is safe to use.
pub trait Tables {
    fn head(&self) -> &Head;
    fn elems(&self) -> &[u64];
    fn shared(&self) -> &[u64];
    fn parts(&mut self) -> (&mut Head, &mut [u64], &mut [u64]);
}

/// Tables of the arena's own.
#[derive(Clone, PartialEq, Eq, Debug)]
pub struct Owned {
    pub(crate) head: Head,
    pub(crate) elems: Box<[u64]>,
    pub(crate) shared: Box<[u64]>,
}

/// The caller's tables.
#[derive(PartialEq, Eq, Debug)]
pub struct Borrowed<'a> {
    pub(crate) head: &'a mut Head,
    pub(crate) elems: &'a mut [u64],
    pub(crate) shared: &'a mut [u64],
}

impl Tables for Owned {
    fn head(&self) -> &Head {
        &self.head
    }

    fn elems(&self) -> &[u64] {
        &self.elems
    }

    fn shared(&self) -> &[u64] {
        &self.shared
    }

    fn parts(&mut self) -> (&mut Head, &mut [u64], &mut [u64]) {
        (&mut self.head, &mut self.elems, &mut self.shared)
    }
}

impl Tables for Borrowed<'_> {
    fn head(&self) -> &Head {
        self.head
    }

    fn elems(&self) -> &[u64] {
        self.elems
    }

    fn shared(&self) -> &[u64] {
        self.shared
    }

    fn parts(&mut self) -> (&mut Head, &mut [u64], &mut [u64]) {
        (self.head, self.elems, self.shared)
    }
}
