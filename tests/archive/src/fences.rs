//! What is lent, in one piece of memory with canaries around each part.

use crate::{Host, Lent};
use std::ops::Range;

/// Canaries between two parts.
const FENCE: usize = 8;

/// Parts as they are lent, in one piece of memory.
#[derive(PartialEq, Eq, Debug)]
pub struct Fenced<const N: usize> {
    pub numbers: Vec<u64>,
    parts: [Range<usize>; N],
}

impl<const N: usize> Fenced<N> {
    pub fn of(all: [&[u64]; N]) -> Fenced<N> {
        let (mut numbers, mut parts) = (vec![], [const { 0..0 }; N]);
        for (numbers_of, part) in all.iter().zip(&mut parts) {
            fence(&mut numbers);
            *part = numbers.len()..numbers.len() + numbers_of.len();
            numbers.extend(*numbers_of);
        }
        fence(&mut numbers);
        Fenced { numbers, parts }
    }

    /// A head and two tables: three parts from there on.
    pub fn lent(&mut self, first: usize) -> Lent {
        let start = self.numbers.as_mut_ptr();
        let [head, elems, shared] = [0, 1, 2].map(|at| {
            let part = &self.parts[first + at];
            // Safety: the part lies in the numbers
            std::ptr::slice_from_raw_parts_mut(unsafe { start.add(part.start) }, part.len())
        });
        Lent { head: head.cast(), elems, shared, buffer: &mut [], out: std::ptr::null_mut() }
    }

    /// Where a part begins.
    pub fn at(&mut self, part: usize) -> *mut u64 {
        // Safety: the part lies in the numbers
        unsafe { self.numbers.as_mut_ptr().add(self.parts[part].start) }
    }

    pub fn part(&self, at: usize) -> &[u64] {
        &self.numbers[self.parts[at].clone()]
    }
}

/// Two studies and an `out`, as parts.
pub fn two_studies<'a>(target: &'a Host, source: &'a Host, out: &'a [u64]) -> [&'a [u64]; 7] {
    [&target.head, &target.elems, &target.shared, &source.head, &source.elems, &source.shared, out]
}

fn fence(numbers: &mut Vec<u64>) {
    let at = numbers.len() as u64;
    numbers.extend((at..).take(FENCE).map(|n| 0xCA4A_4700_0000 + n));
}
