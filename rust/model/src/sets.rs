//! Soundness sentence by sentence, as document 01's "Tables and head" has it, and document 02's tickets 1 of the mark, 4
//! of the free chain, 6 of sizes and totals and 7 of what the head remembers, by sets: slow, and no algorithm in it.

use crate::described::remembers;
use crate::layout::*;
use std::collections::{BTreeMap, BTreeSet};

/// Whether a state of fitting shape is sound.
pub fn sound(head: &Head, elems: &[u64], shared: &[u64]) -> bool {
    in_tables(head, elems, shared) && remembers(head, elems, shared)
}

/// The sentences of the tables and of the head's other numbers.
pub(crate) fn in_tables(head: &Head, elems: &[u64], shared: &[u64]) -> bool {
    let (e, s) = (Side::new(&head.elems, elems, FRAME, NEXT), Side::new(&head.shared, shared, HEADER, NEXT_FREE));
    // the generation is in range; each extent is at most its capacity
    if !in_range(head.generation) || e.pool.extent > e.pool.capacity || s.pool.extent > s.pool.capacity {
        return false;
    }
    let (frames, headers) = (e.live(), s.live());
    // the live numbers equal the live slots
    if e.pool.live != frames.len() as u64 || s.pool.live != headers.len() as u64 {
        return false;
    }
    e.chain_ok() && s.chain_ok() && e.zeros_ok() && s.zeros_ok()
        // live shared slots hold zero where said
        && headers.iter().all(|&c| s.at(c, NEXT_FREE) == 0)
        // a mark is 0 or 1
        && headers.iter().all(|&c| [0, 1].contains(&s.at(c, MARK)))
        // a live slot's generation is in range
        && frames.iter().all(|&x| in_range(e.at(x, GENERATION)))
        // a size is a u32
        && frames.iter().all(|&x| u32::try_from(e.at(x, SIZE)).is_ok())
        && links_ok(&e, &frames)
        // every frame's class slot is live
        && frames.iter().all(|&x| headers.contains(&e.at(x, CLASS)))
        && rings_ok(&e, &s, &frames, &headers)
}

fn in_range(generation: u64) -> bool {
    (1..=LAST_GENERATION).contains(&generation)
}

/// One of the two tables. Its first field is 0 when a slot is free, and `link` then holds the next free slot.
struct Side<'a> {
    pool: &'a Pool,
    table: &'a [u64],
    width: usize,
    link: usize,
}

impl<'a> Side<'a> {
    fn new(pool: &'a Pool, table: &'a [u64], width: usize, link: usize) -> Self {
        Side { pool, table, width, link }
    }

    fn at(&self, slot: u64, field: usize) -> u64 {
        self.table[(slot as usize - 1) * self.width + field]
    }

    fn live(&self) -> BTreeSet<u64> {
        (1..=self.pool.extent).filter(|&slot| self.at(slot, 0) != 0).collect()
    }

    fn free(&self) -> BTreeSet<u64> {
        (1..=self.pool.extent).filter(|&slot| self.at(slot, 0) == 0).collect()
    }

    /// The free chain starts at its root, stays within the extent, meets only free slots, none twice, and ends at 0; and
    /// every free slot up to the extent is on it.
    fn chain_ok(&self) -> bool {
        let mut met = BTreeSet::new();
        let mut slot = self.pool.root;
        while slot != 0 {
            if slot > self.pool.extent || self.at(slot, 0) != 0 || !met.insert(slot) {
                return false;
            }
            slot = self.at(slot, self.link);
        }
        met == self.free()
    }

    /// Free slots and slots past the extent hold zeros where said.
    fn zeros_ok(&self) -> bool {
        (1..=self.pool.capacity).all(|slot| {
            let past = slot > self.pool.extent;
            let free = !past && self.at(slot, 0) == 0;
            (0..self.width).all(|field| self.at(slot, field) == 0 || !(past || free && field != self.link))
        })
    }
}

/// Previous and next of live slots stay among live slots and undo each other.
fn links_ok(e: &Side, frames: &BTreeSet<u64>) -> bool {
    frames.iter().all(|&x| {
        let (previous, next) = (e.at(x, PREVIOUS), e.at(x, NEXT));
        frames.contains(&previous) && frames.contains(&next) && e.at(next, PREVIOUS) == x && e.at(previous, NEXT) == x
    })
}

/// All frames of a ring have one class slot; two rings never share one; every live shared slot has a ring, and its count
/// is that ring's size, its total the sum of that ring's bytes.
fn rings_ok(e: &Side, s: &Side, frames: &BTreeSet<u64>, headers: &BTreeSet<u64>) -> bool {
    let mut left = frames.clone();
    let mut found = BTreeMap::new();
    while let Some(&start) = left.iter().next_back() {
        let class = e.at(start, CLASS);
        let mut ring = BTreeSet::new();
        let mut x = start;
        while ring.insert(x) {
            left.remove(&x);
            x = e.at(x, NEXT);
        }
        let bytes: u64 = ring.iter().map(|&x| e.at(x, SIZE)).sum();
        let header = (ring.len() as u64, bytes);
        if ring.iter().any(|&x| e.at(x, CLASS) != class) || found.insert(class, header).is_some() {
            return false;
        }
    }
    headers.iter().all(|c| found.get(c) == Some(&(s.at(*c, COUNT), s.at(*c, TOTAL))))
}
