//! Sizes and totals. The oracle's payload is a pair, whose second part is the frame's size; a total is summed over its ring.

use crate::calls::Name;
use crate::pair::{Fault, P0, Pair, has, same};
use doorsedge::{Arena, FRAME, HEADER, Refusal};
use triple_arena::traits::ArenaTrait;

/// Where the class and the size stand in an element slot, and count and total in a shared slot.
const CLASS: usize = 2;
const SIZE: usize = 5;
const COUNT: usize = 0;
pub const TOTAL: usize = 4;

impl Pair {
    /// The sizes around the oracle's ring, summed.
    fn bytes(&self, ptr: P0) -> Option<u64> {
        self.oracle.iter_surject(ptr).map(|ring| ring.map(|(_, picture, _)| u64::from(picture.1)).sum())
    }

    pub fn get_size(&mut self, k: Name) -> Result<Option<Refusal>, String> {
        let (key, ptr) = self.keys(k);
        let said = self.port.get_size(key);
        let size = self.oracle.get(ptr).map(|picture| u64::from(picture.1));
        same("size", said, size.ok_or_else(|| self.dead(&[k])))?;
        Ok(said.err())
    }

    pub fn get_total(&mut self, k: Name) -> Result<Option<Refusal>, String> {
        let (key, ptr) = self.keys(k);
        let said = self.port.get_total(key);
        same("total", said, self.bytes(ptr).ok_or_else(|| self.dead(&[k])))?;
        self.tally.largest_total = self.tally.largest_total.max(said.unwrap_or(0));
        Ok(said.err())
    }

    /// What both reads say of a live frame.
    pub fn same_bytes(&mut self, name: Name) -> Result<(), String> {
        if has("get_size") {
            self.get_size(name)?;
        }
        if has("get_total") {
            self.get_total(name)?;
        }
        Ok(())
    }

    /// The fault [Fault::SizesCrossed]: totals stay right, and the state sound.
    pub fn cross_sizes(&mut self) {
        debug_assert_eq!(self.fault, Fault::SizesCrossed);
        let (head, mut elems, shared) = (*self.port.head(), self.port.elems().to_vec(), self.port.shared().to_vec());
        let Some(class) = shared.chunks(HEADER).position(|row| row[COUNT] > 1) else { return };
        let slots: Vec<usize> =
            (0..elems.len() / FRAME).filter(|slot| elems[slot * FRAME + CLASS] == class as u64 + 1).collect();
        elems.swap(slots[0] * FRAME + SIZE, slots[1] * FRAME + SIZE);
        self.port = Arena::restored(head, elems, shared).unwrap();
    }
}
