//! What is compared after a call: count, membership, payloads, sizes, shared values, ring order, len; the total, with the sum over
//! the oracle's ring; and of the mark, which the oracle has not, whether the run was sealed by a call.

use crate::calls::{NEVER, Name};
use crate::pair::{Oracle, Pair, Picture, has, same};
use crate::seal::MARK;
use crate::totals::TOTAL;
use doorsedge::{FRAME, HEADER, Key, PLACE, Refusal};
use triple_arena::traits::*;

/// How many frames at most are compared by calls of their own.
const FEW: usize = 8;

impl Pair {
    /// All frames, in the way that their number allows.
    pub fn compare(&mut self) -> Result<(), String> {
        self.tally.compared += 1;
        same("number of frames", self.port.len(), self.oracle.len() as u64)?;
        same("number of runs", self.port.len_shared(), self.oracle.len_shared() as u64)?;
        same("soundness", self.port.check().is_ok(), true)?;
        if self.oracle.len() <= FEW && self.frames.len() <= 4 * FEW { self.by_calls() } else { self.by_tables() }
    }

    /// Every frame through the read calls of both sides; and every key that is dead, through every call that takes one.
    fn by_calls(&mut self) -> Result<(), String> {
        Oracle::_check_invariants(&self.oracle)?;
        for name in 0..self.frames.len() {
            let Some(frame) = self.frames[name] else { continue };
            let (key, ptr) = (frame.key, frame.ptr);
            let Some(picture) = self.oracle.get(ptr).copied() else {
                self.is_dead(name)?;
                continue;
            };
            if has("lookup") {
                same("lookup", self.port.lookup(key), Ok(()))?;
            }
            same("payload", self.port.get(key), Ok(picture.0))?;
            same("payload and size given", picture, frame.picture)?;
            self.same_bytes(name)?;
            same("shared value", self.port.get_shared(key), Ok(*self.oracle.get_shared(ptr).unwrap()))?;
            let len = self.oracle.len_surject(ptr).unwrap().get() as u64;
            same("len", self.port.len_surject(key), Ok(len))?;
            self.tally.longest_ring = self.tally.longest_ring.max(len);
            let mut places = [0; PLACE * FEW];
            same("len of the ring", self.port.list_into(key, &mut places), Ok(len))?;
            let ring =
                places.chunks(PLACE).take(len as usize).map(|place| self.name_of_key(Key::new(place[0], place[1])));
            let wanted = self.oracle.iter_surject(ptr).unwrap().map(|(p, _, _)| self.name_of_ptr(p));
            same("ring", self.as_compared(ring.collect()), self.as_compared(wanted.collect()))?;
            if has("seal") {
                // with no places a seal is refused either way, and says whether the run is sealed
                let said = if self.is_sealed(name) { Refusal::Sealed } else { Refusal::Short };
                same("mark", self.port.seal_into(key, &mut []).err(), Some(said))?;
            }
            for other in 0..self.frames.len() {
                let (key1, ptr1) = self.keys(other);
                let wanted = self.oracle.in_same_surject(ptr, ptr1).ok_or_else(|| self.dead(&[other]));
                same("in same", self.port.in_same_surject(key, key1), wanted)?;
            }
        }
        Ok(())
    }

    /// Each call that takes a key refuses a dead one, and says why; what changes the tables would show afterwards.
    fn is_dead(&mut self, name: Name) -> Result<(), String> {
        let (key, dead) = (self.keys(name).0, Some(self.dead(&[name])));
        let live = self.live().next().map_or(key, |name| self.keys(name).0);
        let (p, never) = (&mut self.port, Key::new(0, 1));
        let mut all = vec![
            p.len_surject(key).err(),
            p.get(key).err(),
            p.get_shared(key).err(),
            p.in_same_surject(key, live).err(),
            p.in_same_surject(live, key).err(),
            p.in_same_surject(key, never).err(),
            p.list_into(key, &mut []).err(),
            p.set(key, 1).err(),
            p.set_shared(key, 1).err(),
            p.insert(key, 1, 1).err(),
            p.union(key, live).err(),
            p.union(live, key).err(),
            p.union(key, never).err(),
            p.remove_element(key).err(),
        ];
        if has("exchange_shared4") {
            all.push(p.exchange_shared4([live, live, live, key], [1; 4]).err());
            all.push(p.exchange_shared4([live, key, never, live], [1; 4]).err());
        }
        if has("lookup") {
            all.push(p.lookup(key).err());
        }
        if has("get_size") {
            all.push(p.get_size(key).err());
        }
        if has("get_total") {
            all.push(p.get_total(key).err());
        }
        if has("remove_shared") {
            all.push(p.remove_shared(key).err());
        }
        if has("seal") {
            all.push(p.seal_into(key, &mut []).err());
        }
        if has("drain") {
            all.push(p.drain_into(key, &mut []).err());
        }
        for said in all {
            same("a dead key", said, dead)?;
        }
        Ok(())
    }

    /// Run by run along the archive's own tables, which many frames need.
    fn by_tables(&mut self) -> Result<(), String> {
        let mut met = vec![false; self.frames.len()];
        let mut count = 0;
        for (first, _, value) in self.oracle.iter_combined() {
            let name = self.name_of_ptr(first);
            if name == NEVER {
                return Err(format!("the oracle holds {first:?}, which it did not give"));
            }
            if met[name] {
                continue;
            }
            let wanted: Vec<(Name, Picture)> =
                self.oracle.iter_surject(first).unwrap().map(|(p, t, _)| (self.name_of_ptr(p), *t)).collect();
            wanted.iter().for_each(|(name, _)| met[*name] = true);
            let (ring, class) = self.ring_in_tables(self.keys(name).0, wanted.len())?;
            let header = &self.port.shared()[(class - 1) * HEADER..][..HEADER];
            let (count1, value1, mark, total) = (header[0], header[1], header[MARK], header[TOTAL]);
            let bytes = wanted.iter().map(|(_, picture)| u64::from(picture.1)).sum();
            same("total", total, bytes)?;
            self.tally.largest_total = self.tally.largest_total.max(bytes);
            same("len", (count1, value1), (wanted.len() as u64, *value))?;
            same("mark", mark, self.is_sealed(name) as u64)?;
            same("len", self.oracle.len_surject(first).unwrap().get(), wanted.len())?;
            let sorted = |mut ring: Vec<(Name, Picture)>| {
                ring.sort_unstable();
                ring
            };
            if self.ordered {
                same("ring", ring, wanted)?;
            } else {
                same("ring", sorted(ring), sorted(wanted))?;
            }
            count += count1;
            self.tally.longest_ring = self.tally.longest_ring.max(count1);
        }
        same("number of frames", self.port.len(), count)
    }

    /// The names, payloads and sizes of `len` frames along next, which must lead back; and their class.
    fn ring_in_tables(&self, key: Key, len: usize) -> Result<(Vec<(Name, Picture)>, usize), String> {
        let row = |slot: u64| &self.port.elems()[(slot as usize - 1) * FRAME..][..FRAME];
        if row(key.slot())[0] != key.generation() {
            return Err(format!("membership: {key:?} is dead in the archive's tables"));
        }
        let (mut slot, class) = (key.slot(), row(key.slot())[2]);
        let mut ring = Vec::with_capacity(len);
        for _ in 0..len {
            let [generation, payload, its, _, next, size] = *row(slot) else { unreachable!() };
            let size = u32::try_from(size).map_err(|_| format!("a size past a u32: {size}"))?;
            same("class along a ring", its, class)?;
            ring.push((self.name_of_key(Key::new(slot, generation)), (payload, size)));
            slot = next;
        }
        same("end of a ring", slot, key.slot())?;
        Ok((ring, class as usize))
    }
}
