//! The calls on a sound state: reads and sets, new run, insert, union, remove, four-key exchange.

use crate::layout::*;

/// A head and two tables, lent.
pub struct Rows<'a> {
    pub head: &'a mut Head,
    pub elems: &'a mut [u64],
    pub shared: &'a mut [u64],
}

/// What union answers.
#[derive(Clone, Copy, PartialEq, Eq, Debug)]
pub struct Joined {
    pub was: u64,
    pub kept: Key,
    pub moved: u64,
}

/// What removal answers; `value` is there for the last frame of a run.
#[derive(Clone, Copy, PartialEq, Eq, Debug)]
pub struct Removed {
    pub payload: u64,
    pub value: Option<u64>,
    pub overflow: bool,
}

impl Rows<'_> {
    pub fn elem(&self, slot: u64, field: usize) -> u64 {
        self.elems[(slot as usize - 1) * FRAME + field]
    }

    pub fn put_elem(&mut self, slot: u64, field: usize, value: u64) {
        self.elems[(slot as usize - 1) * FRAME + field] = value;
    }

    pub fn header(&self, slot: u64, field: usize) -> u64 {
        self.shared[(slot as usize - 1) * HEADER + field]
    }

    pub fn put_header(&mut self, slot: u64, field: usize, value: u64) {
        self.shared[(slot as usize - 1) * HEADER + field] = value;
    }

    pub fn put_frame(&mut self, slot: u64, row: [u64; FRAME]) {
        self.elems[(slot as usize - 1) * FRAME..][..FRAME].copy_from_slice(&row);
    }

    pub fn put_shared(&mut self, slot: u64, row: [u64; HEADER]) {
        self.shared[(slot as usize - 1) * HEADER..][..HEADER].copy_from_slice(&row);
    }

    /// The slot of a live key, or why it is dead. A call with several keys asks in their order, so that it tells the cause of
    /// the first dead one.
    pub fn find(&self, key: Key) -> Result<u64, Refusal> {
        if key.slot == 0 || key.slot > self.head.elems.extent {
            return Err(Refusal::Dead(Cause::NoSlot));
        }
        match self.elem(key.slot, GENERATION) {
            0 => Err(Refusal::Dead(Cause::FreeSlot)),
            generation if generation != key.generation => Err(Refusal::Dead(Cause::OtherGeneration)),
            _ => Ok(key.slot),
        }
    }

    pub fn class(&self, slot: u64) -> u64 {
        self.elem(slot, CLASS)
    }

    /// The frames of the run that the frame in this slot is of.
    pub fn size(&self, slot: u64) -> u64 {
        self.header(self.class(slot), COUNT)
    }

    /// Refusal 12: the run of the frame in this slot is sealed.
    pub(crate) fn unsealed(&self, slot: u64) -> Result<(), Refusal> {
        if self.header(self.class(slot), MARK) == 1 { Err(Refusal::Sealed) } else { Ok(()) }
    }

    // ---- taking and freeing a slot

    fn take_element(&mut self) -> u64 {
        self.head.elems.live += 1;
        let root = self.head.elems.root;
        if root == 0 {
            self.head.elems.extent += 1;
            return self.head.elems.extent;
        }
        self.head.elems.root = self.elem(root, NEXT);
        root
    }

    pub(crate) fn take_shared(&mut self) -> u64 {
        self.head.shared.live += 1;
        let root = self.head.shared.root;
        if root == 0 {
            self.head.shared.extent += 1;
            return self.head.shared.extent;
        }
        self.head.shared.root = self.header(root, NEXT_FREE);
        root
    }

    pub(crate) fn free_element(&mut self, slot: u64) {
        self.put_frame(slot, [0, 0, 0, 0, self.head.elems.root, 0]);
        self.head.elems.root = slot;
        self.head.elems.live -= 1;
    }

    pub(crate) fn free_shared(&mut self, slot: u64) {
        self.put_shared(slot, [0, 0, self.head.shared.root, 0, 0]);
        self.head.shared.root = slot;
        self.head.shared.live -= 1;
    }

    // ---- reads and sets

    /// Accepted where the key is live.
    pub fn lookup(&self, key: Key) -> Result<(), Refusal> {
        self.find(key).map(|_| ())
    }

    pub fn len_surject(&self, key: Key) -> Result<u64, Refusal> {
        Ok(self.size(self.find(key)?))
    }

    pub fn in_same_surject(&self, key0: Key, key1: Key) -> Result<bool, Refusal> {
        let (x, y) = (self.find(key0)?, self.find(key1)?);
        Ok(self.class(x) == self.class(y))
    }

    pub fn get(&self, key: Key) -> Result<u64, Refusal> {
        Ok(self.elem(self.find(key)?, PAYLOAD))
    }

    pub fn get_shared(&self, key: Key) -> Result<u64, Refusal> {
        Ok(self.header(self.class(self.find(key)?), VALUE))
    }

    /// The frame's bytes.
    pub fn get_size(&self, key: Key) -> Result<u64, Refusal> {
        Ok(self.elem(self.find(key)?, SIZE))
    }

    /// The bytes of the key's run.
    pub fn get_total(&self, key: Key) -> Result<u64, Refusal> {
        Ok(self.header(self.class(self.find(key)?), TOTAL))
    }

    pub fn set(&mut self, key: Key, payload: u64) -> Result<u64, Refusal> {
        let x = self.find(key)?;
        let old = self.elem(x, PAYLOAD);
        self.put_elem(x, PAYLOAD, payload);
        Ok(old)
    }

    pub fn set_shared(&mut self, key: Key, value: u64) -> Result<u64, Refusal> {
        let c = self.class(self.find(key)?);
        let old = self.header(c, VALUE);
        self.put_header(c, VALUE, value);
        Ok(old)
    }

    /// Four keys of four runs, and four new values.
    pub fn exchange_shared4(&mut self, keys: [Key; 4], values: [u64; 4]) -> Result<[u64; 4], Refusal> {
        let mut classes = [0; 4];
        for (class, key) in classes.iter_mut().zip(keys) {
            *class = self.class(self.find(key)?);
        }
        for i in 0..4 {
            if classes[..i].contains(&classes[i]) {
                return Err(Refusal::SameClass);
            }
        }
        let old = classes.map(|c| self.header(c, VALUE));
        for (c, value) in classes.into_iter().zip(values) {
            self.put_header(c, VALUE, value);
        }
        Ok(old)
    }

    // ---- frames in and out

    pub fn insert_surject(&mut self, payload: u64, value: u64, size: u32) -> Result<Key, Refusal> {
        if self.head.shared.is_full() {
            return Err(Refusal::NoShared);
        }
        if self.head.elems.is_full() {
            return Err(Refusal::NoElement);
        }
        let c = self.take_shared();
        let x = self.take_element();
        let generation = self.head.generation;
        self.put_shared(c, [1, value, 0, 0, size.into()]);
        self.put_frame(x, [generation, payload, c, x, x, size.into()]);
        Ok(Key { slot: x, generation })
    }

    /// The new frame stands immediately after the key's.
    pub fn insert(&mut self, key: Key, payload: u64, size: u32) -> Result<Key, Refusal> {
        let x = self.find(key)?;
        self.unsealed(x)?;
        if self.head.elems.is_full() {
            return Err(Refusal::NoElement);
        }
        let y = self.take_element();
        let (c, after, generation) = (self.class(x), self.elem(x, NEXT), self.head.generation);
        self.put_frame(y, [generation, payload, c, x, after, size.into()]);
        self.put_elem(x, NEXT, y);
        self.put_elem(after, PREVIOUS, y);
        self.put_header(c, COUNT, self.header(c, COUNT) + 1);
        self.put_header(c, TOTAL, self.header(c, TOTAL) + u64::from(size));
        Ok(Key { slot: y, generation })
    }

    /// If the first class is smaller, the keys change roles first. Equal sizes keep the first.
    pub fn union(&mut self, key0: Key, key1: Key) -> Result<Joined, Refusal> {
        let (x0, x1) = (self.find(key0)?, self.find(key1)?);
        if self.class(x0) == self.class(x1) {
            return Err(Refusal::SameClass);
        }
        self.unsealed(x0)?;
        self.unsealed(x1)?;
        let (kept, gone) = if self.size(x0) < self.size(x1) { (key1, key0) } else { (key0, key1) };
        let (x, y) = (kept.slot, gone.slot);
        let (c, d) = (self.class(x), self.class(y));
        let moved = self.size(y);
        // before the links are exchanged: afterwards the walk would go round the joined ring
        let mut z = y;
        for _ in 0..moved {
            self.put_elem(z, CLASS, c);
            z = self.elem(z, NEXT);
        }
        let (after_x, after_y) = (self.elem(x, NEXT), self.elem(y, NEXT));
        self.put_elem(x, NEXT, after_y);
        self.put_elem(after_y, PREVIOUS, x);
        self.put_elem(y, NEXT, after_x);
        self.put_elem(after_x, PREVIOUS, y);
        self.put_header(c, COUNT, self.header(c, COUNT) + moved);
        self.put_header(c, TOTAL, self.header(c, TOTAL) + self.header(d, TOTAL));
        let was = self.header(d, VALUE);
        self.free_shared(d);
        self.head.undo = Memory { kept: x, gone: y, moved, value: was };
        Ok(Joined { was, kept, moved })
    }

    pub fn remove_element(&mut self, key: Key) -> Result<Removed, Refusal> {
        let x = self.find(key)?;
        Ok(self.remove_at(x))
    }

    /// The frame in a live slot leaves its ring, and the last one takes its header along.
    pub(crate) fn remove_at(&mut self, x: u64) -> Removed {
        let (c, payload, size) = (self.class(x), self.elem(x, PAYLOAD), self.elem(x, SIZE));
        let (before, after) = (self.elem(x, PREVIOUS), self.elem(x, NEXT));
        self.put_elem(before, NEXT, after);
        self.put_elem(after, PREVIOUS, before);
        self.free_element(x);
        let count = self.header(c, COUNT);
        let value = if count == 1 {
            let value = self.header(c, VALUE);
            self.free_shared(c);
            Some(value)
        } else {
            self.put_header(c, COUNT, count - 1);
            self.put_header(c, TOTAL, self.header(c, TOTAL) - size);
            None
        };
        let overflow = self.head.raise();
        Removed { payload, value, overflow }
    }
}
