//! The calls on a whole ring or on all of them: remove shared, list, seal, drain, drain all, clear, compress canonical.

use crate::{layout::*, rows::Rows};

impl Rows<'_> {
    /// Frees the whole ring from the key along next, then the shared slot. Answers the value, and whether the
    /// generation overflowed.
    pub fn remove_shared(&mut self, key: Key) -> Result<(u64, bool), Refusal> {
        let mut x = self.find(key)?;
        let c = self.class(x);
        let value = self.header(c, VALUE);
        for _ in 0..self.header(c, COUNT) {
            let next = self.elem(x, NEXT);
            self.free_element(x);
            x = next;
        }
        self.free_shared(c);
        Ok((value, self.head.raise()))
    }

    /// Keys in ring order from the given one. Answers how many.
    pub fn list(&self, key: Key, places: &mut [u64]) -> Result<u64, Refusal> {
        let mut x = self.find(key)?;
        let size = self.size(x);
        if places.len() < size as usize * PLACE {
            return Err(Refusal::Short);
        }
        for place in places.chunks_exact_mut(PLACE).take(size as usize) {
            place.copy_from_slice(&[x, self.elem(x, GENERATION)]);
            x = self.elem(x, NEXT);
        }
        Ok(size)
    }

    /// Keys and payloads in ring order from the given key, and the run's mark. Answers its value and its count.
    pub fn seal(&mut self, key: Key, places: &mut [u64]) -> Result<(u64, u64), Refusal> {
        let mut x = self.find(key)?;
        self.unsealed(x)?;
        let (c, size) = (self.class(x), self.size(x));
        if places.len() < size as usize * SEAL_PLACE {
            return Err(Refusal::Short);
        }
        for place in places.chunks_exact_mut(SEAL_PLACE).take(size as usize) {
            place.copy_from_slice(&[x, self.elem(x, GENERATION), self.elem(x, PAYLOAD)]);
            x = self.elem(x, NEXT);
        }
        self.put_header(c, MARK, 1);
        Ok((self.header(c, VALUE), size))
    }

    /// Removes in ring order from the given key, a record for each. Answers how many.
    pub fn drain(&mut self, key: Key, records: &mut [u64]) -> Result<u64, Refusal> {
        let x = self.find(key)?;
        let size = self.size(x);
        if records.len() < size as usize * RECORD {
            return Err(Refusal::Short);
        }
        self.drain_at(x, records);
        Ok(size)
    }

    fn drain_at(&mut self, mut x: u64, records: &mut [u64]) {
        let size = self.size(x) as usize;
        for record in records.chunks_exact_mut(RECORD).take(size) {
            let (generation, next) = (self.elem(x, GENERATION), self.elem(x, NEXT));
            let out = self.remove_at(x);
            let (last, value) = out.value.map_or((0, 0), |value| (1, value));
            record.copy_from_slice(&[x, generation, out.payload, last, value, out.overflow as u64]);
            x = next;
        }
    }

    /// Drains the run of the lowest live slot until there is none, then clears.
    pub fn drain_all(&mut self, records: &mut [u64]) -> Result<u64, Refusal> {
        let live = self.head.elems.live;
        if records.len() < live as usize * RECORD {
            return Err(Refusal::Short);
        }
        let mut at = 0;
        // a drained slot stays free, so one ascending pass meets each run at its lowest slot
        for x in 1..=self.head.elems.extent {
            if self.elem(x, GENERATION) != 0 {
                let size = self.size(x) as usize;
                self.drain_at(x, &mut records[at..]);
                at += size * RECORD;
            }
        }
        self.clear();
        Ok(live)
    }

    /// Fresh tables, one generation higher: what lies past the extents is zero already. Answers whether it overflowed.
    pub fn clear(&mut self) -> bool {
        self.elems[..self.head.elems.extent as usize * FRAME].fill(0);
        self.shared[..self.head.shared.extent as usize * HEADER].fill(0);
        self.head.elems = Pool::fresh(self.head.elems.capacity);
        self.head.shared = Pool::fresh(self.head.shared.capacity);
        self.head.raise()
    }

    /// Runs by lowest live slot, each in ring order from it, move down to the first slots. Answers whether the
    /// generation overflowed.
    pub fn compress_canonical(&mut self, reset: bool, scratch: &mut [u64]) -> Result<bool, Refusal> {
        let needed = self.head.elems.capacity as usize * FRAME;
        if scratch.len() < needed {
            return Err(Refusal::Short);
        }
        let scratch = &mut scratch[..needed];
        let overflow = self.head.next_generation(reset);
        let headers = self.gather(self.head.generation, scratch);
        self.elems.copy_from_slice(scratch);
        scratch.fill(0);
        self.shared.fill(0);
        self.shared[..headers.len()].copy_from_slice(&headers);
        self.head.pack();
        Ok(overflow)
    }

    /// Writes the frames in their new order to the start of `rows`, zeros after them, and answers the headers in theirs.
    /// The generations in the table are zeroed on the way, so that no ring is met twice.
    pub(crate) fn gather(&mut self, generation: u64, rows: &mut [u64]) -> Vec<u64> {
        let mut headers = Vec::with_capacity(self.head.shared.live as usize * HEADER);
        let mut at = 0;
        for lowest in 1..=self.head.elems.extent {
            if self.elem(lowest, GENERATION) == 0 {
                continue;
            }
            let c = self.class(lowest);
            let size = self.header(c, COUNT);
            headers.extend([size, self.header(c, VALUE), 0, self.header(c, MARK), self.header(c, TOTAL)]);
            let (class, first, last) = (headers.len() as u64 / HEADER as u64, at + 1, at + size);
            let mut x = lowest;
            for new in first..=last {
                let previous = if new == first { last } else { new - 1 };
                let next = if new == last { first } else { new + 1 };
                let row = [generation, self.elem(x, PAYLOAD), class, previous, next, self.elem(x, SIZE)];
                rows[(new as usize - 1) * FRAME..][..FRAME].copy_from_slice(&row);
                self.put_elem(x, GENERATION, 0);
                x = self.elem(x, NEXT);
            }
            at = last;
        }
        rows[at as usize * FRAME..].fill(0);
        headers
    }
}
