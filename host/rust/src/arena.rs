//! The safe calls.

use crate::answers::{Compressed, Joined, Key, Moved, Record, Refusal, Removed, RemovedShared};
use crate::answers::{SealedFrame, SealedHeader, SealedRun};
use crate::sys::{self, Head};
use crate::tables::{Borrowed, Owned, Tables};
use crate::{HEAD, PAIR, PLACE, RECORD, SEAL_PLACE, elems_len, shared_len};

/// Frames in runs. See the [crate's page](crate) for an example.
#[derive(Clone, PartialEq, Eq, Debug)]
pub struct Arena<T: Tables = Owned> {
    pub(crate) tables: T,
}

/// Calls an entry: head and tables as pointers and lengths, then its own arguments.
macro_rules! read {
    ($self:ident, $entry:ident $(, $arg:expr)*) => {{
        let (head, elems, shared) = ($self.tables.head(), $self.tables.elems(), $self.tables.shared());
        // Safety: pointers and lengths are those of slices, and `out` and what is lent are borrowed mutably
        Refusal::test(unsafe { sys::$entry(head, elems.as_ptr(), elems.len(), shared.as_ptr(), shared.len() $(, $arg)*) })
    }};
}
macro_rules! change {
    ($self:ident, $entry:ident $(, $arg:expr)*) => {{
        let (head, elems, shared) = $self.tables.parts();
        // Safety: as above; head and tables are borrowed mutably, each apart
        Refusal::test(unsafe { sys::$entry(head, elems.as_mut_ptr(), elems.len(), shared.as_mut_ptr(), shared.len() $(, $arg)*) })
    }};
}

impl Arena {
    /// An empty arena with tables of its own. Capacities are 1 to 65,536.
    pub fn fresh(elems: usize, shared: usize) -> Result<Arena, Refusal> {
        let most = 65_536;
        if elems > most || shared > most {
            // so that no table is allocated that is refused anyway
            return Err(Refusal::Shape);
        }
        let tables = Owned { head: [0; HEAD], elems: zeros(elems_len(elems)), shared: zeros(shared_len(shared)) };
        let mut arena = Arena { tables };
        arena.make_fresh(elems as u64, shared as u64)?;
        Ok(arena)
    }

    /// An arena from numbers that were saved, if they are a sound state.
    ///
    /// ```
    /// # fn main() -> Result<(), doorsedge::Refusal> {
    /// use doorsedge::Arena;
    ///
    /// let mut arena = Arena::fresh(2, 2)?;
    /// let key = arena.insert_surject(10, 100, 0)?;
    /// let (head, elems, shared) = (*arena.head(), arena.elems().to_vec(), arena.shared().to_vec());
    /// assert_eq!(Arena::restored(head, elems, shared)?.get(key), Ok(10));
    /// # Ok(())
    /// # }
    /// ```
    pub fn restored(head: Head, elems: Vec<u64>, shared: Vec<u64>) -> Result<Arena, Refusal> {
        let arena = Arena { tables: Owned { head, elems: elems.into(), shared: shared.into() } };
        arena.check()?;
        Ok(arena)
    }
}

fn zeros(len: usize) -> Box<[u64]> {
    vec![0; len].into()
}

impl<'a> Arena<Borrowed<'a>> {
    /// An arena in the caller's tables, if they hold a sound state.
    pub fn borrowed(head: &'a mut Head, elems: &'a mut [u64], shared: &'a mut [u64]) -> Result<Self, Refusal> {
        let arena = Arena { tables: Borrowed { head, elems, shared } };
        arena.check()?;
        Ok(arena)
    }

    /// An empty arena in the caller's tables, whatever they held.
    pub fn fresh_in(
        elems_capacity: u64,
        shared_capacity: u64,
        head: &'a mut Head,
        elems: &'a mut [u64],
        shared: &'a mut [u64],
    ) -> Result<Self, Refusal> {
        let mut arena = Arena { tables: Borrowed { head, elems, shared } };
        arena.make_fresh(elems_capacity, shared_capacity)?;
        Ok(arena)
    }
}

impl<T: Tables> Arena<T> {
    fn make_fresh(&mut self, elems_capacity: u64, shared_capacity: u64) -> Result<(), Refusal> {
        let (head, elems, shared) = self.tables.parts();
        let (e, s) = (elems.as_mut_ptr(), shared.as_mut_ptr());
        // Safety: pointers and lengths are those of slices, borrowed mutably
        Refusal::test(unsafe {
            sys::doorsedge_fresh(head, elems_capacity, shared_capacity, e, elems.len(), s, shared.len())
        })
    }

    // ---- the head's numbers

    /// How many frames there are.
    pub fn len(&self) -> u64 {
        self.head()[3]
    }

    pub fn is_empty(&self) -> bool {
        self.len() == 0
    }

    /// How many runs there are.
    pub fn len_shared(&self) -> u64 {
        self.head()[7]
    }

    pub fn capacity(&self) -> u64 {
        self.head()[0]
    }

    pub fn capacity_shared(&self) -> u64 {
        self.head()[4]
    }

    pub fn generation(&self) -> u64 {
        self.head()[8]
    }

    /// Whether a union can be taken back by [undo](Arena::undo).
    pub fn can_undo(&self) -> bool {
        self.head()[9] != 0
    }

    pub fn head(&self) -> &Head {
        self.tables.head()
    }

    pub fn elems(&self) -> &[u64] {
        self.tables.elems()
    }

    pub fn shared(&self) -> &[u64] {
        self.tables.shared()
    }

    // ---- reads

    /// Whether head and tables are a sound state. Every other call tests it too.
    pub fn check(&self) -> Result<(), Refusal> {
        read!(self, doorsedge_check)
    }

    /// Whether the key is live.
    pub fn contains(&self, key: Key) -> bool {
        self.lookup(key).is_ok()
    }

    /// Accepted where the key is live; else [Dead](Refusal::Dead) with its [Cause](crate::Cause).
    ///
    /// ```
    /// # fn main() -> Result<(), doorsedge::Refusal> {
    /// use doorsedge::{Arena, Cause, Key, Refusal};
    ///
    /// let mut arena = Arena::fresh(2, 1)?;
    /// let key = arena.insert_surject(10, 100, 0)?;
    /// assert_eq!(arena.lookup(key), Ok(()));
    /// arena.clear()?;
    /// assert_eq!(arena.lookup(key), Err(Refusal::Dead(Cause::NoSlot)));
    /// # Ok(())
    /// # }
    /// ```
    pub fn lookup(&self, key: Key) -> Result<(), Refusal> {
        read!(self, doorsedge_lookup, key.slot(), key.generation())
    }

    /// How many frames the key's run has.
    pub fn len_surject(&self, key: Key) -> Result<u64, Refusal> {
        let mut out = [0];
        read!(self, doorsedge_len_surject, key.slot(), key.generation(), &mut out)?;
        Ok(out[0])
    }

    /// Whether both keys are of one run.
    pub fn in_same_surject(&self, key0: Key, key1: Key) -> Result<bool, Refusal> {
        let mut out = [0];
        read!(
            self,
            doorsedge_in_same_surject,
            key0.slot(),
            key0.generation(),
            key1.slot(),
            key1.generation(),
            &mut out
        )?;
        Ok(out[0] == 1)
    }

    /// The frame's payload.
    pub fn get(&self, key: Key) -> Result<u64, Refusal> {
        let mut out = [0];
        read!(self, doorsedge_get, key.slot(), key.generation(), &mut out)?;
        Ok(out[0])
    }

    /// The shared value of the key's run.
    pub fn get_shared(&self, key: Key) -> Result<u64, Refusal> {
        let mut out = [0];
        read!(self, doorsedge_get_shared, key.slot(), key.generation(), &mut out)?;
        Ok(out[0])
    }

    /// The frame's size in bytes, as it was given: at most [u32::MAX].
    pub fn get_size(&self, key: Key) -> Result<u64, Refusal> {
        let mut out = [0];
        read!(self, doorsedge_get_size, key.slot(), key.generation(), &mut out)?;
        Ok(out[0])
    }

    /// The bytes of the key's run: the sizes of its frames, summed. It stands in the run's header, so nothing is walked for it.
    ///
    /// ```
    /// # fn main() -> Result<(), doorsedge::Refusal> {
    /// let mut arena = doorsedge::Arena::fresh(3, 2)?;
    /// let first = arena.insert_surject(10, 100, u32::MAX)?;
    /// let second = arena.insert(first, 11, u32::MAX)?;
    /// assert_eq!(arena.get_total(first)?, 8_589_934_590);
    /// arena.set(second, 12)?; // another payload, the size stays
    /// assert_eq!(arena.get_size(second)?, 4_294_967_295);
    /// arena.remove_element(second)?;
    /// assert_eq!(arena.get_total(first)?, 4_294_967_295);
    /// # Ok(())
    /// # }
    /// ```
    pub fn get_total(&self, key: Key) -> Result<u64, Refusal> {
        let mut out = [0];
        read!(self, doorsedge_get_total, key.slot(), key.generation(), &mut out)?;
        Ok(out[0])
    }

    /// The keys of the key's run, in ring order from it.
    pub fn list(&self, key: Key) -> Result<Vec<Key>, Refusal> {
        let mut places = vec![0; self.len_surject(key)? as usize * PLACE];
        self.list_into(key, &mut places)?;
        Ok(places.chunks_exact(PLACE).map(|place| Key::new(place[0], place[1])).collect())
    }

    /// The same into a lent buffer, slot and generation of each. Answers how many keys.
    pub fn list_into(&self, key: Key, places: &mut [u64]) -> Result<u64, Refusal> {
        let mut out = [0];
        read!(self, doorsedge_list, key.slot(), key.generation(), places.as_mut_ptr(), places.len(), &mut out)?;
        Ok(out[0])
    }

    // ---- sets

    /// Stores a payload, and answers the old one.
    pub fn set(&mut self, key: Key, payload: u64) -> Result<u64, Refusal> {
        let mut out = [0];
        change!(self, doorsedge_set, key.slot(), key.generation(), payload, &mut out)?;
        Ok(out[0])
    }

    /// Stores the shared value of the key's run, and answers the old one.
    pub fn set_shared(&mut self, key: Key, value: u64) -> Result<u64, Refusal> {
        let mut out = [0];
        change!(self, doorsedge_set_shared, key.slot(), key.generation(), value, &mut out)?;
        Ok(out[0])
    }

    /// Stores the shared values of four different runs at once, and answers the old ones in key order.
    ///
    /// ```
    /// # fn main() -> Result<(), doorsedge::Refusal> {
    /// let mut arena = doorsedge::Arena::fresh(4, 4)?;
    /// let mut keys = [doorsedge::Key::new(0, 0); 4];
    /// for (n, key) in (1..).zip(&mut keys) {
    ///     *key = arena.insert_surject(n, 10 * n, 0)?;
    /// }
    /// assert_eq!(arena.exchange_shared4(keys, [1, 2, 3, 4])?, [10, 20, 30, 40]);
    /// assert_eq!(arena.get_shared(keys[2])?, 3);
    /// # Ok(())
    /// # }
    /// ```
    pub fn exchange_shared4(&mut self, keys: [Key; 4], values: [u64; 4]) -> Result<[u64; 4], Refusal> {
        let [a, b, c, d] = keys.map(|key| (key.slot(), key.generation()));
        let keys = [a.0, a.1, b.0, b.1, c.0, c.1, d.0, d.1];
        let mut out = [0; 4];
        change!(self, doorsedge_exchange_shared4, &keys, &values, &mut out)?;
        Ok(out)
    }

    // ---- seal

    /// Seals the key's run, so that it can be saved: answers its shared value, and the key and payload of each of its
    /// frames in ring order from the key, all of one moment. From then on no frame comes into the run: an insert at it, a
    /// union with it and a second seal are refused [Sealed](Refusal::Sealed). Frames may still be read, set, removed and
    /// drained. The run stays sealed until its last frame goes, also over a compression; nothing takes a seal back.
    ///
    /// ```
    /// # fn main() -> Result<(), doorsedge::Refusal> {
    /// use doorsedge::{Arena, Refusal};
    ///
    /// let mut arena = Arena::fresh(3, 2)?;
    /// let key = arena.insert_surject(10, 100, 0)?;
    /// arena.insert(key, 11, 0)?;
    /// let saved = arena.seal(key)?;
    /// let payloads: Vec<_> = saved.frames.iter().map(|frame| frame.payload).collect();
    /// assert_eq!((saved.value, payloads), (100, vec![10, 11]));
    /// assert_eq!(arena.insert(key, 12, 0), Err(Refusal::Sealed));
    /// assert_eq!(arena.remove_element(key)?.payload, 10);
    /// # Ok(())
    /// # }
    /// ```
    pub fn seal(&mut self, key: Key) -> Result<SealedRun, Refusal> {
        // the arena is borrowed alone, so the count holds until the seal
        let mut places = vec![0; self.len_surject(key)? as usize * SEAL_PLACE];
        let SealedHeader { value, .. } = self.seal_into(key, &mut places)?;
        Ok(SealedRun { value, frames: places.as_chunks().0.iter().map(SealedFrame::of).collect() })
    }

    /// The same into a lent buffer, [SEAL_PLACE](crate::SEAL_PLACE) numbers a frame: slot, generation and payload. Where
    /// it is too short, the call is refused [Short](Refusal::Short) and the run is not sealed.
    pub fn seal_into(&mut self, key: Key, places: &mut [u64]) -> Result<SealedHeader, Refusal> {
        let mut out = [0; 2];
        change!(self, doorsedge_seal, key.slot(), key.generation(), places.as_mut_ptr(), places.len(), &mut out)?;
        Ok(SealedHeader { value: out[0], count: out[1] })
    }

    // ---- frames in and out

    /// Begins a run of one frame of `size` bytes.
    pub fn insert_surject(&mut self, payload: u64, value: u64, size: u32) -> Result<Key, Refusal> {
        let mut out = [0; 2];
        change!(self, doorsedge_insert_surject, payload, value, size, &mut out)?;
        Ok(Key::new(out[0], out[1]))
    }

    /// Puts a frame of `size` bytes into the key's run, immediately after the key's frame. A [sealed](Arena::seal) run takes none.
    pub fn insert(&mut self, key: Key, payload: u64, size: u32) -> Result<Key, Refusal> {
        let mut out = [0; 2];
        change!(self, doorsedge_insert, key.slot(), key.generation(), payload, size, &mut out)?;
        Ok(Key::new(out[0], out[1]))
    }

    /// Joins two runs. The larger one's shared value is kept, or the first key's where they are equally large. Neither may
    /// be [sealed](Arena::seal). [undo](Arena::undo) takes it back.
    pub fn union(&mut self, key0: Key, key1: Key) -> Result<Joined, Refusal> {
        let mut out = [0; 4];
        change!(self, doorsedge_union, key0.slot(), key0.generation(), key1.slot(), key1.generation(), &mut out)?;
        Ok(Joined { was: out[0], kept: Key::new(out[1], out[2]), moved: out[3] })
    }

    /// Takes the last union back: head and tables are exactly as they were before it, so every key names what it named, and
    /// rings, shared values and totals are the two runs' own again. There is nothing to undo, and [Nothing](Refusal::Nothing) is
    /// said, where no union was made or another accepted call came after it; only reads, lists, lookups and checks may. So an
    /// undo cannot be followed by another.
    ///
    /// ```
    /// # fn main() -> Result<(), doorsedge::Refusal> {
    /// use doorsedge::{Arena, Refusal};
    ///
    /// let mut arena = Arena::fresh(3, 2)?;
    /// let (first, other) = (arena.insert_surject(10, 100, 0)?, arena.insert_surject(20, 200, 0)?);
    /// let before = arena.clone();
    /// arena.union(first, other)?;
    /// assert_eq!(arena.list(first)?.len(), 2); // the wrong two
    /// arena.undo()?;
    /// assert_eq!(arena, before);
    /// assert_eq!((arena.undo(), Refusal::Nothing.number()), (Err(Refusal::Nothing), 10));
    ///
    /// arena.union(first, other)?;
    /// arena.set(first, 10)?; // the same payload, and yet a call that is no read
    /// assert_eq!(arena.undo(), Err(Refusal::Nothing));
    /// # Ok(())
    /// # }
    /// ```
    pub fn undo(&mut self) -> Result<(), Refusal> {
        change!(self, doorsedge_undo)
    }

    /// Removes a frame.
    pub fn remove_element(&mut self, key: Key) -> Result<Removed, Refusal> {
        let mut out = [0; 4];
        change!(self, doorsedge_remove_element, key.slot(), key.generation(), &mut out)?;
        Ok(Removed { payload: out[0], last: (out[1] == 1).then_some(out[2]), overflow: out[3] == 1 })
    }

    /// Removes the key's whole run.
    pub fn remove_shared(&mut self, key: Key) -> Result<RemovedShared, Refusal> {
        let mut out = [0; 2];
        change!(self, doorsedge_remove_shared, key.slot(), key.generation(), &mut out)?;
        Ok(RemovedShared { value: out[0], overflow: out[1] == 1 })
    }

    /// Removes the key's run frame by frame, in ring order from the key.
    ///
    /// ```
    /// # fn main() -> Result<(), doorsedge::Refusal> {
    /// let mut arena = doorsedge::Arena::fresh(2, 1)?;
    /// let key = arena.insert_surject(10, 100, 0)?;
    /// arena.insert(key, 11, 0)?;
    /// let out: Vec<_> = arena.drain(key)?.iter().map(|record| (record.payload, record.last)).collect();
    /// assert_eq!(out, [(10, None), (11, Some(100))]);
    /// # Ok(())
    /// # }
    /// ```
    pub fn drain(&mut self, key: Key) -> Result<Vec<Record>, Refusal> {
        let mut records = vec![0; self.len_surject(key)? as usize * RECORD];
        self.drain_into(key, &mut records)?;
        Ok(spread(&records))
    }

    /// The same into a lent buffer, six numbers a frame. Answers how many frames.
    pub fn drain_into(&mut self, key: Key, records: &mut [u64]) -> Result<u64, Refusal> {
        let mut out = [0];
        change!(self, doorsedge_drain, key.slot(), key.generation(), records.as_mut_ptr(), records.len(), &mut out)?;
        Ok(out[0])
    }

    // ---- all at once

    /// Drains every run, the one with the lowest slot first, then clears.
    pub fn drain_all(&mut self) -> Result<Vec<Record>, Refusal> {
        self.check()?;
        let mut records = vec![0; self.len() as usize * RECORD];
        self.drain_all_into(&mut records)?;
        Ok(spread(&records))
    }

    /// The same into a lent buffer, six numbers a frame. Answers how many frames.
    pub fn drain_all_into(&mut self, records: &mut [u64]) -> Result<u64, Refusal> {
        let mut out = [0];
        change!(self, doorsedge_drain_all, records.as_mut_ptr(), records.len(), &mut out)?;
        Ok(out[0])
    }

    /// Takes out everything. Answers whether the generation overflowed.
    pub fn clear(&mut self) -> Result<bool, Refusal> {
        let mut out = [0];
        change!(self, doorsedge_clear, &mut out)?;
        Ok(out[0] == 1)
    }

    /// Moves all frames down to the first slots, run by run. Every key is new then; with `reset` the generation becomes
    /// 1, and old keys may come to life again. Answers whether the generation overflowed.
    pub fn compress_canonical(&mut self, reset: bool) -> Result<bool, Refusal> {
        self.compress_canonical_in(reset, &mut vec![0; self.elems().len()])
    }

    /// The same with lent scratch, [elems_len](crate::elems_len) numbers for the element capacity, left 0.
    pub fn compress_canonical_in(&mut self, reset: bool, scratch: &mut [u64]) -> Result<bool, Refusal> {
        let mut out = [0];
        change!(self, doorsedge_compress_canonical, reset as u64, scratch.as_mut_ptr(), scratch.len(), &mut out)?;
        Ok(out[0] == 1)
    }

    /// Moves all frames down to the first slots, in the order of the slots that they had, and the shared values likewise. Every
    /// key is new then, as by [compress_canonical](Arena::compress_canonical); when all have moved, `map` is told of each frame,
    /// in that order, the key that it had and the key that it has. Answers whether the generation overflowed.
    ///
    /// ```
    /// # fn main() -> Result<(), doorsedge::Refusal> {
    /// use doorsedge::{Arena, Key};
    ///
    /// let mut arena = Arena::fresh(3, 2)?;
    /// let bad = arena.insert_surject(10, 100, 0)?;
    /// let mut shown = [arena.insert(bad, 11, 0)?, arena.insert_surject(20, 200, 0)?];
    /// arena.remove_element(bad)?;
    /// arena.compress_with(false, |old, new| {
    ///     shown.iter_mut().filter(|key| **key == old).for_each(|key| *key = new);
    /// })?;
    /// assert_eq!(shown, [Key::new(1, 3), Key::new(2, 3)]);
    /// assert_eq!((arena.get(shown[0])?, arena.get_shared(shown[1])?), (11, 200));
    /// # Ok(())
    /// # }
    /// ```
    pub fn compress_with(&mut self, reset: bool, mut map: impl FnMut(Key, Key)) -> Result<bool, Refusal> {
        self.check()?;
        let mut pairs = vec![0; self.len() as usize * PAIR];
        let Compressed { overflow, .. } = self.compress_with_into(reset, &mut pairs)?;
        pairs.as_chunks().0.iter().map(Moved::of).for_each(|moved| map(moved.old, moved.new));
        Ok(overflow)
    }

    /// The same into a lent buffer, [PAIR](crate::PAIR) numbers a frame: slot and generation of the key that it had, and of
    /// the key that it has. Where it is too short, the call is refused [Short](Refusal::Short) and nothing moves.
    pub fn compress_with_into(&mut self, reset: bool, pairs: &mut [u64]) -> Result<Compressed, Refusal> {
        let mut out = [0; 2];
        change!(self, doorsedge_compress_with, reset as u64, pairs.as_mut_ptr(), pairs.len(), &mut out)?;
        Ok(Compressed { count: out[0], overflow: out[1] == 1 })
    }
}

fn spread(records: &[u64]) -> Vec<Record> {
    records.as_chunks::<RECORD>().0.iter().map(Record::of).collect()
}
