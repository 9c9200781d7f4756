//! The sides that are timed. All are given the same calls on the same state.

use archive::Host;
use doorsedge::sys::LentHead;
use doorsedge::{Key as Frame, Writer};
use model::door::{self, Call};
use model::{Head, Key, Memory, PAIR, PLACE, RECORD, Rows, SEAL_PLACE, check};
use std::hint::black_box;
use std::num::{NonZeroU32, NonZeroUsize};
use triple_arena::traits::*;
use triple_arena::{SurjectArena, ptr_struct};

ptr_struct!(P0);

pub type Oracle = SurjectArena<P0, u64, u64>;

/// Every frame's size. The oracle has none.
pub const BYTES: u32 = 500_000;

#[derive(Clone, Copy, PartialEq, Eq)]
pub enum Side {
    /// A call of the archive, with its check.
    Archive,
    /// The same with the head lent in place: insert and remove alone.
    InPlace,
    /// The same in plain Rust.
    Door,
    /// The call alone on a rows arena in plain Rust.
    Rows,
    /// The call on the oracle, which checks nothing.
    Oracle,
}

/// A state on which calls are timed, and the buffer that some of them need.
pub struct Bed {
    pub host: Host,
    pub oracle: Oracle,
    pub lent: Vec<u64>,
}

impl Bed {
    /// Runs of `ring` frames each, the frames of a ring far apart, in tables of capacity `n`, so that `live` frames are there.
    pub fn new(n: usize, live: usize, ring: usize) -> Bed {
        let mut host = Host::fresh(n as u64, n as u64);
        let mut oracle = Oracle::with_min_capacity_separated(n, n).unwrap();
        let mut head = Head::of(&host.head);
        let mut rows = Rows { head: &mut head, elems: &mut host.elems, shared: &mut host.shared };
        let mut last = vec![];
        for i in 0..live / ring {
            let payload = i as u64;
            last.push(rows.insert_surject(payload, payload, BYTES).unwrap());
            oracle.insert_surject_within_capacity(payload, payload).unwrap();
        }
        for _ in 1..ring {
            for key in &mut last {
                let at = ptr(*key);
                *key = rows.insert(*key, key.slot, BYTES).unwrap();
                oracle.insert_within_capacity(at, key.slot).unwrap();
            }
        }
        host.head = head.numbers();
        Bed { host, oracle, lent: vec![0; RECORD * n] }
    }

    /// A state made by calls on both sides. `make` is handed the rows arena, and the oracle by the same keys.
    fn made(n: usize, make: impl FnOnce(&mut Rows, &mut Oracle)) -> Bed {
        let mut bed = Bed::new(n, 0, 1);
        let mut head = Head::of(&bed.host.head);
        let mut rows = Rows { head: &mut head, elems: &mut bed.host.elems, shared: &mut bed.host.shared };
        make(&mut rows, &mut bed.oracle);
        // the host's calls drop what the head remembers of a union, the rows arena's alone do not
        head.undo = Memory::default();
        bed.host.head = head.numbers();
        bed
    }

    /// One ring of `n` frames, each put in after one that `pick` gives of those before it.
    pub fn one_ring(n: usize, mut pick: impl FnMut(usize) -> usize) -> Bed {
        Bed::made(n, |rows, oracle| {
            let mut keys = vec![rows.insert_surject(0, 7, BYTES).unwrap()];
            oracle.insert_surject_within_capacity(0, 7).unwrap();
            for i in 1..n {
                let at = keys[pick(i)];
                keys.push(rows.insert(at, i as u64, BYTES).unwrap());
                oracle.insert_within_capacity(ptr(at), i as u64).unwrap();
            }
        })
    }

    /// Rings of one in which every header stands one slot on, and the last one first: compression's longest follow.
    pub fn headers_one_on(n: usize) -> Bed {
        Bed::made(n, |rows, oracle| {
            let begin = |rows: &mut Rows, oracle: &mut Oracle, payload: u64| {
                oracle.insert_surject_within_capacity(payload, payload).unwrap();
                rows.insert_surject(payload, payload, BYTES).unwrap()
            };
            let mut last = begin(rows, oracle, 1);
            for i in 1..n as u64 {
                // the next run's header goes to the last frame, and the first shared slot is free again
                let next = begin(rows, oracle, i + 1);
                rows.union(next, last).unwrap();
                oracle.union(ptr(next), ptr(last)).unwrap();
                rows.remove_element(next).unwrap();
                oracle.remove_element(ptr(next)).allow().unwrap();
                last = begin(rows, oracle, i + 1);
            }
        })
    }

    /// Runs of `ring` frames each, as [new](Bed::new) has them, full, of which every so many are gone, the first with them.
    pub fn with_holes(n: usize, ring: usize, every: usize) -> Bed {
        let mut bed = Bed::new(n, n, ring);
        let mut head = Head::of(&bed.host.head);
        let mut rows = Rows { head: &mut head, elems: &mut bed.host.elems, shared: &mut bed.host.shared };
        for slot in (1..=(n / ring) as u64).step_by(every) {
            let key = Key { slot, generation: 1 };
            rows.remove_shared(key).unwrap();
            bed.oracle.remove_shared(ptr(key)).allow().unwrap();
        }
        bed.host.head = head.numbers();
        bed
    }

    pub fn restored(&self) -> Bed {
        Bed { host: self.host.clone(), oracle: self.oracle.clone(), lent: self.lent.clone() }
    }

    /// Puts the numbers back as they were, in the same memory.
    pub fn restore(&mut self, from: &Bed, side: Side) {
        if side == Side::Oracle {
            self.oracle = from.oracle.clone();
        } else {
            self.host.head = from.host.head;
            self.host.elems.copy_from_slice(&from.host.elems);
            self.host.shared.copy_from_slice(&from.host.shared);
        }
    }

    /// Makes the calls. Every one must be accepted.
    pub fn make(&mut self, side: Side, calls: &[Call]) {
        let Host { head, elems, shared } = &mut self.host;
        let (lent, mut out) = (&mut self.lent[..], [0; 4]);
        match side {
            Side::Archive => {
                for call in calls {
                    assert_eq!(archive::run(head, elems, shared, black_box(call), lent, &mut out), 0);
                }
            }
            Side::InPlace => {
                let mut lent = LentHead::from(*head);
                let mut writer = Writer { head: &mut lent, elems, shared };
                for call in calls {
                    assert!(black_box(write(&mut writer, black_box(call))).is_some());
                }
                *head = lent.into();
            }
            Side::Door => {
                for call in calls {
                    assert_eq!(door::run(check::sound, head, elems, shared, black_box(call), lent, &mut out), 0);
                }
            }
            Side::Rows => {
                let mut next = Head::of(head);
                let mut rows = Rows { head: &mut next, elems, shared };
                for call in calls {
                    assert!(black_box(step(&mut rows, black_box(call), lent)).is_some());
                }
                *head = next.numbers();
            }
            Side::Oracle => {
                for call in calls {
                    assert!(black_box(ask(&mut self.oracle, black_box(call), lent)).is_some());
                }
            }
        }
        black_box(out);
    }
}

/// The writer's two calls.
fn write(writer: &mut Writer, call: &Call) -> Option<u64> {
    match *call {
        Call::Insert(k, payload, size) => {
            writer.insert(Frame::new(k.slot, k.generation), payload, size).ok().map(|key| key.slot())
        }
        Call::RemoveElement(k) => writer.remove(Frame::new(k.slot, k.generation)).ok().map(|out| out.payload),
        _ => None,
    }
}

/// The oracle has the same slots; its generations begin with 2.
fn ptr(key: Key) -> P0 {
    P0::_from_raw(NonZeroUsize::new(key.slot as usize).unwrap(), NonZeroU32::new(key.generation as u32 + 1).unwrap())
}

/// The call on the rows arena, with as much of the answer as the oracle gives.
fn step(rows: &mut Rows, call: &Call, lent: &mut [u64]) -> Option<u64> {
    match *call {
        Call::Lookup(k) => rows.lookup(k).ok().map(|_| 0),
        Call::LenSurject(k) => rows.len_surject(k).ok(),
        Call::InSameSurject(j, k) => rows.in_same_surject(j, k).ok().map(u64::from),
        Call::Get(k) => rows.get(k).ok(),
        Call::GetShared(k) => rows.get_shared(k).ok(),
        Call::GetSize(k) => rows.get_size(k).ok(),
        Call::GetTotal(k) => rows.get_total(k).ok(),
        Call::Set(k, payload) => rows.set(k, payload).ok(),
        Call::SetShared(k, value) => rows.set_shared(k, value).ok(),
        Call::ExchangeShared4(keys, values) => rows.exchange_shared4(keys, values).ok().map(|old| old[0]),
        Call::InsertSurject { payload, value, size } => {
            rows.insert_surject(payload, value, size).ok().map(|key| key.slot)
        }
        Call::Insert(k, payload, size) | Call::InsertInPlace(k, payload, size) => {
            rows.insert(k, payload, size).ok().map(|key| key.slot)
        }
        Call::Union(j, k) => rows.union(j, k).ok().map(|joined| joined.was),
        Call::Undo => rows.undo().ok().map(|_| 0),
        Call::RemoveElement(k) | Call::RemoveInPlace(k) => rows.remove_element(k).ok().map(|out| out.payload),
        Call::RemoveShared(k) => rows.remove_shared(k).ok().map(|(value, _)| value),
        Call::List(k) => rows.list(k, lent).ok(),
        Call::Seal(k) => rows.seal(k, lent).ok().map(|(_, count)| count),
        Call::Drain(k) => rows.drain(k, lent).ok(),
        Call::DrainAll => rows.drain_all(lent).ok(),
        Call::Clear => Some(u64::from(rows.clear())),
        Call::CompressCanonical { reset } => rows.compress_canonical(reset != 0, lent).ok().map(u64::from),
        Call::CompressWith { reset } => rows.compress_with(reset != 0, lent).ok().map(|(count, _)| count),
        // the rows arena has no check: what is counted here is the choice of a call alone
        Call::Check => Some(0),
        Call::Fresh { .. } => None,
    }
}

/// The call on the oracle, with as much of the answer as it has.
fn ask(a: &mut Oracle, call: &Call, lent: &mut [u64]) -> Option<u64> {
    Some(match *call {
        Call::Lookup(k) => a.contains(ptr(k)).then_some(0)?,
        Call::LenSurject(k) => a.len_surject(ptr(k))?.get() as u64,
        Call::InSameSurject(j, k) => a.in_same_surject(ptr(j), ptr(k))? as u64,
        Call::Get(k) => *a.get(ptr(k))?,
        Call::GetShared(k) => *a.get_shared(ptr(k))?,
        // the oracle has no sizes: its payloads stand for them, and a total is summed around the ring
        Call::GetSize(k) => *a.get(ptr(k))?,
        Call::GetTotal(k) => a.iter_surject(ptr(k))?.map(|(_, t, _)| *t).sum(),
        Call::Set(k, payload) => std::mem::replace(a.get_mut(ptr(k))?, payload),
        Call::SetShared(k, value) => std::mem::replace(a.get_shared_mut(ptr(k))?, value),
        Call::ExchangeShared4(keys, values) => {
            let old = a.get_disjoint_shared_mut(keys.map(ptr)).ok()?;
            let mut values = values.into_iter();
            old.map(|s| std::mem::replace(s, values.next().unwrap()))[0]
        }
        Call::InsertSurject { payload, value, .. } => {
            a.insert_surject_within_capacity(payload, value).ok()?.inx().get() as u64
        }
        Call::Insert(k, payload, _) | Call::InsertInPlace(k, payload, _) => {
            a.insert_within_capacity(ptr(k), payload).ok()?.inx().get() as u64
        }
        Call::Union(j, k) => a.union(ptr(j), ptr(k))?.0,
        // the oracle has no undo: a host would take a clone before each union, and that alone is timed
        Call::Undo => {
            *a = a.clone();
            0
        }
        Call::RemoveElement(k) | Call::RemoveInPlace(k) => a.remove_element(ptr(k)).allow()?.0,
        Call::RemoveShared(k) => a.remove_shared(ptr(k)).allow()?,
        Call::List(k) => {
            let places = lent.chunks_exact_mut(PLACE).zip(a.iter_surject(ptr(k))?);
            places
                .map(|(place, (p, _, _))| place.copy_from_slice(&[p.inx().get() as u64, p.generation().get() as u64]))
                .count() as u64
        }
        // the oracle has no seal: count, value, keys and payloads are read, as a finalizer would have to
        Call::Seal(k) => {
            let (count, _) = black_box((a.len_surject(ptr(k))?.get(), *a.get_shared(ptr(k))?));
            for (place, (p, t, _)) in lent.chunks_exact_mut(SEAL_PLACE).zip(a.iter_surject(ptr(k))?) {
                place.copy_from_slice(&[p.inx().get() as u64, p.generation().get() as u64, *t]);
            }
            count as u64
        }
        Call::Drain(k) => {
            let records = lent.chunks_exact_mut(RECORD).zip(a.drain_surject(ptr(k))?);
            records.map(|(record, o)| note(record, o.allow())).count() as u64
        }
        Call::DrainAll => {
            lent.chunks_exact_mut(RECORD).zip(a.drain_combined()).map(|(record, o)| note(record, o.allow())).count()
                as u64
        }
        Call::Clear => {
            a.clear().allow();
            0
        }
        Call::CompressCanonical { reset } => {
            a.compress_canonical(reset != 0).allow();
            0
        }
        Call::CompressWith { reset } => {
            let mut pairs = lent.chunks_exact_mut(PAIR);
            let number = |p: P0| [p.inx().get() as u64, p.generation().get() as u64];
            let tell = |old, _: &mut u64, new| {
                let ([slot, generation], [new_slot, new_generation]) = (number(old), number(new));
                pairs.next().unwrap().copy_from_slice(&[slot, generation, new_slot, new_generation]);
            };
            a.compress_with(reset != 0, tell).allow();
            a.len() as u64
        }
        Call::Fresh { .. } | Call::Check => return None,
    })
}

fn note(record: &mut [u64], (p, t, s): (P0, u64, Option<u64>)) {
    record[..3].copy_from_slice(&[p.inx().get() as u64, p.generation().get() as u64, t]);
    record[3..5].copy_from_slice(&[s.is_some() as u64, s.unwrap_or(0)]);
}
