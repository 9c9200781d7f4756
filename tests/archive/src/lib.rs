//! The archive's C entries, called as the model's door is, and a host that compares the two.

pub mod chains;
pub mod copies;
pub mod fences;
pub mod files;
pub mod memories;
pub mod mutated;
pub mod pages;
pub mod random;
pub mod transfers;

use doorsedge::sys::*;
use model::door::{self, Call};
pub use model::layout::head;
use model::{FRAME, HEAD, HEADER, Key, sets};

/// What a host lends to a call, where it lies.
#[derive(Clone, Copy)]
pub struct Lent {
    pub head: *mut [u64; HEAD],
    pub elems: *mut [u64],
    pub shared: *mut [u64],
    pub buffer: *mut [u64],
    pub out: *mut [u64; 4],
}

/// Makes a call on the archive. The same as [model::door::run], which it is compared with.
pub fn run(
    head: &mut [u64; HEAD],
    elems: &mut [u64],
    shared: &mut [u64],
    call: &Call,
    lent: &mut [u64],
    out: &mut [u64; 4],
) -> u64 {
    // Safety: pointers and lengths are those of slices that are borrowed mutably, each apart
    unsafe { run_at(Lent { head, elems, shared, buffer: lent, out }, call) }
}

/// The same over what lies anywhere.
///
/// # Safety
///
/// What is lent can be read, what the call writes can be written, and nothing of it overlaps.
pub unsafe fn run_at(lent: Lent, call: &Call) -> u64 {
    let (h, e, en, s, sn) = (lent.head, lent.elems.cast(), lent.elems.len(), lent.shared.cast(), lent.shared.len());
    let (l, ln, o) = (lent.buffer.cast(), lent.buffer.len(), lent.out);
    // Safety: as asked above; `out` has the most places
    unsafe {
        match *call {
            Call::Fresh { elems, shared } => doorsedge_fresh(h, elems, shared, e, en, s, sn),
            Call::Check => doorsedge_check(h, e, en, s, sn),
            Call::Lookup(k) => doorsedge_lookup(h, e, en, s, sn, k.slot, k.generation),
            Call::LenSurject(k) => doorsedge_len_surject(h, e, en, s, sn, k.slot, k.generation, o.cast()),
            Call::InSameSurject(j, k) => {
                doorsedge_in_same_surject(h, e, en, s, sn, j.slot, j.generation, k.slot, k.generation, o.cast())
            }
            Call::Get(k) => doorsedge_get(h, e, en, s, sn, k.slot, k.generation, o.cast()),
            Call::GetShared(k) => doorsedge_get_shared(h, e, en, s, sn, k.slot, k.generation, o.cast()),
            Call::GetSize(k) => doorsedge_get_size(h, e, en, s, sn, k.slot, k.generation, o.cast()),
            Call::GetTotal(k) => doorsedge_get_total(h, e, en, s, sn, k.slot, k.generation, o.cast()),
            Call::Set(k, payload) => doorsedge_set(h, e, en, s, sn, k.slot, k.generation, payload, o.cast()),
            Call::SetShared(k, value) => doorsedge_set_shared(h, e, en, s, sn, k.slot, k.generation, value, o.cast()),
            Call::ExchangeShared4(keys, values) => {
                let mut numbers = [0; 8];
                for (pair, key) in numbers.chunks_exact_mut(2).zip(keys) {
                    pair.copy_from_slice(&[key.slot, key.generation]);
                }
                doorsedge_exchange_shared4(h, e, en, s, sn, &numbers, &values, o.cast())
            }
            Call::InsertSurject { payload, value, size } => {
                doorsedge_insert_surject(h, e, en, s, sn, payload, value, size, o.cast())
            }
            Call::Insert(k, payload, size) => {
                doorsedge_insert(h, e, en, s, sn, k.slot, k.generation, payload, size, o.cast())
            }
            Call::Union(j, k) => doorsedge_union(h, e, en, s, sn, j.slot, j.generation, k.slot, k.generation, o.cast()),
            Call::Undo => doorsedge_undo(h, e, en, s, sn),
            Call::RemoveElement(k) => doorsedge_remove_element(h, e, en, s, sn, k.slot, k.generation, o.cast()),
            Call::InsertInPlace(k, payload, size) => {
                doorsedge_insert_in_place(h.cast(), e, en, s, sn, k.slot, k.generation, payload, size, o.cast())
            }
            Call::RemoveInPlace(k) => doorsedge_remove_in_place(h.cast(), e, en, s, sn, k.slot, k.generation, o.cast()),
            Call::RemoveShared(k) => doorsedge_remove_shared(h, e, en, s, sn, k.slot, k.generation, o.cast()),
            Call::List(k) => doorsedge_list(h, e, en, s, sn, k.slot, k.generation, l, ln, o.cast()),
            Call::Seal(k) => doorsedge_seal(h, e, en, s, sn, k.slot, k.generation, l, ln, o.cast()),
            Call::Drain(k) => doorsedge_drain(h, e, en, s, sn, k.slot, k.generation, l, ln, o.cast()),
            Call::DrainAll => doorsedge_drain_all(h, e, en, s, sn, l, ln, o.cast()),
            Call::Clear => doorsedge_clear(h, e, en, s, sn, o.cast()),
            Call::CompressCanonical { reset } => doorsedge_compress_canonical(h, e, en, s, sn, reset, l, ln, o.cast()),
            Call::CompressWith { reset } => doorsedge_compress_with(h, e, en, s, sn, reset, l, ln, o.cast()),
        }
    }
}

/// What stands in `out` before a call.
pub const UNTOUCHED: u64 = 0xD00_25ED_6E00;

/// A host's numbers.
#[derive(Clone, PartialEq, Eq, Debug)]
pub struct Host {
    pub head: [u64; HEAD],
    pub elems: Vec<u64>,
    pub shared: Vec<u64>,
}

/// A call's result, `out` and lent buffer after it.
#[derive(Clone, PartialEq, Eq, Debug)]
pub struct Said {
    /// The low eight bits of the result.
    pub number: u64,
    /// All that stands above them.
    pub cause: u64,
    pub out: [u64; 4],
    pub lent: Vec<u64>,
}

impl Said {
    fn set_result(&mut self, result: u64) {
        (self.number, self.cause) = (result & 255, result >> 8);
    }

    /// What the entry returned.
    pub fn result(&self) -> u64 {
        self.number + (self.cause << 8)
    }
}

impl Host {
    /// Zero tables of these capacities, with generation 1.
    pub fn fresh(elems: u64, shared: u64) -> Host {
        Host {
            head: head([elems, 0, 0, 0, shared, 0, 0, 0, 1]),
            elems: vec![0; elems as usize * FRAME],
            shared: vec![0; shared as usize * HEADER],
        }
    }

    /// Makes the call on the archive, and panics if answer, head, tables, buffer or `out` differ from the model's in any
    /// number, or if a refusal changed one.
    pub fn call(&mut self, call: Call, lent: &[u64]) -> Said {
        self.call_with(sets::sound, call, lent)
    }

    /// The same with another soundness test for the model.
    pub fn call_with(&mut self, sound: door::Sound, call: Call, lent: &[u64]) -> Said {
        let before = self.clone();
        let mut expected = (self.clone(), Said { number: 0, cause: 0, out: [UNTOUCHED; 4], lent: lent.to_vec() });
        let mut said = expected.1.clone();
        let result = run(&mut self.head, &mut self.elems, &mut self.shared, &call, &mut said.lent, &mut said.out);
        said.set_result(result);
        let (host, wanted) = (&mut expected.0, &mut expected.1);
        let (h, e, s) = (&mut host.head, &mut host.elems, &mut host.shared);
        let result = door::run(sound, h, e, s, &call, &mut wanted.lent, &mut wanted.out);
        wanted.set_result(result);
        if said.number == ABSENT {
            // nothing to compare: the model's outcome stands
            *self = expected.0;
            return expected.1;
        }
        let same = *self == *host && said == *wanted;
        let kept = said.result() == 0 || *self == before && said.out == [UNTOUCHED; 4] && said.lent == lent;
        if !same || !kept {
            panic!(
                "{call:?} differs\nbefore  {before:?}\nlent    {lent:?}\narchive {self:?}\n        {said:?}\nmodel   {host:?}\n        {wanted:?}"
            );
        }
        said
    }

    /// The keys of the frames that are in the tables.
    pub fn keys(&self) -> Vec<Key> {
        let rows = self.elems.chunks(FRAME).zip(1..);
        rows.filter(|(row, _)| row[0] != 0).map(|(row, slot)| Key { slot, generation: row[0] }).collect()
    }
}

pub fn key(slot: u64, generation: u64) -> Key {
    Key { slot, generation }
}

/// Every entry once, at the keys given.
pub fn every_call(j: Key, k: Key) -> Vec<Call> {
    vec![
        Call::Check,
        Call::Lookup(k),
        Call::LenSurject(k),
        Call::InSameSurject(j, k),
        Call::Get(k),
        Call::GetShared(k),
        Call::GetSize(k),
        Call::GetTotal(k),
        Call::Set(k, 5),
        Call::SetShared(k, 6),
        Call::ExchangeShared4([j, k, j, k], [1, 2, 3, 4]),
        Call::InsertSurject { payload: 7, value: 8, size: 10 },
        Call::Insert(k, 9, 11),
        Call::Union(j, k),
        Call::Undo,
        Call::RemoveElement(k),
        Call::InsertInPlace(k, 9, 11),
        Call::RemoveInPlace(k),
        Call::RemoveShared(k),
        Call::List(k),
        Call::Seal(k),
        Call::Drain(k),
        Call::DrainAll,
        Call::Clear,
        Call::CompressCanonical { reset: 0 },
        Call::CompressWith { reset: 0 },
    ]
}
