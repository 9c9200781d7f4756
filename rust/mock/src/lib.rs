//! The entries of include/doorsedge.h over the plain Rust [model], where the proved archive is not at hand. Where DOORSEDGE_WRONG names a
//! mistake ([wrong]), it is made: tests/wrong-archives.sh shows that the tests find each.
//!
//! # Safety
//!
//! Every entry asks what the header asks: pointers to memory of the size said, that do not overlap where written.
#![allow(clippy::missing_safety_doc, clippy::too_many_arguments)]

mod files;
mod two;
mod wrong;
mod wrong_files;

use model::door::{Call, run};
use model::{HEAD, Key, check};
use std::slice::{from_raw_parts, from_raw_parts_mut};

/// A lent table or buffer; null comes with length 0.
pub(crate) unsafe fn lent<'a, T>(at: *mut T, len: usize) -> &'a mut [T] {
    if at.is_null() { &mut [] } else { unsafe { from_raw_parts_mut(at, len) } }
}

pub(crate) unsafe fn lent_to_read<'a, T>(at: *const T, len: usize) -> &'a [T] {
    if at.is_null() { &[] } else { unsafe { from_raw_parts(at, len) } }
}

/// The model stores only what a call changes, so what the header calls const is not written.
unsafe fn enter(
    head: *const u64,
    elems: *const u64,
    elems_len: usize,
    shared: *const u64,
    shared_len: usize,
    call: Call,
    buffer: *mut u64,
    buffer_len: usize,
    out: *mut u64,
) -> u64 {
    let count = call.name().1;
    unsafe {
        let mut said = [0; 4];
        let number = run(
            check::sound,
            &mut *(head as *mut [u64; HEAD]),
            lent(elems as *mut u64, elems_len),
            lent(shared as *mut u64, shared_len),
            &call,
            lent(buffer, buffer_len),
            &mut said,
        );
        if number == 0 && count != 0 {
            from_raw_parts_mut(out, count).copy_from_slice(&said[..count]);
        }
        number
    }
}

/// An entry: head and tables, then the arguments of its own, a size last, then a lent buffer and `out` where it has them.
macro_rules! entry {
    ($name:ident ($($arg:ident),*) => $call:expr) => { entry!(@ $name ($($arg),*) () (out: *mut u64) $call, std::ptr::null_mut(), 0, out); };
    ($name:ident ($($arg:ident),*) lent => $call:expr) => { entry!(@ $name ($($arg),*) (lent: *mut u64, lent_len: usize) (out: *mut u64) $call, lent, lent_len, out); };
    ($name:ident ($($arg:ident),*) $size:ident: u32 => $call:expr) => { entry!(@ $name ($($arg),*) ($size: u32) (out: *mut u64) $call, std::ptr::null_mut(), 0, out); };
    (@ $name:ident ($($arg:ident),*) ($($lent:ident: $ty:ty),*) ($($out:ident: $oty:ty)?) $call:expr, $l:expr, $n:expr, $o:expr) => {
        #[unsafe(no_mangle)]
        pub unsafe extern "C" fn $name(
            head: *mut u64, elems: *mut u64, elems_len: usize, shared: *mut u64, shared_len: usize,
            $($arg: u64,)* $($lent: $ty,)* $($out: $oty)?
        ) -> u64 {
            unsafe { enter(head, elems, elems_len, shared, shared_len, $call, $l, $n, $o) }
        }
    };
}

fn key(slot: u64, generation: u64) -> Key {
    Key { slot, generation }
}

#[unsafe(no_mangle)]
pub unsafe extern "C" fn doorsedge_fresh(
    head: *mut u64,
    elems_capacity: u64,
    shared_capacity: u64,
    elems: *mut u64,
    elems_len: usize,
    shared: *mut u64,
    shared_len: usize,
) -> u64 {
    let call = Call::Fresh { elems: elems_capacity, shared: shared_capacity };
    let none = std::ptr::null_mut();
    unsafe { enter(head, elems, elems_len, shared, shared_len, call, none, 0, none) }
}

#[unsafe(no_mangle)]
pub unsafe extern "C" fn doorsedge_check(
    head: *const u64,
    elems: *const u64,
    elems_len: usize,
    shared: *const u64,
    shared_len: usize,
) -> u64 {
    let none = std::ptr::null_mut();
    unsafe { enter(head, elems, elems_len, shared, shared_len, Call::Check, none, 0, none) }
}

#[unsafe(no_mangle)]
pub unsafe extern "C" fn doorsedge_exchange_shared4(
    head: *mut u64,
    elems: *const u64,
    elems_len: usize,
    shared: *mut u64,
    shared_len: usize,
    keys: *const u64,
    values: *const u64,
    out: *mut u64,
) -> u64 {
    unsafe {
        let keys = from_raw_parts(keys, 8);
        let values = from_raw_parts(values, 4);
        let keys = [0, 2, 4, 6].map(|i| key(keys[i], keys[i + 1]));
        let call = Call::ExchangeShared4(keys, [values[0], values[1], values[2], values[3]]);
        enter(head, elems, elems_len, shared, shared_len, call, std::ptr::null_mut(), 0, out)
    }
}

#[unsafe(no_mangle)]
pub unsafe extern "C" fn doorsedge_lookup(
    head: *const u64,
    elems: *const u64,
    elems_len: usize,
    shared: *const u64,
    shared_len: usize,
    slot: u64,
    generation: u64,
) -> u64 {
    let (call, none) = (Call::Lookup(key(slot, generation)), std::ptr::null_mut());
    unsafe { enter(head, elems, elems_len, shared, shared_len, call, none, 0, none) }
}

#[unsafe(no_mangle)]
pub unsafe extern "C" fn doorsedge_undo(
    head: *mut u64,
    elems: *mut u64,
    elems_len: usize,
    shared: *mut u64,
    shared_len: usize,
) -> u64 {
    let none = std::ptr::null_mut();
    unsafe { enter(head, elems, elems_len, shared, shared_len, Call::Undo, none, 0, none) }
}

#[unsafe(no_mangle)]
pub unsafe extern "C" fn doorsedge_union_ceiling(n: u64, out: *mut [u64; 1]) -> u64 {
    match model::figures::union_ceiling(n) {
        Ok(figure) => {
            unsafe { *out = [figure] };
            0
        }
        Err(refusal) => refusal.result(),
    }
}

entry!(doorsedge_len_surject(slot, generation) => Call::LenSurject(key(slot, generation)));
entry!(doorsedge_in_same_surject(slot0, generation0, slot1, generation1) => Call::InSameSurject(key(slot0, generation0), key(slot1, generation1)));
entry!(doorsedge_get(slot, generation) => Call::Get(key(slot, generation)));
entry!(doorsedge_get_shared(slot, generation) => Call::GetShared(key(slot, generation)));
entry!(doorsedge_get_size(slot, generation) => Call::GetSize(key(slot, generation)));
entry!(doorsedge_get_total(slot, generation) => Call::GetTotal(key(slot, generation)));
entry!(doorsedge_list(slot, generation) lent => Call::List(key(slot, generation)));
entry!(doorsedge_seal(slot, generation) lent => Call::Seal(key(slot, generation)));
entry!(doorsedge_set(slot, generation, payload) => Call::Set(key(slot, generation), payload));
entry!(doorsedge_set_shared(slot, generation, value) => Call::SetShared(key(slot, generation), value));
entry!(doorsedge_insert_surject(payload, value) size: u32 => Call::InsertSurject { payload, value, size });
entry!(doorsedge_insert(slot, generation, payload) size: u32 => Call::Insert(key(slot, generation), payload, size));
entry!(doorsedge_union(slot0, generation0, slot1, generation1) => Call::Union(key(slot0, generation0), key(slot1, generation1)));
entry!(doorsedge_remove_element(slot, generation) => Call::RemoveElement(key(slot, generation)));
entry!(doorsedge_remove_shared(slot, generation) => Call::RemoveShared(key(slot, generation)));
entry!(doorsedge_drain(slot, generation) lent => Call::Drain(key(slot, generation)));
entry!(doorsedge_drain_all() lent => Call::DrainAll);
entry!(doorsedge_clear() => Call::Clear);
entry!(doorsedge_compress_canonical(reset) lent => Call::CompressCanonical { reset });
entry!(doorsedge_compress_with(reset) lent => Call::CompressWith { reset });
entry!(doorsedge_insert_in_place(slot, generation, payload) size: u32 => Call::Insert(key(slot, generation), payload, size));
entry!(doorsedge_remove_in_place(slot, generation) => Call::RemoveElement(key(slot, generation)));
