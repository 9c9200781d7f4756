//! The entries on two studies.

use crate::{lent, lent_to_read, wrong};
use model::{HEAD, Source, Study, check, copy, transfer};

#[unsafe(no_mangle)]
pub unsafe extern "C" fn doorsedge_clone_from(
    head: *mut u64,
    elems: *mut u64,
    elems_len: usize,
    shared: *mut u64,
    shared_len: usize,
    from_head: *const u64,
    from_elems: *const u64,
    from_elems_len: usize,
    from_shared: *const u64,
    from_shared_len: usize,
) -> u64 {
    unsafe {
        let from = Source {
            head: &*(from_head as *const [u64; HEAD]),
            elems: lent_to_read(from_elems, from_elems_len),
            shared: lent_to_read(from_shared, from_shared_len),
        };
        let head = &mut *(head as *mut [u64; HEAD]);
        copy::run(check::sound, head, lent(elems, elems_len), lent(shared, shared_len), from)
    }
}

#[unsafe(no_mangle)]
pub unsafe extern "C" fn doorsedge_transfer_canonical(
    head: *mut u64,
    elems: *mut u64,
    elems_len: usize,
    shared: *mut u64,
    shared_len: usize,
    generation: u32,
    from_head: *mut u64,
    from_elems: *mut u64,
    from_elems_len: usize,
    from_shared: *mut u64,
    from_shared_len: usize,
    out: *mut u64,
) -> u64 {
    unsafe {
        let study = |head: *mut u64, elems, elems_len, shared, shared_len| Study {
            head: &mut *(head as *mut [u64; HEAD]),
            elems: lent(elems, elems_len),
            shared: lent(shared, shared_len),
        };
        let to = study(head, elems, elems_len, shared, shared_len);
        let from = study(from_head, from_elems, from_elems_len, from_shared, from_shared_len);
        let out = &mut *(out as *mut [u64; 1]);
        match wrong::name() {
            Some(name) => wrong::transfer(&name, to, generation, from, out),
            None => transfer::run(check::sound, to, generation, from, out),
        }
    }
}
