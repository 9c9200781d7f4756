//! The entries on run files. Where DOORSEDGE_WRONG names a mistake of [wrong_files](crate::wrong_files), it is made.

use crate::wrong_files::{read_wrong, write_wrong};
use crate::{lent, lent_to_read};
use model::{HEAD, check, file};
use std::sync::OnceLock;

/// The mistake that the environment asks for.
fn wrong() -> Option<&'static str> {
    static NAME: OnceLock<Option<String>> = OnceLock::new();
    NAME.get_or_init(|| std::env::var("DOORSEDGE_WRONG").ok()).as_deref()
}

#[unsafe(no_mangle)]
pub unsafe extern "C" fn doorsedge_write_file(
    head: *const u64,
    elems: *const u64,
    elems_len: usize,
    shared: *const u64,
    shared_len: usize,
    file: *mut u8,
    file_len: usize,
    out: *mut [u64; 1],
) -> u64 {
    unsafe {
        let (elems, shared) = (lent_to_read(elems, elems_len), lent_to_read(shared, shared_len));
        if let Some(name) = wrong() {
            let head = &mut *(head as *mut [u64; HEAD]);
            return write_wrong(name, head, elems, shared, lent(file, file_len), &mut *out);
        }
        let head = &*(head as *const [u64; HEAD]);
        match file::write(check::sound, head, elems, shared, lent(file, file_len)) {
            Ok(bytes) => {
                *out = [bytes];
                0
            }
            Err(refusal) => refusal.result(),
        }
    }
}

#[unsafe(no_mangle)]
pub unsafe extern "C" fn doorsedge_read_file(
    head: *mut u64,
    elems: *mut u64,
    elems_len: usize,
    shared: *mut u64,
    shared_len: usize,
    file: *const u8,
    file_len: usize,
) -> u64 {
    unsafe {
        let head = &mut *(head as *mut [u64; HEAD]);
        let (elems, shared) = (lent(elems, elems_len), lent(shared, shared_len));
        if let Some(name) = wrong() {
            return read_wrong(name, head, elems, shared, lent_to_read(file, file_len));
        }
        file::read(head, elems, shared, lent_to_read(file, file_len)).map_or_else(|refusal| refusal.result(), |()| 0)
    }
}
