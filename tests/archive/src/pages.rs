//! Numbers and bytes in pages of their own, which can be locked, and after which memory ends; and calls in a process of their own,
//! which may fault.

use crate::{Host, Lent, UNTOUCHED};
use std::ffi::{c_int, c_void};
use std::ptr::{null_mut, slice_from_raw_parts_mut};
use std::slice::from_raw_parts;

unsafe extern "C" {
    fn mmap(at: *mut c_void, bytes: usize, may: c_int, flags: c_int, file: c_int, offset: isize) -> *mut c_void;
    fn mprotect(at: *mut c_void, bytes: usize, may: c_int) -> c_int;
    fn munmap(at: *mut c_void, bytes: usize) -> c_int;
    fn fork() -> c_int;
    fn waitpid(child: c_int, status: *mut c_int, options: c_int) -> c_int;
    fn _exit(code: c_int) -> !;
}

const NONE: c_int = 0;
const READ: c_int = 1;
const WRITE: c_int = 2;
const SHARED: c_int = 1;
const PRIVATE: c_int = 2;
const ANONYMOUS: c_int = if cfg!(target_os = "linux") { 0x20 } else { 0x1000 };
const PAGE: usize = 65_536;

/// New pages that can be written.
fn mapped(bytes: usize, kind: c_int) -> *mut c_void {
    // Safety: new pages
    let start = unsafe { mmap(null_mut(), bytes, READ | WRITE, kind | ANONYMOUS, -1, 0) };
    assert_ne!(start.addr(), usize::MAX, "no pages");
    start
}

/// Numbers in pages of their own. No numbers have pages too, so that the pointer is one.
pub struct Pages<T: Copy = u64> {
    pub start: *mut T,
    pub count: usize,
    bytes: usize,
}

impl<T: Copy> Pages<T> {
    pub fn of(numbers: &[T]) -> Pages<T> {
        Pages::with(numbers, PRIVATE)
    }

    /// The same, of which a child process writes its parent's own where they are shared.
    fn with(numbers: &[T], kind: c_int) -> Pages<T> {
        let (count, bytes) = (numbers.len(), size_of_val(numbers).next_multiple_of(PAGE).max(PAGE));
        let start: *mut T = mapped(bytes, kind).cast();
        // Safety: as many pages as hold the numbers
        unsafe { start.copy_from_nonoverlapping(numbers.as_ptr(), count) };
        Pages { start, count, bytes }
    }

    pub fn lock(&self) {
        assert_eq!(unsafe { mprotect(self.start.cast(), self.bytes, READ) }, 0);
    }

    pub fn numbers(&self) -> &[T] {
        unsafe { from_raw_parts(self.start, self.count) }
    }
}

impl<T: Copy> Drop for Pages<T> {
    fn drop(&mut self) {
        unsafe { munmap(self.start.cast(), self.bytes) };
    }
}

/// Bytes right before a place where memory ends: who reads or writes past them ends the process.
pub struct Brink {
    start: *mut u8,
    room: usize,
}

impl Brink {
    pub fn with_room(bytes: usize) -> Brink {
        let room = bytes.next_multiple_of(PAGE).max(PAGE);
        let start: *mut u8 = mapped(room + PAGE, PRIVATE).cast();
        // Safety: the last of the new pages
        assert_eq!(unsafe { mprotect(start.add(room).cast(), PAGE, NONE) }, 0);
        Brink { start, room }
    }

    /// These bytes, moved there; before them 64 canaries.
    pub fn lay(&mut self, bytes: &[u8]) -> *mut [u8] {
        assert!(bytes.len() + CANARIES.len() <= self.room);
        // Safety: they end where the pages that can be written end
        unsafe {
            let at = self.start.add(self.room - bytes.len());
            at.copy_from_nonoverlapping(bytes.as_ptr(), bytes.len());
            at.sub(CANARIES.len()).copy_from_nonoverlapping(CANARIES.as_ptr(), CANARIES.len());
            slice_from_raw_parts_mut(at, bytes.len())
        }
    }

    /// The last so many bytes, if the canaries before them stand.
    pub fn taken(&self, count: usize) -> Option<&[u8]> {
        // Safety: as above
        let bytes = unsafe { from_raw_parts(self.start, self.room) };
        let (before, last) = bytes.split_at(self.room - count);
        before.ends_with(&CANARIES).then_some(last)
    }
}

const CANARIES: [u8; 64] = [0xCA; 64];

impl Drop for Brink {
    fn drop(&mut self) {
        unsafe { munmap(self.start.cast(), self.room + PAGE) };
    }
}

/// Head, element table, shared table, buffer and `out`.
pub struct Parts(pub [Pages; 5]);

impl Parts {
    pub fn of(host: &Host, buffer: &[u64]) -> Parts {
        Parts([&host.head[..], &host.elems, &host.shared, buffer, &[UNTOUCHED; 4]].map(Pages::of))
    }

    pub fn lent(&self) -> Lent {
        let [head, elems, shared, buffer, out] = &self.0;
        let slice = |pages: &Pages| slice_from_raw_parts_mut(pages.start, pages.count);
        Lent {
            head: head.start.cast(),
            elems: slice(elems),
            shared: slice(shared),
            buffer: slice(buffer),
            out: out.start.cast(),
        }
    }
}

#[derive(PartialEq, Eq, Debug)]
pub enum End {
    Said(u64),
    Signal(c_int),
}

/// A process that could not write where it did.
pub fn is_fault(end: &End) -> bool {
    matches!(end, End::Signal(7 | 10 | 11))
}

/// How a child process ends that makes the call.
pub fn end_of(make: impl FnOnce() -> u64) -> End {
    // an exit code has eight bits alone, and a result's cause stands above them
    let result = Pages::with(&[UNTOUCHED], SHARED);
    let mut status = 0;
    // Safety: the child does nothing but the call
    unsafe {
        let child = fork();
        assert!(child >= 0, "no process");
        if child == 0 {
            result.start.write(make());
            _exit(0);
        }
        assert_eq!(waitpid(child, &mut status, 0), child);
    }
    match status & 0x7F {
        0 => End::Said(result.numbers()[0]),
        signal => End::Signal(signal),
    }
}

/// Numbers of each refusal that include/doorsedge.h lists, with the entry: of 3 a result for each cause.
pub fn listed() -> std::collections::BTreeSet<(String, u64)> {
    let mut numbers = vec![];
    let mut listed = std::collections::BTreeSet::new();
    for line in include_str!("../../../include/doorsedge.h").lines() {
        if let Some((_, refusals)) = line.split_once("Refusals:") {
            let word = |word: &str| word.trim_end_matches([',', '.']).parse().ok();
            numbers = refusals.split_whitespace().filter_map(word).collect();
        }
        if let Some((entry, _)) = line.strip_prefix("uint64_t doorsedge_").and_then(|rest| rest.split_once('(')) {
            let results = |number| if number == 3 { vec![259, 515, 771] } else { vec![number] };
            listed.extend(numbers.drain(..).flat_map(results).map(|result| (entry.to_owned(), result)));
        }
    }
    listed
}
