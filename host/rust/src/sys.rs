//! The C entries as include/doorsedge.h has them. [Arena](crate::Arena) calls them safely.
//!
//! # Safety
//!
//! Each pointer is to memory of the size that the header says, is null only with a length of 0, and memory that a call may
//! write does not overlap any other. Lengths are in numbers, a run file's in bytes. One call at a time is made on a head and its tables.

#[cfg(feature = "mock")]
use mock as _;

pub type Head = [u64; 13];

/// What the head holds of one table.
#[derive(Clone, Copy, PartialEq, Eq, Debug, Default)]
#[repr(C)]
pub struct Pool {
    pub capacity: u64,
    pub extent: u64,
    pub root: u64,
    pub live: u64,
}

/// What the head holds of the last union, to take it back: zeros where there is nothing to undo.
#[derive(Clone, Copy, PartialEq, Eq, Debug, Default)]
#[repr(C)]
pub struct Memory {
    pub kept: u64,
    pub gone: u64,
    pub moved: u64,
    pub value: u64,
}

/// A head that a writer lends in place. It lies as the thirteen numbers of a [Head] do.
#[derive(Clone, Copy, PartialEq, Eq, Debug, Default)]
#[repr(C)]
pub struct LentHead {
    pub elems: Pool,
    pub shared: Pool,
    pub generation: u64,
    pub undo: Memory,
}

impl From<Head> for LentHead {
    fn from(head: Head) -> LentHead {
        let pool = |i: usize| Pool { capacity: head[i], extent: head[i + 1], root: head[i + 2], live: head[i + 3] };
        let undo = Memory { kept: head[9], gone: head[10], moved: head[11], value: head[12] };
        LentHead { elems: pool(0), shared: pool(4), generation: head[8], undo }
    }
}

impl From<LentHead> for Head {
    fn from(LentHead { elems: e, shared: s, generation: g, undo: m }: LentHead) -> Head {
        let (capacity, extent, root, live) = (e.capacity, e.extent, e.root, e.live);
        let (kept, gone, moved, value) = (m.kept, m.gone, m.moved, m.value);
        [capacity, extent, root, live, s.capacity, s.extent, s.root, s.live, g, kept, gone, moved, value]
    }
}

/// What stands in for an entry that the archive lacks gives this number; no entry of the archive does.
pub const ABSENT: u64 = 99;

mod missing {
    include!(concat!(env!("OUT_DIR"), "/missing.rs"));
}
pub use missing::MISSING;

unsafe extern "C" {
    pub fn doorsedge_fresh(
        head: *mut Head,
        elems_capacity: u64,
        shared_capacity: u64,
        elems: *mut u64,
        elems_len: usize,
        shared: *mut u64,
        shared_len: usize,
    ) -> u64;

    pub fn doorsedge_check(
        head: *const Head,
        elems: *const u64,
        elems_len: usize,
        shared: *const u64,
        shared_len: usize,
    ) -> u64;

    pub fn doorsedge_lookup(
        head: *const Head,
        elems: *const u64,
        elems_len: usize,
        shared: *const u64,
        shared_len: usize,
        slot: u64,
        generation: u64,
    ) -> u64;

    pub fn doorsedge_len_surject(
        head: *const Head,
        elems: *const u64,
        elems_len: usize,
        shared: *const u64,
        shared_len: usize,
        slot: u64,
        generation: u64,
        out: *mut [u64; 1],
    ) -> u64;

    pub fn doorsedge_in_same_surject(
        head: *const Head,
        elems: *const u64,
        elems_len: usize,
        shared: *const u64,
        shared_len: usize,
        slot0: u64,
        generation0: u64,
        slot1: u64,
        generation1: u64,
        out: *mut [u64; 1],
    ) -> u64;

    pub fn doorsedge_get(
        head: *const Head,
        elems: *const u64,
        elems_len: usize,
        shared: *const u64,
        shared_len: usize,
        slot: u64,
        generation: u64,
        out: *mut [u64; 1],
    ) -> u64;

    pub fn doorsedge_get_shared(
        head: *const Head,
        elems: *const u64,
        elems_len: usize,
        shared: *const u64,
        shared_len: usize,
        slot: u64,
        generation: u64,
        out: *mut [u64; 1],
    ) -> u64;

    pub fn doorsedge_get_size(
        head: *const Head,
        elems: *const u64,
        elems_len: usize,
        shared: *const u64,
        shared_len: usize,
        slot: u64,
        generation: u64,
        out: *mut [u64; 1],
    ) -> u64;

    pub fn doorsedge_get_total(
        head: *const Head,
        elems: *const u64,
        elems_len: usize,
        shared: *const u64,
        shared_len: usize,
        slot: u64,
        generation: u64,
        out: *mut [u64; 1],
    ) -> u64;

    pub fn doorsedge_list(
        head: *const Head,
        elems: *const u64,
        elems_len: usize,
        shared: *const u64,
        shared_len: usize,
        slot: u64,
        generation: u64,
        places: *mut u64,
        places_len: usize,
        out: *mut [u64; 1],
    ) -> u64;

    pub fn doorsedge_set(
        head: *mut Head,
        elems: *mut u64,
        elems_len: usize,
        shared: *const u64,
        shared_len: usize,
        slot: u64,
        generation: u64,
        payload: u64,
        out: *mut [u64; 1],
    ) -> u64;

    pub fn doorsedge_set_shared(
        head: *mut Head,
        elems: *const u64,
        elems_len: usize,
        shared: *mut u64,
        shared_len: usize,
        slot: u64,
        generation: u64,
        value: u64,
        out: *mut [u64; 1],
    ) -> u64;

    pub fn doorsedge_exchange_shared4(
        head: *mut Head,
        elems: *const u64,
        elems_len: usize,
        shared: *mut u64,
        shared_len: usize,
        keys: *const [u64; 8],
        values: *const [u64; 4],
        out: *mut [u64; 4],
    ) -> u64;

    pub fn doorsedge_seal(
        head: *mut Head,
        elems: *const u64,
        elems_len: usize,
        shared: *mut u64,
        shared_len: usize,
        slot: u64,
        generation: u64,
        places: *mut u64,
        places_len: usize,
        out: *mut [u64; 2],
    ) -> u64;

    pub fn doorsedge_insert_surject(
        head: *mut Head,
        elems: *mut u64,
        elems_len: usize,
        shared: *mut u64,
        shared_len: usize,
        payload: u64,
        value: u64,
        size: u32,
        out: *mut [u64; 2],
    ) -> u64;

    pub fn doorsedge_insert(
        head: *mut Head,
        elems: *mut u64,
        elems_len: usize,
        shared: *mut u64,
        shared_len: usize,
        slot: u64,
        generation: u64,
        payload: u64,
        size: u32,
        out: *mut [u64; 2],
    ) -> u64;

    pub fn doorsedge_union(
        head: *mut Head,
        elems: *mut u64,
        elems_len: usize,
        shared: *mut u64,
        shared_len: usize,
        slot0: u64,
        generation0: u64,
        slot1: u64,
        generation1: u64,
        out: *mut [u64; 4],
    ) -> u64;

    pub fn doorsedge_undo(
        head: *mut Head,
        elems: *mut u64,
        elems_len: usize,
        shared: *mut u64,
        shared_len: usize,
    ) -> u64;

    pub fn doorsedge_remove_element(
        head: *mut Head,
        elems: *mut u64,
        elems_len: usize,
        shared: *mut u64,
        shared_len: usize,
        slot: u64,
        generation: u64,
        out: *mut [u64; 4],
    ) -> u64;

    pub fn doorsedge_remove_shared(
        head: *mut Head,
        elems: *mut u64,
        elems_len: usize,
        shared: *mut u64,
        shared_len: usize,
        slot: u64,
        generation: u64,
        out: *mut [u64; 2],
    ) -> u64;

    pub fn doorsedge_drain(
        head: *mut Head,
        elems: *mut u64,
        elems_len: usize,
        shared: *mut u64,
        shared_len: usize,
        slot: u64,
        generation: u64,
        records: *mut u64,
        records_len: usize,
        out: *mut [u64; 1],
    ) -> u64;

    pub fn doorsedge_drain_all(
        head: *mut Head,
        elems: *mut u64,
        elems_len: usize,
        shared: *mut u64,
        shared_len: usize,
        records: *mut u64,
        records_len: usize,
        out: *mut [u64; 1],
    ) -> u64;

    pub fn doorsedge_clear(
        head: *mut Head,
        elems: *mut u64,
        elems_len: usize,
        shared: *mut u64,
        shared_len: usize,
        out: *mut [u64; 1],
    ) -> u64;

    pub fn doorsedge_compress_canonical(
        head: *mut Head,
        elems: *mut u64,
        elems_len: usize,
        shared: *mut u64,
        shared_len: usize,
        reset: u64,
        scratch: *mut u64,
        scratch_len: usize,
        out: *mut [u64; 1],
    ) -> u64;

    pub fn doorsedge_compress_with(
        head: *mut Head,
        elems: *mut u64,
        elems_len: usize,
        shared: *mut u64,
        shared_len: usize,
        reset: u64,
        pairs: *mut u64,
        pairs_len: usize,
        out: *mut [u64; 2],
    ) -> u64;

    pub fn doorsedge_union_ceiling(n: u64, out: *mut [u64; 1]) -> u64;

    pub fn doorsedge_clone_from(
        head: *mut Head,
        elems: *mut u64,
        elems_len: usize,
        shared: *mut u64,
        shared_len: usize,
        from_head: *const Head,
        from_elems: *const u64,
        from_elems_len: usize,
        from_shared: *const u64,
        from_shared_len: usize,
    ) -> u64;

    pub fn doorsedge_transfer_canonical(
        head: *mut Head,
        elems: *mut u64,
        elems_len: usize,
        shared: *mut u64,
        shared_len: usize,
        generation: u32,
        from_head: *mut Head,
        from_elems: *mut u64,
        from_elems_len: usize,
        from_shared: *mut u64,
        from_shared_len: usize,
        out: *mut [u64; 1],
    ) -> u64;

    pub fn doorsedge_write_file(
        head: *const Head,
        elems: *const u64,
        elems_len: usize,
        shared: *const u64,
        shared_len: usize,
        file: *mut u8,
        file_len: usize,
        out: *mut [u64; 1],
    ) -> u64;

    pub fn doorsedge_read_file(
        head: *mut Head,
        elems: *mut u64,
        elems_len: usize,
        shared: *mut u64,
        shared_len: usize,
        file: *const u8,
        file_len: usize,
    ) -> u64;

    pub fn doorsedge_insert_in_place(
        head: *mut LentHead,
        elems: *mut u64,
        elems_len: usize,
        shared: *mut u64,
        shared_len: usize,
        slot: u64,
        generation: u64,
        payload: u64,
        size: u32,
        out: *mut [u64; 2],
    ) -> u64;

    pub fn doorsedge_remove_in_place(
        head: *mut LentHead,
        elems: *mut u64,
        elems_len: usize,
        shared: *mut u64,
        shared_len: usize,
        slot: u64,
        generation: u64,
        out: *mut [u64; 4],
    ) -> u64;
}
