//! Ticket 6 of document 02: a frame's size and its run's total. Totals through every call that changes them, what is unsound, the
//! most bytes that there can be, and totals reckoned from the calls alone. Each call is also compared with the model's in every
//! number.

use archive::random::Random;
use archive::{Host, UNTOUCHED, head, key};
use model::door::Call;
use model::layout::{COUNT, MOST_BYTES, NEXT, SIZE, TOTAL};
use model::{FRAME, HEADER, Key, PAIR, RECORD, SEAL_PLACE, check};
use std::collections::BTreeMap;

fn new_run(payload: u64, value: u64, size: u32) -> Call {
    Call::InsertSurject { payload, value, size }
}

/// Ring 1, 3, 2 under 100, of 1, 4 and 2 bytes; and ring 4, 5 under 200, of 8 and 16.
fn two_runs() -> Host {
    let mut host = Host::fresh(6, 3);
    let first = [new_run(10, 100, 1), Call::Insert(key(1, 1), 11, 2), Call::Insert(key(1, 1), 12, 4)];
    for call in first.into_iter().chain([new_run(20, 200, 8), Call::Insert(key(4, 1), 21, 16)]) {
        assert_eq!(host.call(call, &[]).number, 0);
    }
    host
}

fn after(host: &Host, call: Call) -> Host {
    let mut host = host.clone();
    assert_eq!(host.call(call, &[0; 6 * FRAME]).number, 0, "{call:?}");
    host
}

fn sizes(host: &Host) -> Vec<u64> {
    host.elems.chunks(FRAME).map(|row| row[SIZE]).collect()
}

fn totals(host: &Host) -> Vec<u64> {
    host.shared.chunks(HEADER).map(|row| row[TOTAL]).collect()
}

/// The number that a read answers.
fn said(host: &Host, call: Call) -> u64 {
    let said = host.clone().call(call, &[]);
    assert_eq!((said.number, &said.out[1..]), (0, &[UNTOUCHED; 3][..]), "{call:?}");
    said.out[0]
}

#[test]
fn new_runs_and_inserts() {
    let host = two_runs();
    assert_eq!((sizes(&host), totals(&host)), (vec![1, 2, 4, 8, 16, 0], vec![7, 24, 0]));
    for (slot, size, total) in [(1, 1, 7), (2, 2, 7), (3, 4, 7), (4, 8, 24), (5, 16, 24)] {
        assert_eq!(said(&host, Call::GetSize(key(slot, 1))), size);
        assert_eq!(said(&host, Call::GetTotal(key(slot, 1))), total);
    }
    let place = after(&host, Call::InsertInPlace(key(5, 1), 22, 32));
    assert_eq!(place, after(&host, Call::Insert(key(5, 1), 22, 32)));
    assert_eq!((sizes(&place)[5], totals(&place)), (32, vec![7, 56, 0]));
}

/// A size is of a frame and a total of a run: no other number of either changes with them, and sets change neither.
#[test]
fn sets_leave_sizes() {
    let host = two_runs();
    let seal = after(&host, Call::Seal(key(2, 1)));
    let set = after(&after(&seal, Call::Set(key(3, 1), u64::MAX)), Call::SetShared(key(3, 1), u64::MAX));
    assert_eq!((sizes(&set), totals(&set)), (sizes(&host), totals(&host)));
    let mut plain = Host::fresh(6, 3);
    for call in [new_run(10, 100, 0), Call::Insert(key(1, 1), 11, 0), Call::Insert(key(1, 1), 12, 0)] {
        assert_eq!(plain.call(call, &[]).number, 0);
    }
    for call in [new_run(20, 200, 0), Call::Insert(key(4, 1), 21, 0)] {
        assert_eq!(plain.call(call, &[]).number, 0);
    }
    let mut cleaned = host;
    cleaned.elems.chunks_mut(FRAME).for_each(|row| row[SIZE] = 0);
    cleaned.shared.chunks_mut(HEADER).for_each(|row| row[TOTAL] = 0);
    assert_eq!(cleaned, plain);
}

/// Whichever key comes first the larger run keeps its header, with both totals in it; equal ones the first key's.
#[test]
fn union_from_either_side() {
    let host = two_runs();
    for (j, k) in [(1, 4), (4, 1), (2, 5), (5, 3)] {
        let joined = after(&host, Call::Union(key(j, 1), key(k, 1)));
        assert_eq!((sizes(&joined), totals(&joined)), (sizes(&host), vec![31, 0, 0]));
    }
    let equal = after(&host, Call::RemoveElement(key(1, 1)));
    for (j, k, left) in [(2, 4, vec![30, 0, 0]), (4, 2, vec![0, 30, 0])] {
        assert_eq!(totals(&after(&equal, Call::Union(key(j, 1), key(k, 1)))), left);
    }
    // more bytes in fewer frames: it is the frames that count
    let heavy = after(&host, Call::InsertSurject { payload: 30, value: 300, size: u32::MAX });
    let said = heavy.clone().call(Call::Union(key(6, 1), key(5, 1)), &[]);
    assert_eq!(said.out, [300, 5, 1, 1]);
    assert_eq!(totals(&after(&heavy, Call::Union(key(6, 1), key(5, 1)))), [7, 24 + MOST_BYTES, 0]);
}

/// The frame that the run began with, one between and the one before it in the ring; down to the last, whose header goes.
#[test]
fn removal_of_any_frame() {
    let host = two_runs();
    for (slot, left) in [(1, 6), (3, 3), (2, 5)] {
        for call in [Call::RemoveElement(key(slot, 1)), Call::RemoveInPlace(key(slot, 1))] {
            let removed = after(&host, call);
            assert_eq!((sizes(&removed)[slot as usize - 1], totals(&removed)), (0, vec![left, 24, 0]));
        }
    }
    for order in [[1, 2, 3], [1, 3, 2], [2, 1, 3], [2, 3, 1], [3, 1, 2], [3, 2, 1]] {
        let (mut host, mut left) = (host.clone(), 7);
        for slot in order {
            host = after(&host, Call::RemoveElement(key(slot, 1)));
            left -= [1, 2, 4][slot as usize - 1];
            assert_eq!(totals(&host), [left, 24, 0]);
        }
        assert_eq!(sizes(&host), [0, 0, 0, 8, 16, 0]);
        let again = after(&host, new_run(30, 300, 5));
        assert_eq!((sizes(&again)[order[2] as usize - 1], totals(&again)), (5, vec![5, 24, 0]));
    }
}

/// Whole runs go: sizes and totals of what is left stay, and those of free slots are 0.
#[test]
fn runs_that_go() {
    let host = two_runs();
    for slot in 1..=3 {
        for call in [Call::RemoveShared(key(slot, 1)), Call::Drain(key(slot, 1))] {
            let left = after(&host, call);
            assert_eq!((sizes(&left), totals(&left)), (vec![0, 0, 0, 8, 16, 0], vec![0, 24, 0]), "{call:?}");
        }
    }
    for call in [Call::DrainAll, Call::Clear, Call::Fresh { elems: 6, shared: 3 }] {
        let left = after(&host, call);
        assert_eq!((sizes(&left), totals(&left)), (vec![0; 6], vec![0; 3]), "{call:?}");
    }
    // records and places are as they were: no size is in them
    let drain = host.clone().call(Call::Drain(key(4, 1)), &[77; 2 * RECORD + 1]);
    assert_eq!(drain.lent, [4, 1, 20, 0, 0, 0, 5, 1, 21, 1, 200, 0, 77]);
    let seal = host.clone().call(Call::Seal(key(4, 1)), &[77; 2 * SEAL_PLACE + 1]);
    assert_eq!((seal.out[..2].to_vec(), seal.lent), (vec![200, 2], vec![4, 1, 20, 5, 1, 21, 77]));
}

/// Slot 1 is gone, so every frame moves, and with the first run gone its header too.
#[test]
fn both_compressions_carry_them() {
    let host = after(&two_runs(), Call::RemoveElement(key(1, 1)));
    let gone = after(&host, Call::RemoveShared(key(2, 1)));
    for (call, ring) in
        [(Call::CompressCanonical { reset: 0 }, vec![2, 4]), (Call::CompressWith { reset: 0 }, vec![2, 4])]
    {
        let moved = after(&host, call);
        assert_eq!((sizes(&moved), totals(&moved)), ([ring, vec![8, 16, 0, 0]].concat(), vec![6, 24, 0]));
        let moved = after(&gone, call);
        assert_eq!((sizes(&moved), totals(&moved)), (vec![8, 16, 0, 0, 0, 0], vec![24, 0, 0]));
    }
    // ring 1, 3, 2: along the ring, and as the slots stand
    let canonical = after(&two_runs(), Call::CompressCanonical { reset: 1 });
    assert_eq!((sizes(&canonical), totals(&canonical)), (vec![1, 4, 2, 8, 16, 0], vec![7, 24, 0]));
    let ordered = after(&two_runs(), Call::CompressWith { reset: 1 });
    assert_eq!((sizes(&ordered), totals(&ordered)), (vec![1, 2, 4, 8, 16, 0], vec![7, 24, 0]));
}

/// Refused calls leave both: no room, a dead key, a sealed run.
#[test]
fn refused_calls_add_nothing() {
    let mut host = after(&two_runs(), Call::Insert(key(4, 1), 22, 32));
    for (call, number) in [
        (Call::Insert(key(1, 1), 13, u32::MAX), 5),
        (Call::InsertInPlace(key(1, 1), 13, u32::MAX), 5),
        (new_run(30, 300, u32::MAX), 5),
        (Call::Insert(key(1, 2), 13, u32::MAX), 3),
        (Call::GetSize(key(1, 2)), 3),
        (Call::GetTotal(key(7, 1)), 3),
    ] {
        assert_eq!(host.call(call, &[]).number, number);
    }
    host = after(&after(&host, Call::RemoveElement(key(6, 1))), Call::Seal(key(1, 1)));
    assert_eq!(host.call(Call::Insert(key(1, 1), 13, u32::MAX), &[]).number, 12);
    assert_eq!(host.call(Call::Union(key(4, 1), key(1, 1)), &[]).number, 12);
    assert_eq!((sizes(&host), totals(&host)), (vec![1, 2, 4, 8, 16, 0], vec![7, 24, 0]));
}

/// Every size and every total one off, and each beyond its bits; free slots and those past the extents hold 0.
#[test]
fn what_is_unsound() {
    let start = after(&after(&two_runs(), Call::RemoveElement(key(2, 1))), new_run(30, 300, 0));
    let start = after(&start, Call::RemoveElement(key(2, 2)));
    // slot 2 and shared slot 3 are free, slot 6 is past the extent
    assert_eq!(
        (start.head[1], start.head[5], sizes(&start), totals(&start)),
        (5, 3, vec![1, 0, 4, 8, 16, 0], vec![5, 24, 0])
    );
    let number = |change: &dyn Fn(&mut Host)| {
        let mut host = start.clone();
        change(&mut host);
        host.call(Call::Check, &[]).number
    };
    assert_eq!(number(&|_| ()), 0);
    for off in [1, u64::MAX, 1 << 32, 1 << 48, 1 << 63] {
        for slot in 0..6 {
            assert_eq!(number(&|h| h.elems[slot * FRAME + SIZE] = h.elems[slot * FRAME + SIZE].wrapping_add(off)), 2);
        }
        for c in 0..3 {
            assert_eq!(number(&|h| h.shared[c * HEADER + TOTAL] = h.shared[c * HEADER + TOTAL].wrapping_add(off)), 2);
        }
    }
    // both changed: the largest size is sound, one more is not, whatever the total
    for (size, said) in [(0, 0), (MOST_BYTES, 0), (MOST_BYTES + 1, 2), (1 << 63, 2), (u64::MAX, 2), (u64::MAX - 3, 2)] {
        let total = size.wrapping_add(4);
        assert_eq!(number(&|h| (h.elems[SIZE], h.shared[TOTAL]) = (size, total)), said, "{size}");
    }
    // two sizes that make up for each other, in one ring and in two
    assert_eq!(number(&|h| (h.elems[SIZE], h.elems[2 * FRAME + SIZE]) = (2, 3)), 0);
    assert_eq!(number(&|h| (h.elems[SIZE], h.elems[3 * FRAME + SIZE]) = (2, 7)), 2);
    assert_eq!(number(&|h| (h.elems[SIZE], h.elems[2 * FRAME + SIZE]) = (u64::MAX, 6)), 2);
    assert_eq!(number(&|h| (h.shared[TOTAL], h.shared[HEADER + TOTAL]) = (24, 5)), 2);
}

/// One ring of 65,535 frames of the largest size, and a run of one: the last frame comes in by an insert, or by a union from
/// either side. What is given and taken there is right to the byte.
#[test]
fn the_most_bytes_that_there_can_be() {
    let (most, all) = (65_536u64, 281_474_976_645_120);
    assert!(all == most * MOST_BYTES && all < 281_474_976_710_656);
    let mut host = Host::fresh(most, 2);
    host.head = head([most, most - 1, 0, most - 1, 2, 1, 0, 1, 1]);
    for (row, slot) in host.elems.chunks_mut(FRAME).zip(1..most) {
        let (previous, next) = (if slot == 1 { most - 1 } else { slot - 1 }, slot % (most - 1) + 1);
        row.copy_from_slice(&[1, slot, 1, previous, next, MOST_BYTES]);
    }
    host.shared[..HEADER].copy_from_slice(&[most - 1, 7, 0, 0, (most - 1) * MOST_BYTES]);
    let call = |host: &mut Host, call, lent: usize| {
        let said = host.call_with(check::sound, call, &vec![0; lent]);
        assert_eq!(said.number, 0, "{call:?}");
        said.out[0]
    };
    let mut inserted = host.clone();
    call(&mut inserted, Call::Insert(key(9, 1), 5, u32::MAX), 0);
    assert_eq!(call(&mut inserted, Call::GetTotal(key(most, 1)), 0), all);
    for flipped in [false, true] {
        let mut joined = host.clone();
        call(&mut joined, new_run(5, 8, u32::MAX), 0);
        assert_eq!(totals(&joined), [all - MOST_BYTES, MOST_BYTES]);
        let (j, k) = if flipped { (key(most, 1), key(9, 1)) } else { (key(9, 1), key(most, 1)) };
        call(&mut joined, Call::Union(j, k), 0);
        assert_eq!(joined.shared[..HEADER], [most, 7, 0, 0, all]);
    }
    for (compress, lent) in [
        (Call::CompressCanonical { reset: 1 }, most as usize * FRAME),
        (Call::CompressWith { reset: 1 }, most as usize * PAIR),
    ] {
        let mut moved = inserted.clone();
        call(&mut moved, compress, lent);
        assert_eq!(moved.shared[..HEADER], [most, 7, 0, 0, all]);
        assert!(sizes(&moved).iter().all(|&size| size == MOST_BYTES));
    }
    call(&mut inserted, Call::RemoveElement(key(40_000, 1)), 0);
    assert_eq!(call(&mut inserted, Call::GetTotal(key(1, 1)), 0), all - MOST_BYTES);
    call(&mut inserted, Call::Drain(key(1, 1)), most as usize * RECORD);
    assert_eq!((inserted.shared[..2 * HEADER].to_vec(), inserted.head[3]), (vec![0; 2 * HEADER], 0));
}

/// What the accepted calls say of each frame: its payload, which no other has, with its size and its run; and the same before the last
/// union, for an undo.
#[derive(Default)]
struct History {
    frames: BTreeMap<u64, (u64, u64)>,
    before: BTreeMap<u64, (u64, u64)>,
}

impl History {
    /// The frame that the key names, by the payload that `get` answers.
    fn payload(&self, host: &Host, k: Key) -> u64 {
        said(host, Call::Get(k))
    }

    fn run(&self, host: &Host, k: Key) -> u64 {
        self.frames[&self.payload(host, k)].1
    }

    fn total(&self, run: u64) -> u64 {
        self.frames.values().filter(|frame| frame.1 == run).map(|frame| frame.0).sum()
    }

    /// Notes an accepted call; what it needs of the state is read before it is made.
    fn note(&mut self, before: &Host, call: Call) {
        match call {
            Call::InsertSurject { payload, size, .. } => drop(self.frames.insert(payload, (size.into(), payload))),
            Call::Insert(k, payload, size) | Call::InsertInPlace(k, payload, size) => {
                let run = self.run(before, k);
                self.frames.insert(payload, (size.into(), run));
            }
            Call::Union(j, k) => {
                let (kept, gone) = (self.run(before, j), self.run(before, k));
                self.before = self.frames.clone();
                self.frames.values_mut().filter(|frame| frame.1 == gone).for_each(|frame| frame.1 = kept);
            }
            Call::RemoveElement(k) | Call::RemoveInPlace(k) => drop(self.frames.remove(&self.payload(before, k))),
            Call::RemoveShared(k) | Call::Drain(k) => {
                let run = self.run(before, k);
                self.frames.retain(|_, frame| frame.1 != run);
            }
            Call::Undo => self.frames = self.before.clone(),
            Call::DrainAll | Call::Clear => self.frames.clear(),
            _ => (),
        }
    }
}

/// Any call at any frame; the payload of one that is put in is new.
fn any(host: &Host, payload: u64, r: &mut Random) -> Call {
    let keys = host.keys();
    let (j, k) = if keys.is_empty() { (key(0, 0), key(0, 0)) } else { (r.of(&keys), r.of(&keys)) };
    let size = r.size();
    if host.head[9] != 0 && r.one_in(3) {
        return Call::Undo;
    }
    match r.below(24) {
        0..=4 => new_run(payload, r.below(9), size),
        5..=9 => Call::Insert(k, payload, size),
        10 => Call::InsertInPlace(k, payload, size),
        11..=13 => Call::Union(j, k),
        14..=16 => Call::RemoveElement(k),
        17 => Call::RemoveInPlace(k),
        18 => r.of(&[Call::RemoveShared(k), Call::Drain(k)]),
        19 => Call::CompressCanonical { reset: r.below(2) },
        20 => Call::CompressWith { reset: r.below(2) },
        21 => Call::SetShared(k, r.below(9)),
        22 if r.one_in(9) => r.of(&[Call::DrainAll, Call::Clear]),
        _ => r.of(&[Call::Seal(k), Call::GetTotal(k)]),
    }
}

/// Reckoned from the arguments of accepted calls: after each call every frame's size is the one that it was given, and every
/// run's total the sum of those of its frames. There are two studies, and copies and moves from the one to the other: for the target
/// the history starts anew, the frames that came put in; for the source of a move it is that of a clear.
#[test]
fn totals_are_those_of_the_history() {
    let mut r = Random::new(6);
    let (mut largest, mut accepted, mut undone, mut copied, mut moved) = (0, 0, 0, 0, 0);
    for _ in 0..400 {
        let most = 1 + r.below(14);
        let mut host = Host::fresh(most, 1 + r.below(most));
        let mut other = (Host::fresh(1 + r.below(14), most), History::default());
        let mut history = History::default();
        for payload in 0..60 {
            if r.one_in(8) && other.0.copy_from(&host) == 0 {
                other.1 = History { frames: history.frames.clone(), ..History::default() };
                copied += 1;
            }
            if r.one_in(40) && other.0.transfer_from(1 + r.below(3) as u32, &mut host).is_ok() {
                other.1 = History { frames: std::mem::take(&mut history).frames, ..History::default() };
                moved += 1;
            }
            if r.one_in(6) {
                std::mem::swap(&mut host, &mut other.0);
                std::mem::swap(&mut history, &mut other.1);
            }
            let (call, before) = (any(&host, payload, &mut r), host.clone());
            if host.call(call, &vec![0; host.elems.len().max(14 * RECORD)]).number == 0 {
                history.note(&before, call);
                accepted += 1;
                undone += u32::from(call == Call::Undo);
            }
            assert_eq!(host.keys().len(), history.frames.len());
            for k in host.keys() {
                let (size, run) = history.frames[&history.payload(&host, k)];
                assert_eq!(said(&host, Call::GetSize(k)), size, "after {call:?}");
                assert_eq!(said(&host, Call::GetTotal(k)), history.total(run), "after {call:?}");
                largest = largest.max(history.total(run));
            }
        }
    }
    assert!(largest > 2 * MOST_BYTES && accepted > 10_000, "{largest} {accepted}");
    assert!(undone > 100 && copied > 1_000 && moved > 200, "{undone} {copied} {moved}");
}

/// The total is the sum along next from every frame, read from the tables.
#[test]
fn totals_are_the_sums_around_rings() {
    let mut r = Random::new(66);
    for _ in 0..300 {
        let most = 1 + r.below(14);
        let mut host = Host::fresh(most, 1 + r.below(most));
        for payload in 0..40 {
            let call = any(&host, payload, &mut r);
            host.call(call, &vec![0; host.elems.len().max(14 * RECORD)]);
        }
        for k in host.keys() {
            let row = |slot: u64| &host.elems[(slot as usize - 1) * FRAME..][..FRAME];
            let header = &host.shared[(row(k.slot)[2] as usize - 1) * HEADER..][..HEADER];
            let mut ring = vec![k.slot];
            while row(ring[ring.len() - 1])[NEXT] != k.slot {
                ring.push(row(ring[ring.len() - 1])[NEXT]);
            }
            let bytes: u64 = ring.iter().map(|&slot| row(slot)[SIZE]).sum();
            assert_eq!((header[COUNT], header[TOTAL]), (ring.len() as u64, bytes));
        }
    }
}

/// The same entries, declared with a size of 64 bits: what a host's compiler may leave above a uint32_t, in a register or in its
/// place on the stack, is handed over with it.
#[cfg(target_arch = "x86_64")]
mod wide {
    use model::HEAD;

    #[allow(clashing_extern_declarations)]
    unsafe extern "C" {
        #[link_name = "doorsedge_insert_surject"]
        pub fn insert_surject(
            head: *mut [u64; HEAD],
            elems: *mut u64,
            elems_len: usize,
            shared: *mut u64,
            shared_len: usize,
            payload: u64,
            value: u64,
            size: u64,
            out: *mut [u64; 2],
        ) -> u64;

        #[link_name = "doorsedge_insert"]
        pub fn insert(
            head: *mut [u64; HEAD],
            elems: *mut u64,
            elems_len: usize,
            shared: *mut u64,
            shared_len: usize,
            slot: u64,
            generation: u64,
            payload: u64,
            size: u64,
            out: *mut [u64; 2],
        ) -> u64;

        #[link_name = "doorsedge_insert_in_place"]
        pub fn insert_in_place(
            head: *mut [u64; HEAD],
            elems: *mut u64,
            elems_len: usize,
            shared: *mut u64,
            shared_len: usize,
            slot: u64,
            generation: u64,
            payload: u64,
            size: u64,
            out: *mut [u64; 2],
        ) -> u64;
    }
}

/// Only the 32 bits of a size are read: the calling convention says nothing of those above them.
#[cfg(target_arch = "x86_64")]
#[test]
fn what_stands_above_a_size_is_not_read() {
    let above = 0xDEAD_BEEF << 32;
    let mut host = Host::fresh(3, 1);
    let (h, en, sn) = (&raw mut host.head, host.elems.len(), host.shared.len());
    let (e, s, mut out) = (host.elems.as_mut_ptr(), host.shared.as_mut_ptr(), [0; 2]);
    // Safety: pointers and lengths are those of the host's own tables, and the entries take a number of 64 bits for one of 32
    unsafe {
        assert_eq!(wide::insert_surject(h, e, en, s, sn, 10, 100, above + 1, &mut out), 0);
        assert_eq!(wide::insert(h, e, en, s, sn, 1, 1, 11, above + 2, &mut out), 0);
        assert_eq!(wide::insert_in_place(h, e, en, s, sn, 1, 1, 12, above + MOST_BYTES, &mut out), 0);
    }
    assert_eq!((sizes(&host), totals(&host)), (vec![1, 2, MOST_BYTES], vec![3 + MOST_BYTES]));
    assert_eq!(host.call(Call::Check, &[]).number, 0);
}
