//! Canonical compression's follow of class entries is a recursion in the source. It must be a loop in the archive: its
//! longest way, 65,535 steps, has to run in a small stack. So has the compression in slot order, where every row moves, the
//! largest union with its undo, the largest copy and move, and the largest files, written and read.

use archive::copies::copy_at;
use archive::transfers::transfer_at;
use archive::{Lent, head, run};
use doorsedge::sys::{doorsedge_read_file, doorsedge_write_file};
use model::door::Call;
use model::{FRAME, HEADER, PAIR};

const FRAMES: u64 = 65_536;
const SMALL_STACK: usize = 256 * 1024;

/// Rings of one, every other one sealed, where run k has its header in the shared slot that `header_of` gives, and as many bytes.
fn compressed(header_of: fn(u64) -> u64) {
    let mut numbers = head([FRAMES, FRAMES, 0, FRAMES, FRAMES, FRAMES, 0, FRAMES, 1]);
    let mut elems: Vec<u64> = (1..=FRAMES).flat_map(|k| [1, 10 * k, header_of(k), k, k, header_of(k)]).collect();
    let header = |c: u64| -> [u64; HEADER] { [1, 1_000_000 + c, 0, c % 2, c] };
    let mut shared: Vec<u64> = (1..=FRAMES).flat_map(header).collect();
    let mut scratch = vec![9; elems.len()];
    let said =
        run(&mut numbers, &mut elems, &mut shared, &Call::CompressCanonical { reset: 0 }, &mut scratch, &mut [0; 4]);
    assert_eq!(said, 0);
    assert!((1..=FRAMES).flat_map(|k| [2, 10 * k, k, k, k, header_of(k)]).eq(elems));
    assert!((1..=FRAMES).map(header_of).flat_map(header).eq(shared));
    assert!(scratch.iter().all(|&n| n == 0));
}

/// The first slot of each table free, and rings of one in all others, where frame k's header stands in shared slot
/// `header_of(k)`: every frame and every header moves down by one.
fn moved_down(header_of: fn(u64) -> u64) {
    let live = FRAMES - 1;
    let mut numbers = head([FRAMES, FRAMES, 1, live, FRAMES, FRAMES, 1, live, 1]);
    let mut elems = vec![0; FRAME];
    elems.extend((2..=FRAMES).flat_map(|k| [1, 10 * k, header_of(k), k, k, header_of(k)]));
    let header = |c: u64| -> [u64; HEADER] { [1, 1_000_000 + c, 0, c % 2, c] };
    let mut shared = vec![0; HEADER];
    shared.extend((2..=FRAMES).flat_map(header));
    let mut pairs = vec![9; live as usize * PAIR];
    let mut out = [0; 4];
    let said = run(&mut numbers, &mut elems, &mut shared, &Call::CompressWith { reset: 0 }, &mut pairs, &mut out);
    assert_eq!((said, out), (0, [live, 0, 0, 0]));
    assert_eq!(numbers, head([FRAMES, live, 0, live, FRAMES, live, 0, live, 2]));
    let (last_row, last_header) = ([0; FRAME], [0; HEADER]);
    assert!(
        (2..=FRAMES).flat_map(|k| [2, 10 * k, header_of(k) - 1, k - 1, k - 1, header_of(k)]).chain(last_row).eq(elems)
    );
    assert!((2..=FRAMES).flat_map(header).chain(last_header).eq(shared));
    assert!((2..=FRAMES).flat_map(|k| [k, 1, k - 1, 2]).eq(pairs));
}

/// Two rings of half of the frames each, joined and taken back.
fn joined_and_taken_back() {
    let half = FRAMES / 2;
    let before = head([FRAMES, FRAMES, 0, FRAMES, 2, 2, 0, 2, 1]);
    let ring = |first: u64, class: u64| {
        let slot = move |i: u64| first + i % half;
        (0..half).flat_map(move |i| [1, i, class, slot(i + half - 1), slot(i + 1), 3])
    };
    let elems: Vec<u64> = ring(1, 1).chain(ring(half + 1, 2)).collect();
    let shared = [half, 10, 0, 0, 3 * half, half, 20, 0, 0, 3 * half];
    let (mut numbers, mut e, mut s, mut out) = (before, elems.clone(), shared, [0; 4]);
    let [j, k] = [1, FRAMES].map(|slot| model::Key { slot, generation: 1 });
    assert_eq!(run(&mut numbers, &mut e, &mut s, &Call::Union(j, k), &mut [], &mut out), 0);
    assert_eq!((out, &numbers[9..]), ([20, 1, 1, half], &[1, FRAMES, half, 20][..]));
    assert!(e.chunks(FRAME).all(|row| row[2] == 1));
    assert_eq!(run(&mut numbers, &mut e, &mut s, &Call::Undo, &mut [], &mut out), 0);
    assert!(numbers == before && e == elems && s == shared);
}

#[test]
fn the_largest_union_and_its_undo_in_a_small_stack() {
    in_a_small_stack(joined_and_taken_back);
}

/// Every other slot free, to the last: the longest chains to be made, in tables of other numbers.
fn copied() {
    let half = FRAMES / 2;
    let mut numbers = head([FRAMES, FRAMES, FRAMES - 1, half, FRAMES, FRAMES, FRAMES - 1, half, 7]);
    // odd slots are free, chained highest first in the source and lowest first in the copy
    let lower = |slot: u64| slot.saturating_sub(2);
    let higher = |slot: u64| if slot + 2 < FRAMES { slot + 2 } else { 0 };
    let frame = |slot: u64, next: u64| if slot % 2 == 0 { [7, 1, slot, slot, slot, 3] } else { [0, 0, 0, 0, next, 0] };
    let header = |slot: u64, next: u64| if slot % 2 == 0 { [1, slot, 0, 1, 3] } else { [0, 0, next, 0, 0] };
    let mut elems: Vec<u64> = (1..=FRAMES).flat_map(|slot| frame(slot, lower(slot))).collect();
    let mut shared: Vec<u64> = (1..=FRAMES).flat_map(|slot| header(slot, lower(slot))).collect();
    let (mut copy, mut e, mut s) = ([9; model::HEAD], vec![9; elems.len()], vec![9; shared.len()]);
    (copy[0], copy[4]) = (FRAMES, FRAMES);
    let lent = |head, elems, shared| Lent { head, elems, shared, buffer: &mut [], out: std::ptr::null_mut() };
    let before = (numbers, elems.clone(), shared.clone());
    let to = lent(&mut copy, &mut e[..], &mut s[..]);
    // Safety: all six are apart, and borrowed mutably
    assert_eq!(unsafe { copy_at(to, lent(&mut numbers, &mut elems[..], &mut shared[..])) }, 0);
    assert!((numbers, elems, shared) == before);
    assert_eq!(copy, head([FRAMES, FRAMES, 1, half, FRAMES, FRAMES, 1, half, 7]));
    assert!((1..=FRAMES).flat_map(|slot| frame(slot, higher(slot))).eq(e));
    assert!((1..=FRAMES).flat_map(|slot| header(slot, higher(slot))).eq(s));
}

#[test]
fn the_largest_copy_in_a_small_stack() {
    in_a_small_stack(copied);
}

/// One ring through every slot, against their order, to tables that are full of rings of one.
fn moved() {
    let ring = |slot: u64| [7, slot, 1, slot % FRAMES + 1, (slot + FRAMES - 2) % FRAMES + 1, 3];
    let mut numbers = head([FRAMES, FRAMES, 0, FRAMES, 1, 1, 0, 1, 7]);
    let mut elems: Vec<u64> = (1..=FRAMES).flat_map(ring).collect();
    let mut shared = vec![FRAMES, 9, 0, 0, 3 * FRAMES];
    let mut to = head([FRAMES, FRAMES, 0, FRAMES, FRAMES, FRAMES, 0, FRAMES, 1]);
    let mut e: Vec<u64> = (1..=FRAMES).flat_map(|slot| [1, slot, slot, slot, slot, 2]).collect();
    let mut s: Vec<u64> = (1..=FRAMES).flat_map(|slot| [1, slot, 0, 0, 2]).collect();
    let lent = |head, elems, shared| Lent { head, elems, shared, buffer: &mut [], out: std::ptr::null_mut() };
    let (target, source) = (lent(&mut to, &mut e[..], &mut s[..]), lent(&mut numbers, &mut elems[..], &mut shared[..]));
    let mut out = [9];
    // Safety: all seven are apart, and borrowed mutably
    assert_eq!((unsafe { transfer_at(target, 5, source, out.as_mut_ptr()) }, out), (0, [0]));
    assert_eq!(to, head([FRAMES, FRAMES, 0, FRAMES, FRAMES, 1, 0, 1, 5]));
    let payload = |slot: u64| (FRAMES + 1 - slot) % FRAMES + 1;
    let row = |slot: u64| [5, payload(slot), 1, (slot + FRAMES - 2) % FRAMES + 1, slot % FRAMES + 1, 3];
    assert!((1..=FRAMES).flat_map(row).eq(e));
    assert!(s[..HEADER] == [FRAMES, 9, 0, 0, 3 * FRAMES] && s[HEADER..].iter().all(|number| *number == 0));
    assert_eq!(numbers, head([FRAMES, 0, 0, 0, 1, 0, 0, 0, 8]));
    assert!(elems.iter().chain(&shared).all(|number| *number == 0));
}

#[test]
fn the_largest_move_in_a_small_stack() {
    in_a_small_stack(moved);
}

/// Rings of one, the headers the other way round, and one ring of all.
fn written_and_read() {
    let alone = head([FRAMES, FRAMES, 0, FRAMES, FRAMES, FRAMES, 0, FRAMES, 7]);
    let one_ring = head([FRAMES, FRAMES, 0, FRAMES, FRAMES, 1, 0, 1, 7]);
    let last = |slot: u64| if slot == 1 { FRAMES } else { slot - 1 };
    let next = |slot: u64| slot % FRAMES + 1;
    let mut rows: Vec<u64> = (1..=FRAMES).flat_map(|slot| [7, slot, FRAMES + 1 - slot, slot, slot, 3]).collect();
    let mut headers: Vec<u64> = (1..=FRAMES).flat_map(|slot| [1, slot, 0, 1, 3]).collect();
    for (mut numbers, length) in [(alone, 8 + 40 * FRAMES), (one_ring, 8 + 28 + 12 * FRAMES)] {
        if numbers == one_ring {
            rows = (1..=FRAMES).flat_map(|slot| [7, slot, 1, last(slot), next(slot), 3]).collect();
            headers.fill(0);
            headers[..HEADER].copy_from_slice(&[FRAMES, 9, 0, 0, 3 * FRAMES]);
        }
        let (mut file, mut out, e, s) = (vec![0u8; length as usize], [0], rows.len(), headers.len());
        // Safety: pointers and lengths are those of vectors, each apart
        unsafe {
            let (head, rows, headers) = (&mut numbers, rows.as_mut_ptr(), headers.as_mut_ptr());
            assert_eq!(doorsedge_write_file(head, rows, e, headers, s, file.as_mut_ptr(), file.len(), &mut out), 0);
            assert_eq!(out, [length]);
            assert_eq!(doorsedge_read_file(head, rows, e, headers, s, file.as_ptr(), file.len()), 0);
        }
        let mut again = vec![0u8; file.len()];
        assert_eq!(numbers[..9], head([FRAMES, FRAMES, 0, FRAMES, FRAMES, numbers[5], 0, numbers[5], 1])[..9]);
        let said = model::file::write(model::check::sound, &numbers, &rows, &headers, &mut again);
        assert!(said == Ok(length) && again == file);
    }
}

#[test]
fn the_largest_files_in_a_small_stack() {
    in_a_small_stack(written_and_read);
}

fn in_a_small_stack(test: impl FnOnce() + Send + 'static) {
    std::thread::Builder::new().stack_size(SMALL_STACK).spawn(test).unwrap().join().unwrap();
}

/// Each header one slot on: the last run's has been displaced by every swap before it.
#[test]
fn longest_follow_in_a_small_stack() {
    for header_of in [|k| k % FRAMES + 1, |k| (k + FRAMES - 2) % FRAMES + 1] as [fn(u64) -> u64; 2] {
        in_a_small_stack(move || compressed(header_of));
    }
}

/// Headers in the order of the frames, and the other way round.
#[test]
fn every_row_moves_in_a_small_stack() {
    for header_of in [|k| k, |k| FRAMES + 2 - k] as [fn(u64) -> u64; 2] {
        in_a_small_stack(move || moved_down(header_of));
    }
}
