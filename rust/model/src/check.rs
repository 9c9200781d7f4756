//! The soundness check in plain Rust, linear in the extents plus capacity.
//!
//! Slots ascending: a live one whose class is not yet marked begins a ring, which is walked once. Where previous undoes
//! next, a walk that closes meets no frame twice. The free chains have as many slots as the extents leave after the live
//! numbers, so where as many frames and rings were met as those numbers say, every slot was met (ticket 4 of document 02).
//! Where the head remembers a union, so many steps along next must lead from the kept key to the other (ticket 7).

use crate::layout::*;

/// Whether a state of fitting shape is sound.
pub fn sound(head: &Head, elems: &[u64], shared: &[u64]) -> bool {
    in_range(head.generation)
        && head.elems.extent <= head.elems.capacity
        && head.shared.extent <= head.shared.capacity
        && headers_ok(head, shared)
        && zeros(&elems[head.elems.extent as usize * FRAME..])
        && chain_ok(&head.shared, shared, HEADER, NEXT_FREE)
        && chain_ok(&head.elems, elems, FRAME, NEXT)
        && rings_ok(head, elems, shared)
        && (head.undo == Memory::default() || is_traced(head, elems, shared))
}

fn in_range(generation: u64) -> bool {
    (1..=LAST_GENERATION).contains(&generation)
}

/// Several numbers at once, where a test of each would not be.
fn zeros(table: &[u64]) -> bool {
    table.iter().fold(0, |or, number| or | number) == 0
}

/// The zeros and the marks of the shared slots. What a total must be, its ring's walk tells.
fn headers_ok(head: &Head, shared: &[u64]) -> bool {
    let (used, past) = shared.split_at(head.shared.extent as usize * HEADER);
    for row in used.chunks_exact(HEADER) {
        if row[COUNT] == 0 {
            if row[VALUE] != 0 || row[MARK] != 0 || row[TOTAL] != 0 {
                return false;
            }
        } else if row[NEXT_FREE] != 0 || row[MARK] > 1 {
            return false;
        }
    }
    zeros(past)
}

/// The free chain ends after as many slots as the extent leaves after the live ones. So it meets none twice.
fn chain_ok(pool: &Pool, table: &[u64], width: usize, link: usize) -> bool {
    if pool.live > pool.extent {
        return false;
    }
    let mut slot = pool.root;
    for _ in pool.live..pool.extent {
        if slot == 0 || slot > pool.extent {
            return false;
        }
        let row = &table[(slot as usize - 1) * width..][..width];
        if row[0] != 0 {
            return false;
        }
        slot = row[link];
    }
    slot == 0
}

/// With few shared slots there are few marks to clear first.
fn rings_ok(head: &Head, elems: &[u64], shared: &[u64]) -> bool {
    if head.shared.extent <= 1_024 {
        scan(head, elems, shared, &mut [0; 16])
    } else {
        scan(head, elems, shared, &mut [0; MOST_SLOTS as usize / 64])
    }
}

fn scan(head: &Head, elems: &[u64], shared: &[u64], marked: &mut [u64]) -> bool {
    let (mut met, mut rings) = (0, 0);
    for slot in 1..=head.elems.extent {
        let row = frame(elems, slot);
        if row[GENERATION] == 0 {
            if row[PAYLOAD] != 0 || row[CLASS] != 0 || row[PREVIOUS] != 0 || row[SIZE] != 0 {
                return false;
            }
            continue;
        }
        let class = row[CLASS];
        if class == 0 || class > head.shared.extent {
            return false;
        }
        let (word, bit) = ((class - 1) as usize / 64, (class - 1) % 64);
        if marked[word] >> bit & 1 == 1 {
            continue;
        }
        marked[word] |= 1 << bit;
        let header = &shared[(class as usize - 1) * HEADER..][..HEADER];
        if ring_bytes(elems, head.elems.extent, slot, class, header[COUNT]) != Some(header[TOTAL]) {
            return false;
        }
        met += header[COUNT];
        rings += 1;
    }
    met == head.elems.live && rings == head.shared.live
}

fn frame(elems: &[u64], slot: u64) -> &[u64; FRAME] {
    elems[(slot as usize - 1) * FRAME..][..FRAME].try_into().unwrap()
}

/// The sizes around the ring, summed, if the start comes back for the first time after exactly `count` frames, all of one class,
/// previous undoing next.
fn ring_bytes(elems: &[u64], extent: u64, start: u64, class: u64, count: u64) -> Option<u64> {
    let (mut slot, mut left, mut bytes) = (start, count, 0);
    loop {
        let row = frame(elems, slot);
        if left == 0 || !in_range(row[GENERATION]) || row[CLASS] != class || row[SIZE] > MOST_BYTES {
            return None;
        }
        let next = row[NEXT];
        if next == 0 || next > extent || frame(elems, next)[PREVIOUS] != slot {
            return None;
        }
        left -= 1;
        bytes += row[SIZE];
        if next == start {
            return (left == 0).then_some(bytes);
        }
        slot = next;
    }
}

/// Of a state that is sound but for what the head remembers: a union of runs that were not sealed, the larger one kept, joins the
/// frames that moved after the kept key, the other key last, and frees a shared slot.
fn is_traced(head: &Head, elems: &[u64], shared: &[u64]) -> bool {
    let Memory { kept, gone, moved, .. } = head.undo;
    if kept == 0 || kept > head.elems.extent || frame(elems, kept)[GENERATION] == 0 || head.shared.root == 0 {
        return false;
    }
    let header = &shared[(frame(elems, kept)[CLASS] as usize - 1) * HEADER..][..HEADER];
    let fits = moved != 0 && moved <= header[COUNT] / 2 && header[MARK] == 0;
    fits && (0..moved).fold(kept, |slot, _| frame(elems, slot)[NEXT]) == gone
}
