//! A study copied to other tables: document 02, ticket 10. Every live slot goes to its own place.

use crate::{door::Sound, layout::*, rows::Rows};

/// A head and two tables, lent to be read.
#[derive(Clone, Copy)]
pub struct Source<'a> {
    pub head: &'a [u64; HEAD],
    pub elems: &'a [u64],
    pub shared: &'a [u64],
}

/// The host's call: 1 for the source, 1 for the target, 2 for the source, then 5 and 6. Of the target's numbers only the capacities
/// are read. Answers 0, or the refusal's number and nothing changed.
pub fn run(sound: Sound, head: &mut [u64; HEAD], elems: &mut [u64], shared: &mut [u64], from: Source) -> u64 {
    let mut next = Head::of(head);
    let of = Head::of(from.head);
    if !is_shaped(&of, from.elems, from.shared) || !is_shaped(&next, elems, shared) {
        return Refusal::Shape.number();
    }
    if !sound(&of, from.elems, from.shared) {
        return Refusal::Unsound.number();
    }
    match (Rows { head: &mut next, elems, shared }).clone_from(from) {
        Ok(()) => {
            *head = next.numbers();
            0
        }
        Err(refusal) => refusal.number(),
    }
}

pub(crate) fn is_shaped(head: &Head, elems: &[u64], shared: &[u64]) -> bool {
    fits(head.elems.capacity, FRAME, elems.len()) && fits(head.shared.capacity, HEADER, shared.len())
}

impl Rows<'_> {
    /// The call on tables that fit, from a sound source.
    pub fn clone_from(&mut self, from: Source) -> Result<(), Refusal> {
        let source = Head::of(from.head);
        let (frames, headers) = (last_live(from.elems, FRAME), last_live(from.shared, HEADER));
        if frames as u64 > self.head.elems.capacity {
            return Err(Refusal::NoElement);
        }
        if headers as u64 > self.head.shared.capacity {
            return Err(Refusal::NoShared);
        }
        self.head.elems.live = source.elems.live;
        self.head.shared.live = source.shared.live;
        copy_table(&mut self.head.elems, self.elems, &from.elems[..frames * FRAME], FRAME, NEXT);
        copy_table(&mut self.head.shared, self.shared, &from.shared[..headers * HEADER], HEADER, NEXT_FREE);
        self.head.generation = source.generation;
        self.head.undo = Memory::default();
        Ok(())
    }
}

/// The last live slot, 0 where none is: generation and count stand first.
fn last_live(table: &[u64], width: usize) -> usize {
    table.chunks_exact(width).rposition(|row| row[0] != 0).map_or(0, |at| at + 1)
}

/// The slots up to the last live one: live ones as they are, free ones chained in their order; zeros past them.
fn copy_table(pool: &mut Pool, table: &mut [u64], from: &[u64], width: usize, link: usize) {
    let (used, past) = table.split_at_mut(from.len());
    past.fill(0);
    used.copy_from_slice(from);
    let is_free = |slot: &u64| from[(*slot as usize - 1) * width] == 0;
    pool.extent = (from.len() / width) as u64;
    let mut free = (1..=pool.extent).filter(is_free).peekable();
    pool.root = free.peek().copied().unwrap_or(0);
    while let Some(slot) = free.next() {
        used[(slot as usize - 1) * width + link] = free.peek().copied().unwrap_or(0);
    }
}
