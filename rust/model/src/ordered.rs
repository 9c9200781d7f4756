//! Compression in slot order: document 02, ticket 3.

use crate::{layout::*, rows::Rows};

impl Rows<'_> {
    /// Frames and headers move down, each in the order of their slots, and a pair of keys is written for each frame. Answers
    /// how many, and whether the generation overflowed.
    pub fn compress_with(&mut self, reset: bool, pairs: &mut [u64]) -> Result<(u64, bool), Refusal> {
        let live = self.head.elems.live;
        if pairs.len() < live as usize * PAIR {
            return Err(Refusal::Short);
        }
        let overflow = self.head.next_generation(reset);
        let slots = places(&self.elems[..self.head.elems.extent as usize * FRAME], FRAME);
        let classes = places(&self.shared[..self.head.shared.extent as usize * HEADER], HEADER);
        self.move_frames(&slots, &classes, pairs);
        self.move_headers(&classes);
        self.head.pack();
        Ok((live, overflow))
    }

    fn move_frames(&mut self, slots: &[u64], classes: &[u64], pairs: &mut [u64]) {
        let generation = self.head.generation;
        let of = |places: &[u64], slot: u64| places[slot as usize - 1];
        let mut pairs = pairs.chunks_exact_mut(PAIR);
        for (at, new) in live(slots) {
            let row = &self.elems[at * FRAME..][..FRAME];
            let (class, previous, next) = (of(classes, row[CLASS]), of(slots, row[PREVIOUS]), of(slots, row[NEXT]));
            let moved = [generation, row[PAYLOAD], class, previous, next, row[SIZE]];
            pairs.next().unwrap().copy_from_slice(&[at as u64 + 1, row[GENERATION], new, generation]);
            self.elems[(new as usize - 1) * FRAME..][..FRAME].copy_from_slice(&moved);
        }
        self.elems[self.head.elems.live as usize * FRAME..slots.len() * FRAME].fill(0);
    }

    fn move_headers(&mut self, classes: &[u64]) {
        for (at, new) in live(classes) {
            self.shared.copy_within(at * HEADER..(at + 1) * HEADER, (new as usize - 1) * HEADER);
        }
        self.shared[self.head.shared.live as usize * HEADER..classes.len() * HEADER].fill(0);
    }
}

/// For each slot its place among the live ones, and 0 for a free one.
fn places(table: &[u64], width: usize) -> Vec<u64> {
    let mut count = 0;
    let place = |row: &[u64]| {
        // generation and count stand first
        let is_live = row[0] != 0;
        count += is_live as u64;
        count * is_live as u64
    };
    table.chunks_exact(width).map(place).collect()
}

/// The live slots, counted from 0, with their places.
fn live(places: &[u64]) -> impl Iterator<Item = (usize, u64)> {
    places.iter().copied().enumerate().filter(|(_, place)| *place != 0)
}
