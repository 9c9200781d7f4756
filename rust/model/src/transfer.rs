//! A study moved to other tables: document 02, ticket 12. Its frames go over in canonical order, and its own tables are cleared.

use crate::copy::is_shaped;
use crate::{door::Sound, layout::*, rows::Rows};

/// A head and two tables, lent.
pub struct Study<'a> {
    pub head: &'a mut [u64; HEAD],
    pub elems: &'a mut [u64],
    pub shared: &'a mut [u64],
}

/// The host's call: 1 for the source, 1 for the target, 2 for the source, 2 for the target, 13 for a generation of 0, then 5 and 6.
/// Answers 0, with the source's overflow in `out`, or the refusal's number and nothing changed.
pub fn run(sound: Sound, to: Study, generation: u32, from: Study, out: &mut [u64; 1]) -> u64 {
    let (mut next, mut left) = (Head::of(to.head), Head::of(from.head));
    if !is_shaped(&left, from.elems, from.shared) || !is_shaped(&next, to.elems, to.shared) {
        return Refusal::Shape.number();
    }
    if !sound(&left, from.elems, from.shared) || !sound(&next, to.elems, to.shared) {
        return Refusal::Unsound.number();
    }
    let source = &mut Rows { head: &mut left, elems: from.elems, shared: from.shared };
    let mut target = Rows { head: &mut next, elems: to.elems, shared: to.shared };
    match target.transfer_canonical(generation, source) {
        Ok(overflow) => {
            *to.head = next.numbers();
            if *from.head != left.numbers() {
                *from.head = left.numbers();
            }
            *out = [overflow as u64];
            0
        }
        Err(refusal) => refusal.number(),
    }
}

impl Rows<'_> {
    /// The call on two sound states: all frames of the source come here with this generation, as canonical compression would number
    /// them, and nothing else is left here. The source is cleared, but for an empty one. Answers whether its generation overflowed.
    pub fn transfer_canonical(&mut self, generation: u32, source: &mut Rows) -> Result<bool, Refusal> {
        let (frames, runs) = (source.head.elems.live, source.head.shared.live);
        if generation == 0 {
            return Err(Refusal::OutOfRange);
        }
        if frames > self.head.elems.capacity {
            return Err(Refusal::NoElement);
        }
        if runs > self.head.shared.capacity {
            return Err(Refusal::NoShared);
        }
        let headers = source.gather(generation.into(), self.elems);
        let (used, past) = self.shared.split_at_mut(headers.len());
        used.copy_from_slice(&headers);
        past.fill(0);
        self.head.elems.live = frames;
        self.head.shared.live = runs;
        self.head.pack();
        self.head.generation = generation.into();
        self.head.undo = Memory::default();
        if frames == 0 {
            return Ok(false);
        }
        source.head.undo = Memory::default();
        Ok(source.clear())
    }
}
