//! A study moved to other tables: the archive's call compared with the model's and with a reading of its own, both studies and `out` in
//! one piece of memory with canaries around each.

use crate::fences::{Fenced, two_studies};
use crate::{Host, Lent, UNTOUCHED, head};
use doorsedge::sys::{ABSENT, doorsedge_transfer_canonical};
use model::door::Sound;
use model::layout::{CLASS, LAST_GENERATION, MARK, NEXT, PAYLOAD, SIZE, TOTAL, VALUE};
use model::{FRAME, HEADER, Study, sets, transfer};
use std::collections::{BTreeMap, BTreeSet};

/// Makes the move on the archive, over what lies anywhere. Of the two, buffer and `out` are not asked for.
///
/// # Safety
///
/// What is lent can be read and written, `out` too, and nothing of it overlaps.
pub unsafe fn transfer_at(target: Lent, generation: u32, source: Lent, out: *mut u64) -> u64 {
    let (e, s, fe, fs) = (target.elems, target.shared, source.elems, source.shared);
    let (es, ss, fes, fss) = (e.len(), s.len(), fe.len(), fs.len());
    let (to, from) = (target.head, source.head);
    // Safety: as asked above
    unsafe {
        let (e, s, fe, fs) = (e.cast(), s.cast(), fe.cast(), fs.cast());
        doorsedge_transfer_canonical(to, e, es, s, ss, generation, from, fe, fes, fs, fss, out.cast())
    }
}

/// The model's result, and what it leaves of target, source and `out`.
pub fn modelled(sound: Sound, [target, source]: [&Host; 2], generation: u32) -> (u64, [Host; 2], [u64; 1]) {
    let (mut to, mut from, mut out) = (target.clone(), source.clone(), [UNTOUCHED]);
    let number = transfer::run(
        sound,
        Study { head: &mut to.head, elems: &mut to.elems, shared: &mut to.shared },
        generation,
        Study { head: &mut from.head, elems: &mut from.elems, shared: &mut from.shared },
        &mut out,
    );
    (number, [to, from], out)
}

/// Document 02's ticket 12 read once more, from the tables of two sound states that have the room: what target and source are after the
/// move, and whether the source's generation overflowed. Runs are sets of slots here, and the model's code has no part in it.
pub fn reading([target, source]: [&Host; 2], generation: u32) -> ([Host; 2], u64) {
    let row = |slot: u64| &source.elems[(slot as usize - 1) * FRAME..][..FRAME];
    let mut of_class = BTreeMap::<u64, BTreeSet<u64>>::new();
    for key in source.keys() {
        of_class.entry(row(key.slot)[CLASS]).or_default().insert(key.slot);
    }
    let mut runs: Vec<(u64, BTreeSet<u64>)> = of_class.into_iter().collect();
    runs.sort_by_key(|(_, slots)| *slots.first().unwrap());
    let mut to = Host::fresh(target.head[0], target.head[4]);
    let mut new = 0;
    for (place, (class, slots)) in runs.iter().enumerate() {
        let (first, count) = (new, slots.len() as u64);
        let mut slot = *slots.first().unwrap();
        for at in 0..count {
            let (before, after) = ((at + count - 1) % count, (at + 1) % count);
            let numbers = [
                generation.into(),
                row(slot)[PAYLOAD],
                place as u64 + 1,
                first + before + 1,
                first + after + 1,
                row(slot)[SIZE],
            ];
            to.elems[new as usize * FRAME..][..FRAME].copy_from_slice(&numbers);
            (slot, new) = (row(slot)[NEXT], new + 1);
        }
        let header = &source.shared[(*class as usize - 1) * HEADER..][..HEADER];
        let bytes = slots.iter().map(|slot| row(*slot)[SIZE]).sum();
        assert_eq!(header[TOTAL], bytes, "the source is sound");
        to.shared[place * HEADER..][..HEADER].copy_from_slice(&[count, header[VALUE], 0, header[MARK], bytes]);
    }
    let (e, s, live) = (target.head[0], target.head[4], runs.len() as u64);
    to.head = head([e, new, 0, new, s, live, 0, live, generation.into()]);
    if new == 0 {
        return ([to, source.clone()], 0);
    }
    let mut from = Host::fresh(source.head[0], source.head[4]);
    let overflow = source.head[8] == LAST_GENERATION;
    from.head[8] = if overflow { 1 } else { source.head[8] + 1 };
    ([to, from], overflow.into())
}

impl Host {
    /// Moves the source's study here on the archive, and panics if the result, any number of either, of `out` or a canary differs from
    /// the model's or the reading's, or if a refusal changed one. Answers the result, and where it was accepted the source's overflow.
    pub fn transfer_from(&mut self, generation: u32, source: &mut Host) -> Result<bool, u64> {
        self.transfer_from_with(sets::sound, generation, source)
    }

    /// The same with another soundness test for the model.
    pub fn transfer_from_with(&mut self, sound: Sound, generation: u32, source: &mut Host) -> Result<bool, u64> {
        let mut lent = Fenced::of(two_studies(self, source, &[UNTOUCHED]));
        // Safety: the parts lie apart from each other, in numbers that are borrowed mutably
        let result = unsafe { transfer_at(lent.lent(0), generation, lent.lent(3), lent.at(6)) };
        let (number, [to, from], out) = modelled(sound, [self, source], generation);
        let is_same = lent == Fenced::of(two_studies(&to, &from, &out)) && result == number;
        let is_kept = number == 0 || (&to, &from, out) == (&*self, &*source, [UNTOUCHED]);
        if result != ABSENT && !(is_same && is_kept) {
            panic!(
                "a move with {generation} differs\nsource {source:?}\ntarget {self:?}\narchive {result} {lent:?}\nmodel {number} {out:?} {from:?}\n{to:?}"
            );
        }
        if number != 0 {
            return Err(number);
        }
        let ([to_read, from_read], overflow) = reading([self, source], generation);
        assert!(to == to_read && from == from_read && out == [overflow], "a move read otherwise: {source:?}\n{self:?}");
        (*self, *source) = (to, from);
        Ok(overflow == 1)
    }
}
