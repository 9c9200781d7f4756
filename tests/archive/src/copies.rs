//! A study copied to other tables: the archive's call compared with the model's, head, tables and source in one piece of memory with
//! canaries around each.

use crate::fences::{Fenced, two_studies};
use crate::{Host, Lent};
use doorsedge::sys::{ABSENT, doorsedge_clone_from};
use model::door::Sound;
use model::{Source, copy, sets};

/// Makes the copy on the archive, over what lies anywhere. Of the source, buffer and `out` are not asked for.
///
/// # Safety
///
/// What is lent can be read, the target's head and tables can be written, and nothing overlaps what is written.
pub unsafe fn copy_at(target: Lent, source: Lent) -> u64 {
    let (e, s, fe, fs) = (target.elems, target.shared, source.elems, source.shared);
    // Safety: as asked above
    unsafe {
        let from = (source.head.cast_const(), fe.cast(), fe.len(), fs.cast(), fs.len());
        doorsedge_clone_from(target.head, e.cast(), e.len(), s.cast(), s.len(), from.0, from.1, from.2, from.3, from.4)
    }
}

impl Host {
    /// Copies the source's study here on the archive, and panics if the result, any number of either, or a canary differs from the
    /// model's, or if a refusal changed one. Answers the result.
    pub fn copy_from(&mut self, source: &Host) -> u64 {
        self.copy_from_with(sets::sound, source)
    }

    /// The same with another soundness test for the model.
    pub fn copy_from_with(&mut self, sound: Sound, source: &Host) -> u64 {
        let mut lent = Fenced::of(two_studies(self, source, &[]));
        // Safety: the parts lie apart from each other, in numbers that are borrowed mutably
        let result = unsafe { copy_at(lent.lent(0), lent.lent(3)) };
        let mut wanted = self.clone();
        let from = Source { head: &source.head, elems: &source.elems, shared: &source.shared };
        let number = copy::run(sound, &mut wanted.head, &mut wanted.elems, &mut wanted.shared, from);
        // the source and the canaries are wanted as they were
        let is_same = lent == Fenced::of(two_studies(&wanted, source, &[])) && result == number;
        if result != ABSENT && (!is_same || number != 0 && wanted != *self) {
            panic!(
                "a copy differs\nsource {source:?}\ntarget {self:?}\narchive {result} {lent:?}\nmodel {number} {wanted:?}"
            );
        }
        *self = wanted;
        number
    }
}
