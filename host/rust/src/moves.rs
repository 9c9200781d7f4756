//! The other call on two arenas: a study moved to another's tables.

use crate::answers::Refusal;
use crate::arena::Arena;
use crate::sys;
use crate::tables::Tables;

impl<T: Tables> Arena<T> {
    /// Moves another arena's study here: the Rust's `transfer_canonical_reallocating`, without reallocation and with plain moving.
    /// All frames of the source come here in canonical order, with the given generation, and are numbered as
    /// [compress_canonical](Arena::compress_canonical) would number them: runs by their lowest slots, each in ring order from there, to
    /// slots 1 and up. Values, sizes, totals and marks come along, and whatever this arena held is gone. The source is left as
    /// [clear](Arena::clear) leaves it, and the answer says whether its generation overflowed in that; an empty source stays as it
    /// is, and leaves this arena empty, with the given generation. Neither has anything to [undo](Arena::undo) then.
    ///
    /// No key from before is of use afterwards, of either arena. A generation of 0 is refused [OutOfRange](Refusal::OutOfRange); then,
    /// where the source has more frames or more runs than this arena has slots for, the call is refused
    /// [NoElement](Refusal::NoElement), then [NoShared](Refusal::NoShared).
    ///
    /// ```
    /// # fn main() -> Result<(), doorsedge::Refusal> {
    /// use doorsedge::{Arena, Key, Refusal};
    ///
    /// let (mut study, mut next) = (Arena::fresh(8, 8)?, Arena::fresh(3, 2)?);
    /// next.insert_surject(99, 990, 0)?;
    /// let (gone, first) = (study.insert_surject(10, 100, 0)?, study.insert_surject(20, 200, 4_000)?);
    /// let other = study.insert_surject(30, 300, 50)?;
    /// study.insert(first, 21, 500)?;
    /// assert_eq!(next.transfer_canonical(0, &mut study), Err(Refusal::OutOfRange));
    /// assert_eq!(next.transfer_canonical(7, &mut study), Err(Refusal::NoElement)); // four frames
    /// study.remove_element(gone)?;
    /// assert!(!next.transfer_canonical(7, &mut study)?);
    ///
    /// // the run of the lowest slot comes first, and each of its frames after the other
    /// assert_eq!((next.len(), next.len_shared(), next.generation()), (3, 2, 7));
    /// assert_eq!([1, 2, 3].map(|slot| next.get(Key::new(slot, 7)).unwrap()), [20, 21, 30]);
    /// assert_eq!((next.get_shared(Key::new(2, 7))?, next.get_total(Key::new(2, 7))?), (200, 4_500));
    /// assert!(study.is_empty() && !study.contains(other));
    /// # Ok(())
    /// # }
    /// ```
    pub fn transfer_canonical<U: Tables>(&mut self, generation: u32, source: &mut Arena<U>) -> Result<bool, Refusal> {
        let (from, from_elems, from_shared) = source.tables.parts();
        let (head, elems, shared) = self.tables.parts();
        let mut out = [0; 1];
        // Safety: pointers and lengths are those of slices; both arenas are borrowed mutably, so they are apart
        Refusal::test(unsafe {
            sys::doorsedge_transfer_canonical(
                head,
                elems.as_mut_ptr(),
                elems.len(),
                shared.as_mut_ptr(),
                shared.len(),
                generation,
                from,
                from_elems.as_mut_ptr(),
                from_elems.len(),
                from_shared.as_mut_ptr(),
                from_shared.len(),
                &mut out,
            )
        })?;
        Ok(out[0] != 0)
    }
}
