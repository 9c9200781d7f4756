//! A call on two arenas: a study copied to another's tables.

use crate::answers::Refusal;
use crate::arena::Arena;
use crate::sys::{self, Head};
use crate::tables::{Borrowed, Tables};

impl<T: Tables> Arena<T> {
    /// Makes this arena a copy of another's study, whatever it held: the Rust's `clone_from_with`, with plain copying. Every frame
    /// keeps its slot, so the keys that are live in the source are those that are live here, with the same rings, values, sizes,
    /// marks and generation. This arena keeps its capacities, and is refused [NoElement](Refusal::NoElement), then
    /// [NoShared](Refusal::NoShared), where the source's last live slot is past them. There is nothing to [undo](Arena::undo) here
    /// then, while the source stays as it is. The keys that this arena gave before are of another study.
    ///
    /// `clone` makes another thing, an arena that is equal in every number; and so does the `clone_from` of [Clone], which has to be
    /// called by that name: `Clone::clone_from(&mut arena, &source)`.
    ///
    /// ```
    /// # fn main() -> Result<(), doorsedge::Refusal> {
    /// use doorsedge::{Arena, Refusal};
    ///
    /// let (mut study, mut review) = (Arena::fresh(8, 8)?, Arena::fresh(3, 2)?);
    /// let (gone, first) = (study.insert_surject(10, 100, 0)?, study.insert_surject(20, 200, 4_000)?);
    /// let second = study.insert_surject(30, 300, 500)?;
    /// assert_eq!(review.clone_from(&study), Err(Refusal::NoShared)); // three headers
    /// study.union(first, second)?;
    /// study.remove_element(gone)?;
    /// review.clone_from(&study)?;
    /// assert_eq!((review.list(second)?, review.get_total(first)?), (vec![second, first], 4_500));
    /// assert!(!review.contains(gone));
    ///
    /// // each goes on by itself
    /// review.remove_shared(first)?;
    /// assert_eq!((review.len(), study.len(), study.get(first)?), (0, 2, 20));
    /// # Ok(())
    /// # }
    /// ```
    pub fn clone_from<U: Tables>(&mut self, source: &Arena<U>) -> Result<(), Refusal> {
        let (from, from_elems, from_shared) = (source.head(), source.elems(), source.shared());
        let (head, elems, shared) = self.tables.parts();
        // Safety: pointers and lengths are those of slices; this arena is borrowed mutably, so the source is apart from it
        Refusal::test(unsafe {
            sys::doorsedge_clone_from(
                head,
                elems.as_mut_ptr(),
                elems.len(),
                shared.as_mut_ptr(),
                shared.len(),
                from,
                from_elems.as_ptr(),
                from_elems.len(),
                from_shared.as_ptr(),
                from_shared.len(),
            )
        })
    }
}

impl<'a> Arena<Borrowed<'a>> {
    /// A copy of another arena's study in the caller's tables, whatever they held: see [clone_from](Arena::clone_from). Numbers 0
    /// and 4 of the head are the capacities; where the call is refused, head and tables are as they were.
    ///
    /// ```
    /// # fn main() -> Result<(), doorsedge::Refusal> {
    /// use doorsedge::{Arena, HEAD, elems_len, shared_len};
    ///
    /// let mut study = Arena::fresh(4, 4)?;
    /// let key = study.insert_surject(10, 100, 0)?;
    /// let (mut head, mut elems, mut shared) = ([77; HEAD], [77; elems_len(2)], [77; shared_len(1)]);
    /// (head[0], head[4]) = (2, 1);
    /// let review = Arena::cloned_in(&mut head, &mut elems, &mut shared, &study)?;
    /// assert_eq!((review.get(key)?, review.capacity()), (10, 2));
    /// # Ok(())
    /// # }
    /// ```
    pub fn cloned_in<U: Tables>(
        head: &'a mut Head,
        elems: &'a mut [u64],
        shared: &'a mut [u64],
        source: &Arena<U>,
    ) -> Result<Self, Refusal> {
        let mut arena = Arena { tables: Borrowed { head, elems, shared } };
        arena.clone_from(source)?;
        Ok(arena)
    }
}
