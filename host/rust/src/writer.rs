//! The writer's two calls, with the head lent in place.

use crate::answers::{Key, Refusal, Removed};
use crate::sys::{self, LentHead};

/// A writer over a head and tables that are the caller's own. Nothing is tested when it is made: each call tests.
///
/// ```
/// use doorsedge::sys::LentHead;
/// use doorsedge::{Arena, HEAD, Refusal, Writer, elems_len, shared_len};
///
/// # fn main() -> Result<(), Refusal> {
/// let (mut numbers, mut elems, mut shared) = ([0; HEAD], [0; elems_len(2)], [0; shared_len(1)]);
/// let first = Arena::fresh_in(2, 1, &mut numbers, &mut elems, &mut shared)?.insert_surject(7, 70, 900)?;
///
/// let mut head = LentHead::from(numbers);
/// let mut writer = Writer { head: &mut head, elems: &mut elems, shared: &mut shared };
/// let key = writer.insert(first, 8, 1_000)?;
/// assert_eq!(writer.insert(key, 9, 0), Err(Refusal::NoElement));
/// assert_eq!(writer.remove(key)?.payload, 8);
/// assert_eq!((head.elems.live, head.generation), (1, 2));
/// # Ok(())
/// # }
/// ```
#[derive(PartialEq, Eq, Debug)]
pub struct Writer<'a> {
    pub head: &'a mut LentHead,
    pub elems: &'a mut [u64],
    pub shared: &'a mut [u64],
}

/// Calls an entry: head and tables as pointers and lengths, then its own arguments.
macro_rules! lend {
    ($self:ident, $entry:ident $(, $arg:expr)*) => {{
        let (elems, shared) = (&mut *$self.elems, &mut *$self.shared);
        // Safety: pointers and lengths are those of slices; head, tables and `out` are borrowed mutably, each apart
        Refusal::test(unsafe { sys::$entry($self.head, elems.as_mut_ptr(), elems.len(), shared.as_mut_ptr(), shared.len() $(, $arg)*) })
    }};
}

impl Writer<'_> {
    /// Puts a frame of `size` bytes into the key's run, immediately after the key's frame. A run that was
    /// [sealed](crate::Arena::seal) takes none: [Sealed](Refusal::Sealed).
    pub fn insert(&mut self, key: Key, payload: u64, size: u32) -> Result<Key, Refusal> {
        let mut out = [0; 2];
        lend!(self, doorsedge_insert_in_place, key.slot(), key.generation(), payload, size, &mut out)?;
        Ok(Key::new(out[0], out[1]))
    }

    /// Removes a frame.
    pub fn remove(&mut self, key: Key) -> Result<Removed, Refusal> {
        let mut out = [0; 4];
        lend!(self, doorsedge_remove_in_place, key.slot(), key.generation(), &mut out)?;
        Ok(Removed { payload: out[0], last: (out[1] == 1).then_some(out[2]), overflow: out[3] == 1 })
    }
}
