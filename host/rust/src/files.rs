//! Run files: a study as bytes, and a study made of bytes. docs/FILE.md has the format.

use crate::answers::Refusal;
use crate::arena::Arena;
use crate::sys::{self, Head};
use crate::tables::{Borrowed, Tables};

/// The version of run files that is written and read.
pub const FILE_VERSION: u32 = 1;
/// Bytes before a run file's contents: version and run count.
pub const FILE_PREFACE: usize = 8;
/// Bytes to a run in the contents: its body's offset from the file's start, and its length.
pub const FILE_ENTRY: usize = 8;
/// Bytes to a body before its frames: shared value, total, frame count.
pub const FILE_BODY: usize = 20;
/// Bytes to a frame: payload and size.
pub const FILE_FRAME: usize = 12;

/// The most slots that a table can have.
const MOST_SLOTS: u64 = 65_536;

/// How many bytes the run file of so many runs and frames has.
pub const fn file_len(runs: usize, frames: usize) -> usize {
    FILE_PREFACE + runs * (FILE_ENTRY + FILE_BODY) + frames * FILE_FRAME
}

impl<T: Tables> Arena<T> {
    /// How many bytes the study's run file has: [file_len] of its runs and frames.
    pub fn file_len(&self) -> usize {
        // what is borrowed may say anything: such a study is refused
        file_len(self.len_shared().min(MOST_SLOTS) as usize, self.len().min(MOST_SLOTS) as usize)
    }

    /// The study as a run file: each run's shared value and total, its frames' payloads and sizes in ring order from its lowest slot;
    /// runs in the order of their lowest slots. Nothing changes, and a union can be [undone](Arena::undo) as before. Seals, keys and
    /// generations are not in the file.
    ///
    /// ```
    /// # fn main() -> Result<(), doorsedge::Refusal> {
    /// use doorsedge::{Arena, Refusal};
    ///
    /// let mut study = Arena::fresh(8, 8)?;
    /// let first = study.insert_surject(10, 100, 4_000)?;
    /// study.insert_surject(20, 200, 600)?;
    /// study.insert(first, 11, 5_000)?;
    /// let file = study.write_file()?;
    /// assert_eq!((file.len(), study.file_len()), (100, 100));
    ///
    /// // another recorder's tables: the frames lie in the file's order, with new keys
    /// let mut review = Arena::fresh(3, 2)?;
    /// review.read_file(&file)?;
    /// let keys = [1, 2, 3].map(|slot| doorsedge::Key::new(slot, 1));
    /// assert_eq!(keys.map(|key| review.get(key)), [Ok(10), Ok(11), Ok(20)]);
    /// assert_eq!((review.get_total(keys[1])?, review.get_shared(keys[2])?), (9_000, 200));
    /// assert_eq!(review.write_file()?, file);
    ///
    /// // a file that was cut is refused, and the arena is as it was
    /// assert_eq!(review.read_file(&file[..99]), Err(Refusal::NoFile));
    /// assert_eq!(review.len(), 3);
    /// assert_eq!(Arena::fresh(2, 2)?.read_file(&file), Err(Refusal::NoElement));
    /// # Ok(())
    /// # }
    /// ```
    pub fn write_file(&self) -> Result<Vec<u8>, Refusal> {
        let mut file = vec![0; self.file_len()];
        self.write_file_into(&mut file)?;
        Ok(file)
    }

    /// The same to the start of a lent buffer; the bytes past the file stay as they were. Answers how many were written. Where the
    /// whole file does not fit, the call is refused [Short](Refusal::Short) and nothing is written.
    pub fn write_file_into(&self, file: &mut [u8]) -> Result<usize, Refusal> {
        let mut out = [0];
        let (head, elems, shared) = (self.head(), self.elems(), self.shared());
        // Safety: pointers and lengths are those of slices, and `out` and the file are borrowed mutably
        Refusal::test(unsafe {
            sys::doorsedge_write_file(
                head,
                elems.as_ptr(),
                elems.len(),
                shared.as_ptr(),
                shared.len(),
                file.as_mut_ptr(),
                file.len(),
                &mut out,
            )
        })?;
        Ok(out[0] as usize)
    }

    /// Makes this arena the study of a run file, whatever it held: frames in slots 1 and up in the file's order, as
    /// [compress_canonical](Arena::compress_canonical) would have them, unsealed, with generation 1 and nothing to
    /// [undo](Arena::undo). This arena keeps its capacities. The keys that it gave before are of another study.
    ///
    /// The file is tested whole first: fewer than eight bytes and anything else that is no run file are refused
    /// [NoFile](Refusal::NoFile), another version [OtherVersion](Refusal::OtherVersion); then come [NoShared](Refusal::NoShared) and
    /// [NoElement](Refusal::NoElement), where it has more runs or frames than this arena has room for.
    pub fn read_file(&mut self, file: &[u8]) -> Result<(), Refusal> {
        let (head, elems, shared) = self.tables.parts();
        // Safety: pointers and lengths are those of slices; head and tables are borrowed mutably, each apart
        Refusal::test(unsafe {
            sys::doorsedge_read_file(
                head,
                elems.as_mut_ptr(),
                elems.len(),
                shared.as_mut_ptr(),
                shared.len(),
                file.as_ptr(),
                file.len(),
            )
        })
    }
}

impl<'a> Arena<Borrowed<'a>> {
    /// The study of a run file in the caller's tables, whatever they held: see [read_file](Arena::read_file). Numbers 0 and 4 of the
    /// head are the capacities; where the call is refused, head and tables are as they were.
    ///
    /// ```
    /// # fn main() -> Result<(), doorsedge::Refusal> {
    /// use doorsedge::{Arena, HEAD, Key, elems_len, shared_len};
    ///
    /// let mut study = Arena::fresh(4, 4)?;
    /// study.insert_surject(10, 100, 0)?;
    /// let (mut head, mut elems, mut shared) = ([77; HEAD], [77; elems_len(2)], [77; shared_len(1)]);
    /// (head[0], head[4]) = (2, 1);
    /// let review = Arena::read_in(&mut head, &mut elems, &mut shared, &study.write_file()?)?;
    /// assert_eq!((review.get(Key::new(1, 1))?, review.capacity()), (10, 2));
    /// # Ok(())
    /// # }
    /// ```
    pub fn read_in(
        head: &'a mut Head,
        elems: &'a mut [u64],
        shared: &'a mut [u64],
        file: &[u8],
    ) -> Result<Self, Refusal> {
        let mut arena = Arena { tables: Borrowed { head, elems, shared } };
        arena.read_file(file)?;
        Ok(arena)
    }
}
