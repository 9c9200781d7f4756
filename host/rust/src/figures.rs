//! Figures that take no tables.

use crate::Refusal;
use crate::sys::doorsedge_union_ceiling;

/// The most frames that all unions of a study together can move from run to run, where `frames` frames are put in and nothing
/// but that and unions is done, from a [fresh](crate::Arena::fresh) arena on; reads, sets, seals and refused calls may come
/// between. It is the number of frames times the place of its highest one bit, for 1 to 65,536 frames.
///
/// ```
/// # fn main() -> Result<(), doorsedge::Refusal> {
/// use doorsedge::{Arena, Refusal, union_ceiling};
///
/// let mut arena = Arena::fresh(4, 4)?;
/// let keys = [10, 20, 30, 40].map(|n| arena.insert_surject(n, n, 0).unwrap());
/// let pairs = [(0, 1), (2, 3), (0, 2)];
/// let moved: u64 = pairs.iter().map(|&(j, k)| arena.union(keys[j], keys[k]).unwrap().moved).sum();
/// assert_eq!((moved, union_ceiling(4)?), (4, 8));
/// assert_eq!(union_ceiling(65_536)?, 1_048_576);
/// assert_eq!(union_ceiling(0), Err(Refusal::OutOfRange));
/// # Ok(())
/// # }
/// ```
pub fn union_ceiling(frames: u64) -> Result<u64, Refusal> {
    let mut out = [0];
    // Safety: `out` has the one place that the entry writes
    Refusal::test(unsafe { doorsedge_union_ceiling(frames, &mut out) })?;
    Ok(out[0])
}
