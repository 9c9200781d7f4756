//! Document 02, ticket 9: the ceiling on union work.

use crate::Refusal;
use crate::layout::MOST_SLOTS;

/// `n` times the place of its highest one bit, which is how often `n` can be halved before it is 1.
pub fn union_ceiling(n: u64) -> Result<u64, Refusal> {
    if !(1..=MOST_SLOTS).contains(&n) {
        return Err(Refusal::OutOfRange);
    }
    let (mut left, mut place) = (n, 0);
    while left > 1 {
        left /= 2;
        place += 1;
    }
    Ok(n * place)
}
