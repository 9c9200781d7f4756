//! Why a key is dead, which the oracle does not say: that a key is dead is compared with what the oracle holds, the cause with
//! the slots that were given so far. The archive's tables are not read for it.

use crate::calls::{NEVER, Name};
use crate::pair::Pair;
use doorsedge::{Cause, Refusal};

impl Pair {
    /// Refusal 3 as it must be where one of these frames is dead: the cause is that of the first.
    pub fn dead(&self, names: &[Name]) -> Refusal {
        let first = names.iter().find(|name| !self.is_live(**name)).unwrap_or(&NEVER);
        Refusal::Dead(self.why(*first))
    }

    /// Why a dead frame's key is dead: its slot is none of those given since the tables were last empty or compressed; or the frame
    /// that was last put there is gone too; or it is there.
    fn why(&self, name: Name) -> Cause {
        let slot = self.keys(name).0.slot();
        if slot == 0 || slot > self.extent {
            return Cause::NoSlot;
        }
        if self.is_live(self.last_in(slot)) { Cause::OtherGeneration } else { Cause::FreeSlot }
    }
}
