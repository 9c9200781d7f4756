//! A study copied to another recorder's tables, beside the Rust's own `clone_from_with`. Both recorders go on from there, on either
//! side, and are compared.

use crate::calls::NEVER;
use crate::pair::{Fault, Pair, same};
use doorsedge::{Arena, FRAME, HEADER, Refusal};
use triple_arena::traits::*;

/// Where the next free slot stands in a free slot of either table.
const NEXT: usize = 4;
const NEXT_FREE: usize = 2;

impl Pair {
    /// Goes on with the other recorder's tables.
    pub fn change_tables(&mut self) {
        let mut other = self.other.take().expect("there are two recorders");
        std::mem::swap(self, &mut other);
        // what was met is counted in one place
        std::mem::swap(&mut self.tally, &mut other.tally);
        self.other = Some(other);
    }

    /// Whether the other recorder's tables hold no frame.
    pub fn is_other_empty(&self) -> bool {
        self.other.as_ref().is_none_or(|other| other.oracle.is_empty())
    }

    /// Copies the study to the other recorder's tables, and compares all frames there.
    pub fn copy(&mut self) -> Result<Option<Refusal>, String> {
        let mut other = self.other.take().expect("there are two recorders");
        let refusal = self.copy_to(&mut other);
        if let Ok(None) = refusal {
            std::mem::swap(&mut self.tally, &mut other.tally);
            let said = other.compare();
            std::mem::swap(&mut self.tally, &mut other.tally);
            said?;
        }
        self.other = Some(other);
        refusal
    }

    /// Where the Rust would have to reallocate its elements, the archive must say 5, and 6 where only its shared values; neither side
    /// has then changed.
    fn copy_to(&self, other: &mut Pair) -> Result<Option<Refusal>, String> {
        let (elems, shared) = (other.oracle.capacity(), other.oracle.capacity_shared());
        let (source, target) = (self.port.clone(), other.port.clone());
        let mut oracle = other.oracle.exact_copy();
        let copied = oracle.clone_from_with(&self.oracle, |_, picture| *picture, |_, value| *value);
        copied.map_err(|error| format!("the oracle's copy: {error:?}"))?;
        let wanted = match (oracle.capacity() > elems, oracle.capacity_shared() > shared) {
            (true, _) => Err(Refusal::NoElement),
            (_, true) => Err(Refusal::NoShared),
            _ => Ok(()),
        };
        let said = other.port.clone_from(&self.port);
        same("copy", said, wanted)?;
        same("the source of a copy", &self.port, &source)?;
        if let Err(refusal) = said {
            same("the target of a refused copy", &other.port, &target)?;
            return Ok(Some(refusal));
        }
        if self.fault == Fault::ChainReversed {
            reverse_chains(&mut other.port);
        }
        other.oracle = oracle;
        self.tell_names(other);
        same("the copy's generation", other.port.generation(), self.port.generation())?;
        same("the copy's extent", other.port.head()[1], other.extent)?;
        Ok(None)
    }

    /// Names stand for the same keys in the copy; of those that are dead, the slots past its last frame are none.
    fn tell_names(&self, other: &mut Pair) {
        other.frames = self.frames.clone();
        other.sealed = self.sealed.clone();
        other.before = None;
        for (to, from) in [(&mut other.by_key, &self.by_key), (&mut other.by_ptr, &self.by_ptr)] {
            to.fill(NEVER);
            to.iter_mut().zip(from).for_each(|(to, from)| *to = *from);
        }
        other.extent = self.live().map(|name| self.keys(name).0.slot()).max().unwrap_or(0);
    }
}

/// The fault [Fault::ChainReversed]: the state stays sound.
fn reverse_chains(port: &mut Arena) {
    let (mut head, mut elems, mut shared) = (*port.head(), port.elems().to_vec(), port.shared().to_vec());
    for (table, width, link, root) in [(&mut elems, FRAME, NEXT, 2), (&mut shared, HEADER, NEXT_FREE, 6)] {
        let (mut slot, mut before) = (head[root], 0);
        while slot != 0 {
            let next = std::mem::replace(&mut table[(slot as usize - 1) * width + link], before);
            (slot, before) = (next, slot);
        }
        head[root] = before;
    }
    *port = Arena::restored(head, elems, shared).unwrap();
}
