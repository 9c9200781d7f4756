//! Union, and its undo, which the oracle has not: its arena is then the copy that was taken before the union. The archive's head
//! and tables are compared, number for number, with what they were there.

use crate::calls::Name;
use crate::pair::{Fault, Oracle, Pair, same};
use crate::seal::refused_12;
use doorsedge::{Arena, FRAME, HEAD, Key, Refusal};

/// Where the head holds what it remembers of a union.
const UNDO: usize = HEAD - 4;

/// Both sides before a union.
pub struct Before {
    oracle: Oracle,
    port: Arena,
}

/// The fault [Fault::SetKeepsUndo]: what the head remembered, put back.
pub fn remember(port: &mut Arena, memory: &[u64; HEAD]) {
    let (mut head, elems, shared) = (*port.head(), port.elems().to_vec(), port.shared().to_vec());
    head[UNDO..].copy_from_slice(&memory[UNDO..]);
    *port = Arena::restored(head, elems, shared).unwrap();
}

impl Pair {
    pub fn union(&mut self, j: Name, k: Name) -> Result<Option<Refusal>, String> {
        let ((key0, ptr0), (key1, ptr1)) = (self.keys(j), self.keys(k));
        let sizes = (self.oracle.len_surject(ptr0), self.oracle.len_surject(ptr1));
        let (equal, dead) = (sizes.0.is_some() && sizes.0 == sizes.1, self.dead(&[j, k]));
        let classes = |port: &Arena| port.elems().chunks(FRAME).map(|row| row[2]).collect::<Vec<_>>();
        let (before, both) =
            (classes(&self.port), Before { oracle: self.oracle.exact_copy(), port: self.port.clone() });
        let said = match self.fault {
            Fault::EqualSwapped if equal => self.port.union(key1, key0),
            _ => self.port.union(key0, key1),
        };
        let apart = self.oracle.in_same_surject(ptr0, ptr1) == Some(false);
        if apart && (self.is_sealed(j) || self.is_sealed(k)) {
            return refused_12("union", said.err());
        }
        match (said, self.oracle.union(ptr0, ptr1)) {
            (Ok(joined), Some((was, kept))) => {
                same("union's value", joined.was, was)?;
                same("union's kept frame", self.name_of_key(joined.kept), self.name_of_ptr(kept))?;
                let smaller = sizes.0.unwrap().min(sizes.1.unwrap()).get() as u64;
                same("union's number of entries rewritten", joined.moved, smaller)?;
                let after = classes(&self.port);
                let differing = before.iter().zip(&after).filter(|(a, b)| a != b).count() as u64;
                same("class entries that differ", differing, joined.moved)?;
                self.tally.largest_union = self.tally.largest_union.max(joined.moved);
                self.before = Some(both);
                self.joined = (was, self.name_of_ptr(kept), smaller);
                Ok(None)
            }
            (Err(refusal), None) => {
                let live = sizes.0.is_some() && sizes.1.is_some();
                same("union's refusal", refusal, if live { Refusal::SameClass } else { dead })?;
                Ok(Some(refusal))
            }
            (said, oracle) => Err(format!("union: archive {said:?}, oracle {oracle:?}")),
        }
    }

    /// The oracle becomes what it was before the union. The archive has to say whether there is one to take back, and its numbers
    /// to be those of before, with nothing to undo.
    pub fn undo(&mut self) -> Result<Option<Refusal>, String> {
        same("whether there is a union to undo", self.port.can_undo(), self.before.is_some())?;
        let names = *self.port.head();
        let said = self.port.undo();
        let Some(before) = self.before.take() else {
            same("undo", said, Err(Refusal::Nothing))?;
            return Ok(Some(Refusal::Nothing));
        };
        same("undo", said, Ok(()))?;
        if self.fault == Fault::UndoneValue {
            self.lend_value(names[UNDO], names[UNDO + 1]);
        }
        let mut head = *before.port.head();
        head[UNDO..].fill(0);
        same("head after undo", *self.port.head(), head)?;
        same("element table after undo", self.port.elems(), before.port.elems())?;
        same("shared table after undo", self.port.shared(), before.port.shared())?;
        self.oracle = before.oracle;
        Ok(None)
    }

    fn lend_value(&mut self, kept: u64, gone: u64) {
        let key = |slot: u64| Key::new(slot, self.port.elems()[(slot as usize - 1) * FRAME]);
        let (kept, gone) = (key(kept), key(gone));
        let value = self.port.get_shared(kept).unwrap();
        self.port.set_shared(gone, value).unwrap();
    }
}
