//! The seal, which the oracle has not: the archive's is compared with what the oracle holds at the same moment.

use crate::calls::Name;
use crate::pair::{Fault, Pair, same};
use doorsedge::{Arena, HEADER, Refusal, SEAL_PLACE, SealedFrame};

/// Where the mark stands in a shared slot.
pub const MARK: usize = 3;

/// The oracle would accept such a call: it is not made there, and both sides stay as they were.
pub fn refused_12(what: &str, said: Option<Refusal>) -> Result<Option<Refusal>, String> {
    same(&format!("{what} at a sealed run"), said, Some(Refusal::Sealed))?;
    Ok(said)
}

impl Pair {
    /// What the seal answers and writes is what the oracle holds at that moment: value, count, ring and payloads.
    pub fn seal(&mut self, k: Name) -> Result<Option<Refusal>, String> {
        let (key, ptr) = self.keys(k);
        let Some(ring) = self.oracle.iter_surject(ptr) else {
            let said = self.port.seal_into(key, &mut []).err();
            same("seal", said, Some(self.dead(&[k])))?;
            return Ok(said);
        };
        let mut wanted: Vec<(Name, u64)> = ring.map(|(p, t, _)| (self.name_of_ptr(p), t.0)).collect();
        let mut places = vec![0; wanted.len() * SEAL_PLACE];
        if self.is_sealed(k) {
            return refused_12("seal", self.port.seal_into(key, &mut places).err());
        }
        let short = places.len() - 1;
        same("seal", self.port.seal_into(key, &mut places[..short]).err(), Some(Refusal::Short))?;
        let from = match self.fault {
            Fault::SealedElsewhere => *self.port.list(key).unwrap().get(1).unwrap_or(&key),
            _ => key,
        };
        let said = self.port.seal_into(from, &mut places).map_err(|refusal| refusal.to_string())?;
        let header = (*self.oracle.get_shared(ptr).unwrap(), self.oracle.len_surject(ptr).unwrap().get() as u64);
        same("sealed value and count", (said.value, said.count), header)?;
        let frames = places.as_chunks().0.iter().map(SealedFrame::of);
        let mut frames: Vec<_> = frames.map(|frame| (self.name_of_key(frame.key), frame.payload)).collect();
        if !self.ordered {
            frames.sort_unstable();
            wanted.sort_unstable();
        }
        same("sealed ring", &frames, &wanted)?;
        self.sealed.extend(wanted.iter().map(|(name, _)| *name));
        if self.fault == Fault::Unsealed {
            self.unseal();
        }
        Ok(None)
    }

    fn unseal(&mut self) {
        let (head, elems, mut shared) = (*self.port.head(), self.port.elems().to_vec(), self.port.shared().to_vec());
        shared.chunks_mut(HEADER).for_each(|row| row[MARK] = 0);
        self.port = Arena::restored(head, elems, shared).unwrap();
    }
}
