//! Compression in slot order: the pairs of keys that the archive writes beside those that the oracle's closure is handed.

use crate::calls::{NEVER, Name};
use crate::pair::{Fault, P0, Pair, Picture, same};
use doorsedge::{Arena, FRAME, HEADER, Key, Moved, PAIR, Refusal};
use triple_arena::traits::*;

impl Pair {
    /// Both sides tell the same frames in the same order, and leave frames and headers in the same order. From there on the map is
    /// what the pairs say: keys from before are not handed in again.
    pub fn compress_with(&mut self, reset: bool) -> Result<Option<Refusal>, String> {
        let mut numbers = vec![0; self.oracle.len() * PAIR];
        if let Some(short) = numbers.len().checked_sub(1) {
            let said = self.port.compress_with_into(reset, &mut numbers[..short]).err();
            same("compression", said, Some(Refusal::Short))?;
        }
        let said = self.port.compress_with_into(reset, &mut numbers).map_err(|refusal| refusal.to_string())?;
        same("compression", (said.count, said.overflow), (self.oracle.len() as u64, false))?;
        let mut moved: Vec<Moved> = numbers.as_chunks().0.iter().map(Moved::of).collect();
        match (self.fault, &mut moved[..]) {
            (Fault::PairsCrossed, [.., a, b]) => std::mem::swap(&mut a.new, &mut b.new),
            (Fault::HeadersCrossed, _) => self.cross_headers(),
            _ => (),
        }
        let mut told = vec![];
        self.oracle.compress_with(reset, |old, picture, new| told.push((old, *picture, new))).allow();
        self.learn_pairs(&moved, &told)?;
        self.same_headers()?;
        Ok(None)
    }

    fn learn_pairs(&mut self, moved: &[Moved], told: &[(P0, Picture, P0)]) -> Result<(), String> {
        if moved.iter().any(|pair| pair.new.generation() != self.port.generation()) {
            return Err("a pair's new key has another generation than the head".into());
        }
        let mut port: Vec<(Name, Key)> = moved.iter().map(|pair| (self.name_of_key(pair.old), pair.new)).collect();
        let mut oracle: Vec<(Name, Picture, P0)> =
            told.iter().map(|(old, t, new)| (self.name_of_ptr(*old), *t, *new)).collect();
        if !self.ordered {
            // insert's side differs, and after a canonical compression the slots with it
            port.sort_unstable();
            oracle.sort_unstable_by_key(|(name, ..)| *name);
        }
        let names = |pairs: &[(Name, Key)]| pairs.iter().map(|(name, _)| *name).collect::<Vec<_>>();
        same("pairs", names(&port), oracle.iter().map(|(name, ..)| *name).collect())?;
        let frames = std::mem::take(&mut self.frames);
        self.frames = vec![None; frames.len()];
        self.forget();
        for ((name, key), (_, picture, ptr)) in port.iter().zip(&oracle) {
            if *name == NEVER {
                return Err("a pair's old key was not given".into());
            }
            same("payload and size in a pair", Some(*picture), frames[*name].map(|frame| frame.picture))?;
            self.learn(*name, *key, *ptr, *picture)?;
        }
        if self.ordered {
            port.sort_unstable_by_key(|(_, key)| key.slot());
            oracle.sort_unstable_by_key(|(_, _, ptr)| ptr.inx());
            same("frames by slot", names(&port), oracle.iter().map(|(name, ..)| *name).collect())?;
        }
        Ok(())
    }

    /// The order of shared values can be seen: in the archive's table, and by the oracle's iterator over them.
    pub fn same_headers(&self) -> Result<(), String> {
        let rows = self.port.shared().chunks(HEADER).filter(|row| row[0] != 0);
        let mut port: Vec<u64> = rows.map(|row| row[1]).collect();
        let mut oracle: Vec<u64> = self.oracle.shared_vals().copied().collect();
        if !self.ordered {
            port.sort_unstable();
            oracle.sort_unstable();
        }
        same("shared values by slot", port, oracle)
    }

    fn cross_headers(&mut self) {
        let (head, mut elems, mut shared) =
            (*self.port.head(), self.port.elems().to_vec(), self.port.shared().to_vec());
        let last = self.port.len_shared();
        if last < 2 {
            return;
        }
        let (a, b) = shared[(last as usize - 2) * HEADER..].split_at_mut(HEADER);
        a.swap_with_slice(&mut b[..HEADER]);
        for row in elems.chunks_mut(FRAME).filter(|row| row[2] + 1 >= last && row[2] != 0) {
            row[2] = 2 * last - 1 - row[2];
        }
        self.port = Arena::restored(head, elems, shared).unwrap();
    }
}
