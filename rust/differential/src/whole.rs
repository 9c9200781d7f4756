//! The calls on all frames: drain all, clear, canonical compression.

use crate::calls::{Call, Name};
use crate::pair::{Fault, P0, Pair, Picture, same};
use doorsedge::{FRAME, Key, Record, Refusal};
use std::collections::HashMap;
use triple_arena::traits::*;

impl Pair {
    pub fn on_all(&mut self, call: &Call) -> Result<Option<Refusal>, String> {
        match *call {
            Call::DrainAll => {
                let said = self.port.drain_all().map_err(|refusal| refusal.to_string())?;
                let wanted: Vec<_> = self.oracle.drain_combined().map(|o| o.allow()).collect();
                self.same_runs(&said, &wanted)?;
                self.extent = 0;
            }
            Call::Clear => {
                same("clear", self.port.clear(), Ok(false))?;
                self.oracle.clear().allow();
                self.extent = 0;
            }
            Call::Compress(reset) => {
                same("compression", self.port.compress_canonical(reset), Ok(false))?;
                if self.fault == Fault::SizesCrossed {
                    self.cross_sizes();
                }
                self.oracle.compress_canonical(reset).allow();
                self.relearn()?;
            }
            _ => unreachable!("not a call on all"),
        }
        Ok(None)
    }

    /// Drain-all is compared run by run: slot numbers, and so the order of runs and where each begins, may differ.
    fn same_runs(&self, said: &[Record], wanted: &[(P0, Picture, Option<u64>)]) -> Result<(), String> {
        let port =
            said.iter().map(|record| (self.name_of_key(record.key), record.payload, record.last)).collect::<Vec<_>>();
        let oracle = wanted.iter().map(|(ptr, t, s)| (self.name_of_ptr(*ptr), t.0, *s)).collect::<Vec<_>>();
        same("overflow", said.iter().any(|record| record.overflow), false)?;
        same("drained runs", self.runs(&port), self.runs(&oracle))
    }

    /// Runs with their values, each ring begun at its least name, in the order of these.
    fn runs(&self, drained: &[(Name, u64, Option<u64>)]) -> Vec<(Vec<(Name, u64)>, u64)> {
        let mut runs = vec![];
        for run in drained.split_inclusive(|(_, _, value)| value.is_some()) {
            let mut ring: Vec<(Name, u64)> = run.iter().map(|(name, payload, _)| (*name, *payload)).collect();
            let least = ring.iter().enumerate().min_by_key(|(_, frame)| **frame).map_or(0, |(at, _)| at);
            ring.rotate_left(least);
            if !self.ordered {
                ring.sort_unstable();
            }
            runs.push((ring, run.last().unwrap().2.unwrap_or(u64::MAX)));
        }
        runs.sort_unstable();
        runs
    }

    /// After compression every frame has a new key, known by its payload. Keys from before are not handed in again.
    pub fn relearn(&mut self) -> Result<(), String> {
        let generation = self.port.generation();
        let rows: Vec<(u64, Key)> = self
            .port
            .elems()
            .chunks(FRAME)
            .zip(1..)
            .filter(|(row, _)| row[0] != 0)
            .map(|(row, slot)| (row[1], Key::new(slot, row[0])))
            .collect();
        if rows.iter().any(|(_, key)| key.generation() != generation) {
            return Err("compression left an old generation".into());
        }
        let ptrs: Vec<(u64, P0)> = self.oracle.iter_combined().map(|(p, t, _)| (t.0, p)).collect();
        same("frames after compression", rows.len(), ptrs.len())?;
        let (rows, ptrs) = (by_payload(rows)?, by_payload(ptrs)?);
        let old = std::mem::take(&mut self.frames);
        self.frames = vec![None; old.len()];
        self.forget();
        for (name, frame) in old.into_iter().enumerate() {
            let Some(picture) = frame.map(|frame| frame.picture) else { continue };
            match (rows.get(&picture.0), ptrs.get(&picture.0)) {
                (Some(key), Some(ptr)) => self.learn(name, *key, *ptr, picture)?,
                (None, None) => (),
                (key, ptr) => return Err(format!("payload and size {picture:?}: archive {key:?}, oracle {ptr:?}")),
            }
        }
        if self.fault == Fault::MapCrossed {
            self.cross();
        }
        Ok(())
    }

    fn cross(&mut self) {
        let live: Vec<Name> = self.live().collect();
        if let [.., a, b] = live[..] {
            let (first, second) = (self.frames[a].unwrap().key, self.frames[b].unwrap().key);
            self.frames[a].as_mut().unwrap().key = second;
            self.frames[b].as_mut().unwrap().key = first;
            (self.by_key[second.slot() as usize], self.by_key[first.slot() as usize]) = (a, b);
        }
    }
}

/// Payloads are distinct.
pub fn by_payload<K>(frames: Vec<(u64, K)>) -> Result<HashMap<u64, K>, String> {
    let count = frames.len();
    let map: HashMap<u64, K> = frames.into_iter().collect();
    if map.len() == count { Ok(map) } else { Err("a payload is there twice".into()) }
}
