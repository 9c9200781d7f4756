//! Frames put in and taken out, on both sides.

use crate::calls::{Call, Name};
use crate::pair::{Fault, Oracle, P0, Pair, Picture, same};
use crate::seal::refused_12;
use doorsedge::{Arena, Record, Refusal};
use triple_arena::traits::*;

impl Pair {
    pub fn put_in(&mut self, call: &Call) -> Result<Option<Refusal>, String> {
        let dead = self.dead(&call.keys());
        match *call {
            Call::Fresh => {
                let (elems, shared) = (self.oracle.capacity(), self.oracle.capacity_shared());
                self.oracle = Oracle::with_min_capacity_separated(elems, shared).unwrap();
                self.port = Arena::fresh(elems, shared).map_err(|refusal| refusal.to_string())?;
                self.frames.clear();
                self.sealed.clear();
                self.forget();
                Ok(None)
            }
            Call::InsertSurject(name, payload, value, size) => {
                let said = self.port.insert_surject(payload, value, size);
                let ptr = self.oracle.insert_surject_within_capacity((payload, size), value);
                let (Ok(key), Ok(ptr)) = (said, ptr) else {
                    return Err(format!("new run: archive {said:?}, oracle {ptr:?}"));
                };
                self.learn(name, key, ptr, (payload, size))?;
                Ok(None)
            }
            Call::Insert(at, name, payload, size) => {
                let (mut key, ptr) = self.keys(at);
                if self.fault == Fault::OneFurther && self.port.len_surject(key).is_ok_and(|n| n >= 4) {
                    key = self.port.list(key).unwrap()[1];
                }
                let off = self.fault == Fault::SizeOff && self.port.len_surject(key).is_ok_and(|n| n >= 2);
                let said = self.port.insert(key, payload, if off { size.wrapping_sub(1) } else { size });
                if self.is_sealed(at) {
                    return refused_12("insert", said.err());
                }
                let new = self.oracle.insert_within_capacity(ptr, (payload, size));
                match (said, new) {
                    (Ok(key), Ok(ptr)) => {
                        self.learn(name, key, ptr, (payload, size))?;
                        Ok(None)
                    }
                    (Err(refusal), Err(triple_arena::errors::ChainInsertionError::FailedLinkRequirement)) => {
                        same("insert's refusal", refusal, dead)?;
                        Ok(said.err())
                    }
                    _ => Err(format!("insert: archive {said:?}, oracle {new:?}")),
                }
            }
            _ => unreachable!("nothing is put in"),
        }
    }

    pub fn take_out(&mut self, call: &Call) -> Result<Option<Refusal>, String> {
        let dead = self.dead(&call.keys());
        match *call {
            Call::RemoveElement(k) => {
                let (key, ptr) = self.keys(k);
                let said = self.port.remove_element(key);
                let out = self.oracle.remove_element(ptr).allow().map(|(t, last)| (t.0, last)).ok_or(dead);
                same("removal", said.map(|out| (out.payload, out.last)), out)?;
                same("overflow", said.is_ok_and(|out| out.overflow), false)?;
                Ok(said.err())
            }
            Call::RemoveShared(k) => {
                let (key, ptr) = self.keys(k);
                let said = match self.fault {
                    Fault::RunStays => {
                        let value = self.port.get_shared(key);
                        value.and_then(|value| self.port.remove_element(key).map(|out| (value, out.overflow)))
                    }
                    _ => self.port.remove_shared(key).map(|out| (out.value, out.overflow)),
                };
                same(
                    "removal of a run",
                    said,
                    self.oracle.remove_shared(ptr).allow().map(|value| (value, false)).ok_or(dead),
                )?;
                Ok(said.err())
            }
            Call::Drain(k) => {
                let (key, ptr) = self.keys(k);
                let said = self.port.drain(key);
                let wanted = self.oracle.drain_surject(ptr).map(|drain| drain.map(|o| o.allow()).collect::<Vec<_>>());
                match (&said, wanted) {
                    (Ok(records), Some(wanted)) => self.same_drain(records, &wanted)?,
                    (Err(refusal), None) => same("drain's refusal", *refusal, dead)?,
                    (_, wanted) => return Err(format!("drain: archive {said:?}, oracle {wanted:?}")),
                }
                Ok(said.err())
            }
            _ => unreachable!("nothing is taken out"),
        }
    }

    /// The records of one run: the same frames in the same order, the shared value with the last one alone.
    fn same_drain(&self, records: &[Record], wanted: &[(P0, Picture, Option<u64>)]) -> Result<(), String> {
        let ring = records.iter().map(|record| self.name_of_key(record.key)).collect();
        let other = wanted.iter().map(|(ptr, _, _)| self.name_of_ptr(*ptr)).collect();
        same("drained ring", self.as_compared(ring), self.as_compared(other))?;
        for record in records {
            same("drained payload", Some(record.payload), self.payload(self.name_of_key(record.key)))?;
            same("overflow", record.overflow, false)?;
        }
        let values = |mut all: Vec<Option<u64>>| (all.pop(), all.iter().any(|value| value.is_some()));
        let said = values(records.iter().map(|record| record.last).collect());
        same("drained value", said, values(wanted.iter().map(|(_, _, value)| *value).collect()))
    }

    fn payload(&self, name: Name) -> Option<u64> {
        self.frames.get(name).copied().flatten().map(|frame| frame.picture.0)
    }
}
