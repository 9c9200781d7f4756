//! Reads and sets, made on both sides.

use crate::calls::{Call, Name};
use crate::joins::remember;
use crate::pair::{Fault, Oracle, Pair, same};
use doorsedge::Refusal;
use std::slice::GetDisjointMutError;
use triple_arena::traits::*;

impl Pair {
    pub fn read(&self, call: &Call) -> Result<Option<Refusal>, String> {
        let dead = self.dead(&call.keys());
        let (port, oracle) = (&self.port, &self.oracle);
        match *call {
            Call::Check => {
                same("check", port.check().is_ok(), Oracle::_check_invariants(oracle).is_ok())?;
                Ok(port.check().err())
            }
            Call::InSameSurject(j, k) => {
                let ((key0, ptr0), (key1, ptr1)) = (self.keys(j), self.keys(k));
                let said = match self.fault {
                    Fault::KeysSwapped => port.in_same_surject(key1, key0),
                    _ => port.in_same_surject(key0, key1),
                };
                same("in same", said, oracle.in_same_surject(ptr0, ptr1).ok_or(dead))?;
                Ok(said.err())
            }
            Call::List(k) => self.list(k, dead),
            Call::Lookup(k) => {
                let (key, ptr) = self.keys(k);
                let said = port.lookup(key);
                same("lookup", said, if oracle.contains(ptr) { Ok(()) } else { Err(dead) })?;
                Ok(said.err())
            }
            _ => self.read_number(call, dead),
        }
    }

    /// The reads of one key that answer a number.
    fn read_number(&self, call: &Call, dead: Refusal) -> Result<Option<Refusal>, String> {
        let (port, oracle) = (&self.port, &self.oracle);
        let (key, ptr) = self.keys(call.keys()[0]);
        let (what, said, wanted) = match call {
            Call::LenSurject(_) => ("len", port.len_surject(key), oracle.len_surject(ptr).map(|n| n.get() as u64)),
            Call::Get(_) => ("payload", port.get(key), oracle.get(ptr).map(|picture| picture.0)),
            Call::GetShared(_) => ("shared value", port.get_shared(key), oracle.get_shared(ptr).copied()),
            _ => unreachable!("no such read"),
        };
        same(what, said, wanted.ok_or(dead))?;
        Ok(said.err())
    }

    fn list(&self, k: Name, dead: Refusal) -> Result<Option<Refusal>, String> {
        let (key, ptr) = self.keys(k);
        let said = self.port.list(key);
        let ring = self.oracle.iter_surject(ptr).map(|ring| ring.map(|(p, _, _)| self.name_of_ptr(p)).collect());
        let names = said.as_ref().map(|ring| ring.iter().map(|key| self.name_of_key(*key)).collect());
        let names = names.map(|r| self.as_compared(r)).map_err(|refusal| *refusal);
        same("ring", names, ring.map(|r| self.as_compared(r)).ok_or(dead))?;
        Ok(said.err())
    }

    pub fn store(&mut self, call: &Call) -> Result<Option<Refusal>, String> {
        let dead = self.dead(&call.keys());
        match *call {
            Call::Set(k, payload) => {
                let ((key, ptr), memory) = (self.keys(k), *self.port.head());
                let said = self.port.set(key, payload);
                if self.fault == Fault::SetKeepsUndo {
                    remember(&mut self.port, &memory);
                }
                let old = self.oracle.get_mut(ptr).map(|t| std::mem::replace(&mut t.0, payload));
                same("old payload", said, old.ok_or(dead))?;
                if said.is_ok() {
                    self.frames[k].as_mut().unwrap().picture.0 = payload;
                }
                Ok(said.err())
            }
            Call::SetShared(k, value) => {
                let (key, ptr) = self.keys(k);
                let said = self.port.set_shared(key, value);
                let old = self.oracle.get_shared_mut(ptr).map(|s| std::mem::replace(s, value));
                same("old value", said, old.ok_or(dead))?;
                Ok(said.err())
            }
            Call::Exchange(names, values) => self.exchange(names, values, dead),
            _ => unreachable!("no set"),
        }
    }

    fn exchange(&mut self, names: [Name; 4], values: [u64; 4], dead: Refusal) -> Result<Option<Refusal>, String> {
        let keys = names.map(|name| self.keys(name));
        let said = self.port.exchange_shared4(keys.map(|(key, _)| key), values);
        let old = match self.oracle.get_disjoint_shared_mut(keys.map(|(_, ptr)| ptr)) {
            Ok(shared) => {
                let mut values = values.into_iter();
                Ok(shared.map(|s| std::mem::replace(s, values.next().unwrap())))
            }
            Err(GetDisjointMutError::IndexOutOfBounds) => Err(dead),
            Err(GetDisjointMutError::OverlappingIndices) => Err(Refusal::SameClass),
        };
        same("old values", said, old)?;
        Ok(said.err())
    }
}
