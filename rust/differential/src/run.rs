//! Runs a case, and shrinks one that shows a difference.

use crate::calls::{Call, Case};
use crate::pair::{Fault, Pair, Tally};
use std::panic::{AssertUnwindSafe, catch_unwind};

/// How a case is run.
#[derive(Clone, Copy)]
pub struct Way {
    /// Rings are compared in order, not as sets.
    pub ordered: bool,
    pub fault: Fault,
}

/// A difference: after how many calls, and what.
#[derive(Clone, Debug)]
pub struct Difference {
    pub after: usize,
    pub what: String,
}

impl Way {
    /// Makes the calls of a case on new tables. All frames are compared after every stride and after the last call.
    pub fn run(&self, case: &Case) -> Result<Tally, Difference> {
        let mut calls = case.calls.iter();
        let mut made = Case { calls: vec![], ..case.clone() };
        self.drive(&mut made, |_| calls.next().copied())
    }

    /// The same with calls that are chosen as it goes, and noted in the case.
    pub fn drive(&self, case: &mut Case, mut next: impl FnMut(&Pair) -> Option<Call>) -> Result<Tally, Difference> {
        let result = catch_unwind(AssertUnwindSafe(|| {
            let mut pair = Pair::new(case, self.ordered, self.fault);
            while let Some(call) = next(&pair) {
                case.calls.push(call);
                pair.make(&call)?;
                if case.calls.len().is_multiple_of(case.stride) {
                    pair.compare()?;
                }
            }
            if !case.calls.len().is_multiple_of(case.stride) {
                pair.compare()?;
            }
            pair.tally.sequences = 1;
            Ok(pair.tally)
        }));
        let said = result.unwrap_or_else(|_| Err("a panic".to_owned()));
        said.map_err(|what| Difference { after: case.calls.len(), what })
    }

    /// The smallest case that still shows a difference: calls are left out, first many at once, then one by one, then
    /// capacities are lowered.
    pub fn shrink(&self, case: &Case, found: Difference) -> (Case, Difference) {
        let mut best = Case { calls: case.calls[..found.after].to_vec(), stride: 1, ..case.clone() };
        let mut difference = match self.run(&best) {
            Err(difference) => difference,
            Ok(_) => return (case.clone(), found),
        };
        let mut keep = |candidate: Case, best: &mut Case| match self.run(&candidate) {
            Err(found) => {
                *best = Case { calls: candidate.calls[..found.after].to_vec(), ..candidate };
                difference = found;
                true
            }
            Ok(_) => false,
        };
        loop {
            let before = best.clone();
            let mut size = best.calls.len() / 2;
            while size > 0 {
                let mut start = 0;
                while start + size <= best.calls.len() {
                    let mut calls = best.calls.clone();
                    calls.drain(start..start + size);
                    if !keep(Case { calls, ..best.clone() }, &mut best) {
                        start += size;
                    }
                }
                size /= 2;
            }
            while best.elems > 1 && keep(Case { elems: best.elems - 1, ..best.clone() }, &mut best) {}
            while best.shared > 1 && keep(Case { shared: best.shared - 1, ..best.clone() }, &mut best) {}
            for at in [0, 1] {
                let less = |case: &Case| {
                    let mut others = case.others;
                    others[at] -= 1;
                    Case { others, ..case.clone() }
                };
                while best.others[at] > 1 && keep(less(&best), &mut best) {}
            }
            if best == before {
                let best = renamed(&best);
                let difference = self.run(&best).err().unwrap_or(difference);
                return (best, difference);
            }
        }
    }
}

/// Frames named in the order in which they come.
fn renamed(case: &Case) -> Case {
    let mut names = vec![];
    for call in &case.calls {
        if let Call::InsertSurject(name, ..) | Call::Insert(_, name, ..) = call {
            names.push(*name);
        }
    }
    let name = |old: usize| names.iter().position(|name| *name == old).map_or(crate::calls::NEVER, |at| at + 1);
    let calls = case.calls.iter().map(|call| match *call {
        Call::LenSurject(k) => Call::LenSurject(name(k)),
        Call::InSameSurject(j, k) => Call::InSameSurject(name(j), name(k)),
        Call::Get(k) => Call::Get(name(k)),
        Call::GetShared(k) => Call::GetShared(name(k)),
        Call::Set(k, n) => Call::Set(name(k), n),
        Call::SetShared(k, n) => Call::SetShared(name(k), n),
        Call::Exchange(keys, values) => Call::Exchange(keys.map(name), values),
        Call::InsertSurject(new, payload, value, size) => Call::InsertSurject(name(new), payload, value, size),
        Call::Insert(at, new, payload, size) => Call::Insert(name(at), name(new), payload, size),
        Call::Union(j, k) => Call::Union(name(j), name(k)),
        Call::RemoveElement(k) => Call::RemoveElement(name(k)),
        Call::RemoveShared(k) => Call::RemoveShared(name(k)),
        Call::List(k) => Call::List(name(k)),
        Call::Drain(k) => Call::Drain(name(k)),
        Call::Seal(k) => Call::Seal(name(k)),
        Call::Lookup(k) => Call::Lookup(name(k)),
        Call::GetSize(k) => Call::GetSize(name(k)),
        Call::GetTotal(k) => Call::GetTotal(name(k)),
        Call::Fresh | Call::Check | Call::Undo | Call::DrainAll | Call::Clear => *call,
        Call::Compress(_) | Call::CompressWith(_) | Call::CloneFrom | Call::Transfer(_) | Call::Change => *call,
        Call::WriteFile | Call::ReadFile => *call,
    });
    Case { calls: calls.collect(), ..case.clone() }
}
