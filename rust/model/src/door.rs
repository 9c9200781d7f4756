//! The host's calls over numbers: shape and soundness first, then the call. This is what the C entries do.

use crate::{layout::*, rows::Rows};

/// A call with its arguments.
#[derive(Clone, Copy, PartialEq, Eq, Debug)]
pub enum Call {
    Fresh {
        elems: u64,
        shared: u64,
    },
    Check,
    Lookup(Key),
    LenSurject(Key),
    InSameSurject(Key, Key),
    Get(Key),
    GetShared(Key),
    GetSize(Key),
    GetTotal(Key),
    Set(Key, u64),
    SetShared(Key, u64),
    ExchangeShared4([Key; 4], [u64; 4]),
    InsertSurject {
        payload: u64,
        value: u64,
        size: u32,
    },
    /// At the key: payload and size.
    Insert(Key, u64, u32),
    Union(Key, Key),
    Undo,
    RemoveElement(Key),
    /// Insert and removal with the head lent in place: the same calls by other entries.
    InsertInPlace(Key, u64, u32),
    RemoveInPlace(Key),
    RemoveShared(Key),
    List(Key),
    Seal(Key),
    Drain(Key),
    DrainAll,
    Clear,
    CompressCanonical {
        reset: u64,
    },
    CompressWith {
        reset: u64,
    },
}

/// How many kinds of calls there are.
pub const KINDS: usize = 27;

impl Call {
    /// The entry's name in C, without its prefix; and how many numbers its `out` has.
    pub fn name(&self) -> (&'static str, usize) {
        match self {
            Call::Fresh { .. } => ("fresh", 0),
            Call::Check => ("check", 0),
            Call::Lookup(_) => ("lookup", 0),
            Call::LenSurject(_) => ("len_surject", 1),
            Call::InSameSurject(..) => ("in_same_surject", 1),
            Call::Get(_) => ("get", 1),
            Call::GetShared(_) => ("get_shared", 1),
            Call::GetSize(_) => ("get_size", 1),
            Call::GetTotal(_) => ("get_total", 1),
            Call::Set(..) => ("set", 1),
            Call::SetShared(..) => ("set_shared", 1),
            Call::ExchangeShared4(..) => ("exchange_shared4", 4),
            Call::InsertSurject { .. } => ("insert_surject", 2),
            Call::Insert(..) => ("insert", 2),
            Call::Union(..) => ("union", 4),
            Call::Undo => ("undo", 0),
            Call::RemoveElement(_) => ("remove_element", 4),
            Call::InsertInPlace(..) => ("insert_in_place", 2),
            Call::RemoveInPlace(_) => ("remove_in_place", 4),
            Call::RemoveShared(_) => ("remove_shared", 2),
            Call::List(_) => ("list", 1),
            Call::Seal(_) => ("seal", 2),
            Call::Drain(_) => ("drain", 1),
            Call::DrainAll => ("drain_all", 1),
            Call::Clear => ("clear", 1),
            Call::CompressCanonical { .. } => ("compress_canonical", 1),
            Call::CompressWith { .. } => ("compress_with", 2),
        }
    }

    /// Whether the head remembers a union over it: a read, a list, a lookup or the check.
    pub fn keeps_memory(&self) -> bool {
        use Call::*;
        matches!(
            self,
            Check
                | Lookup(_)
                | LenSurject(_)
                | InSameSurject(..)
                | Get(_)
                | GetShared(_)
                | GetSize(_)
                | GetTotal(_)
                | List(_)
        )
    }
}

/// Which soundness test the door makes: [crate::check::sound], or [crate::sets::sound] for a reference.
pub type Sound = fn(&Head, &[u64], &[u64]) -> bool;

/// Makes a call on the numbers of a host. Answers 0, or the refusal's number, with the cause of 3 above it, and nothing changed.
pub fn run(
    sound: Sound,
    head: &mut [u64; HEAD],
    elems: &mut [u64],
    shared: &mut [u64],
    call: &Call,
    lent: &mut [u64],
    out: &mut [u64],
) -> u64 {
    let mut next = Head::of(head);
    let said = match call {
        Call::Fresh { elems: e, shared: s } => fresh(&mut next, elems, shared, *e, *s),
        _ => enter(sound, &mut next, elems, shared, |rows| said(rows, call, lent)),
    };
    match said {
        Ok(values) => {
            if *head != next.numbers() {
                *head = next.numbers();
            }
            let count = call.name().1;
            out[..count].copy_from_slice(&values[..count]);
            0
        }
        Err(refusal) => refusal.result(),
    }
}

fn fresh(head: &mut Head, elems: &mut [u64], shared: &mut [u64], e: u64, s: u64) -> Result<[u64; 4], Refusal> {
    if !fits(e, FRAME, elems.len()) || !fits(s, HEADER, shared.len()) {
        return Err(Refusal::Shape);
    }
    elems.fill(0);
    shared.fill(0);
    *head = Head::fresh(e, s);
    Ok([0; 4])
}

/// Refusals 1 and 2, then the call.
pub fn enter<T>(
    sound: Sound,
    head: &mut Head,
    elems: &mut [u64],
    shared: &mut [u64],
    call: impl FnOnce(&mut Rows) -> Result<T, Refusal>,
) -> Result<T, Refusal> {
    if !fits(head.elems.capacity, FRAME, elems.len()) || !fits(head.shared.capacity, HEADER, shared.len()) {
        return Err(Refusal::Shape);
    }
    if !sound(head, elems, shared) {
        return Err(Refusal::Unsound);
    }
    call(&mut Rows { head, elems, shared })
}

/// The call on a sound state, its answer as the numbers of `out`. Accepted, it leaves the head to remember nothing, but for the
/// calls that keep what it remembers, and union, which has it remember that one.
pub fn said(rows: &mut Rows, call: &Call, lent: &mut [u64]) -> Result<[u64; 4], Refusal> {
    let values = answered(rows, call, lent)?;
    if !call.keeps_memory() && !matches!(call, Call::Union(..)) {
        rows.head.undo = Memory::default();
    }
    Ok(values)
}

fn answered(rows: &mut Rows, call: &Call, lent: &mut [u64]) -> Result<[u64; 4], Refusal> {
    let one = |n: u64| [n, 0, 0, 0];
    let key = |k: Key| [k.slot, k.generation, 0, 0];
    Ok(match *call {
        Call::Fresh { .. } => unreachable!("fresh has its own door"),
        Call::Check => [0; 4],
        Call::Lookup(k) => rows.lookup(k).map(|_| [0; 4])?,
        Call::LenSurject(k) => one(rows.len_surject(k)?),
        Call::InSameSurject(j, k) => one(rows.in_same_surject(j, k)? as u64),
        Call::Get(k) => one(rows.get(k)?),
        Call::GetShared(k) => one(rows.get_shared(k)?),
        Call::GetSize(k) => one(rows.get_size(k)?),
        Call::GetTotal(k) => one(rows.get_total(k)?),
        Call::Set(k, payload) => one(rows.set(k, payload)?),
        Call::SetShared(k, value) => one(rows.set_shared(k, value)?),
        Call::ExchangeShared4(keys, values) => rows.exchange_shared4(keys, values)?,
        Call::InsertSurject { payload, value, size } => key(rows.insert_surject(payload, value, size)?),
        Call::Insert(k, payload, size) | Call::InsertInPlace(k, payload, size) => key(rows.insert(k, payload, size)?),
        Call::Union(j, k) => {
            let joined = rows.union(j, k)?;
            [joined.was, joined.kept.slot, joined.kept.generation, joined.moved]
        }
        Call::Undo => rows.undo().map(|_| [0; 4])?,
        Call::RemoveElement(k) | Call::RemoveInPlace(k) => {
            let out = rows.remove_element(k)?;
            [out.payload, out.value.is_some() as u64, out.value.unwrap_or(0), out.overflow as u64]
        }
        Call::RemoveShared(k) => {
            let (value, overflow) = rows.remove_shared(k)?;
            [value, overflow as u64, 0, 0]
        }
        Call::List(k) => one(rows.list(k, lent)?),
        Call::Seal(k) => {
            let (value, count) = rows.seal(k, lent)?;
            [value, count, 0, 0]
        }
        Call::Drain(k) => one(rows.drain(k, lent)?),
        Call::DrainAll => one(rows.drain_all(lent)?),
        Call::Clear => one(rows.clear() as u64),
        Call::CompressCanonical { reset } => one(rows.compress_canonical(reset != 0, lent)? as u64),
        Call::CompressWith { reset } => {
            let (count, overflow) = rows.compress_with(reset != 0, lent)?;
            [count, overflow as u64, 0, 0]
        }
    })
}
