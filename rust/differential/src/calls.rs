//! The calls that both sides are given. A frame has a name, which stands for its key on either side.

use std::fmt;

/// A frame, by the order in which frames were asked for. [NEVER] is a key that was never given.
pub type Name = usize;
pub const NEVER: Name = usize::MAX;

#[derive(Clone, Copy, PartialEq, Eq, Debug)]
pub enum Call {
    Fresh,
    Check,
    LenSurject(Name),
    InSameSurject(Name, Name),
    Get(Name),
    GetShared(Name),
    Set(Name, u64),
    SetShared(Name, u64),
    Exchange([Name; 4], [u64; 4]),
    /// The frame that is put in, its payload, the run's shared value, the frame's size.
    InsertSurject(Name, u64, u64, u32),
    /// At the first; the frame that is put in is the second, with its payload and size.
    Insert(Name, Name, u64, u32),
    Union(Name, Name),
    /// On the archive alone: the oracle is then what it was before the union.
    Undo,
    RemoveElement(Name),
    RemoveShared(Name),
    List(Name),
    Drain(Name),
    DrainAll,
    Clear,
    Compress(bool),
    /// On the archive alone; the oracle has none, and is read at the same moment.
    Seal(Name),
    CompressWith(bool),
    Lookup(Name),
    GetSize(Name),
    GetTotal(Name),
    /// To the other recorder's tables.
    CloneFrom,
    /// The study goes to the other recorder's tables, with this generation.
    Transfer(u32),
    /// The calls after it are made on the other recorder's tables.
    Change,
    /// On the archive alone: what it writes is what the oracle holds.
    WriteFile,
    /// Written and read back; the oracle is compressed.
    ReadFile,
}

pub const KINDS: [&str; 30] = [
    "fresh",
    "check",
    "len_surject",
    "in_same_surject",
    "get",
    "get_shared",
    "set",
    "set_shared",
    "exchange_shared4",
    "insert_surject",
    "insert",
    "union",
    "remove_element",
    "remove_shared",
    "list",
    "drain",
    "drain_all",
    "clear",
    "compress_canonical",
    "seal",
    "compress_with",
    "lookup",
    "get_size",
    "get_total",
    "undo",
    "clone_from",
    "transfer_canonical",
    "(other tables)",
    "write_file",
    "read_file",
];

impl Call {
    /// Its place in [KINDS].
    pub fn kind(&self) -> usize {
        match self {
            Call::Fresh => 0,
            Call::Check => 1,
            Call::LenSurject(_) => 2,
            Call::InSameSurject(..) => 3,
            Call::Get(_) => 4,
            Call::GetShared(_) => 5,
            Call::Set(..) => 6,
            Call::SetShared(..) => 7,
            Call::Exchange(..) => 8,
            Call::InsertSurject(..) => 9,
            Call::Insert(..) => 10,
            Call::Union(..) => 11,
            Call::RemoveElement(_) => 12,
            Call::RemoveShared(_) => 13,
            Call::List(_) => 14,
            Call::Drain(_) => 15,
            Call::DrainAll => 16,
            Call::Clear => 17,
            Call::Compress(_) => 18,
            Call::Seal(_) => 19,
            Call::CompressWith(_) => 20,
            Call::Lookup(_) => 21,
            Call::GetSize(_) => 22,
            Call::GetTotal(_) => 23,
            Call::Undo => 24,
            Call::CloneFrom => 25,
            Call::Transfer(_) => 26,
            Call::Change => 27,
            Call::WriteFile => 28,
            Call::ReadFile => 29,
        }
    }

    /// The frames whose keys it takes, in the order of its arguments.
    pub fn keys(&self) -> Vec<Name> {
        match *self {
            Call::LenSurject(k)
            | Call::Get(k)
            | Call::GetShared(k)
            | Call::Set(k, _)
            | Call::SetShared(k, _)
            | Call::Insert(k, ..)
            | Call::RemoveElement(k)
            | Call::RemoveShared(k)
            | Call::List(k)
            | Call::Drain(k)
            | Call::Seal(k)
            | Call::Lookup(k)
            | Call::GetSize(k)
            | Call::GetTotal(k) => vec![k],
            Call::InSameSurject(j, k) | Call::Union(j, k) => vec![j, k],
            Call::Exchange(keys, _) => keys.to_vec(),
            Call::Fresh | Call::Check | Call::InsertSurject(..) | Call::DrainAll | Call::Clear => vec![],
            Call::Compress(_) | Call::CompressWith(_) | Call::Undo => vec![],
            Call::CloneFrom | Call::Transfer(_) | Call::Change | Call::WriteFile | Call::ReadFile => vec![],
        }
    }

    /// Whether a union before it can still be undone after it, accepted or not. A copy is a read of its source.
    pub fn keeps_undo(&self) -> bool {
        use Call::*;
        let reads = matches!(
            self,
            CloneFrom | Change | WriteFile | Check | List(_) | Lookup(_) | LenSurject(_) | InSameSurject(..)
        );
        reads || matches!(self, Get(_) | GetShared(_) | GetSize(_) | GetTotal(_))
    }
}

struct Shown(Name);

impl fmt::Display for Shown {
    fn fmt(&self, f: &mut fmt::Formatter<'_>) -> fmt::Result {
        if self.0 == NEVER { write!(f, "never") } else { write!(f, "f{}", self.0) }
    }
}

impl fmt::Display for Call {
    fn fmt(&self, f: &mut fmt::Formatter<'_>) -> fmt::Result {
        let kind = KINDS[self.kind()];
        match *self {
            Call::Fresh | Call::Check | Call::Undo | Call::DrainAll | Call::Clear => write!(f, "{kind}"),
            Call::CloneFrom | Call::Change | Call::WriteFile | Call::ReadFile => write!(f, "{kind}"),
            Call::Transfer(generation) => write!(f, "{kind} {generation}"),
            Call::LenSurject(k)
            | Call::Get(k)
            | Call::GetShared(k)
            | Call::RemoveElement(k)
            | Call::RemoveShared(k)
            | Call::List(k)
            | Call::Drain(k)
            | Call::Seal(k)
            | Call::Lookup(k)
            | Call::GetSize(k)
            | Call::GetTotal(k) => write!(f, "{kind} {}", Shown(k)),
            Call::InSameSurject(j, k) | Call::Union(j, k) => write!(f, "{kind} {} {}", Shown(j), Shown(k)),
            Call::Set(k, n) | Call::SetShared(k, n) => write!(f, "{kind} {} {n}", Shown(k)),
            Call::Exchange([a, b, c, d], [x, y, z, w]) => {
                write!(f, "{kind} {} {} {} {} {x} {y} {z} {w}", Shown(a), Shown(b), Shown(c), Shown(d))
            }
            Call::InsertSurject(name, payload, value, size) => {
                write!(f, "{} = {kind} {payload} {value} {size}", Shown(name))
            }
            Call::Insert(at, name, payload, size) => {
                write!(f, "{} = {kind} {} {payload} {size}", Shown(name), Shown(at))
            }
            Call::Compress(reset) | Call::CompressWith(reset) => {
                write!(f, "{kind}{}", if reset { " reset" } else { "" })
            }
        }
    }
}

/// New tables of these capacities, and the calls made on them.
#[derive(Clone, PartialEq, Eq, Debug)]
pub struct Case {
    pub elems: usize,
    pub shared: usize,
    /// The other recorder's.
    pub others: [usize; 2],
    pub calls: Vec<Call>,
    /// All frames are compared after every so many calls, and after the last.
    pub stride: usize,
}

impl fmt::Display for Case {
    fn fmt(&self, f: &mut fmt::Formatter<'_>) -> fmt::Result {
        write!(
            f,
            "capacities {} {}, the other tables' {} {}",
            self.elems, self.shared, self.others[0], self.others[1]
        )?;
        self.calls.iter().try_for_each(|call| write!(f, "\n{call}"))
    }
}
