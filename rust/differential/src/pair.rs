//! Both sides, and the map between their keys. Each call is made on both, and what they answer is compared.

use crate::calls::{Call, Case, KINDS, NEVER, Name};
use crate::joins::Before;
use doorsedge::{Arena, Key, Refusal};
use std::collections::HashSet;
use triple_arena::traits::*;
use triple_arena::{SurjectArena, ptr_struct};

ptr_struct!(P0);

/// What the oracle has for a payload: the archive's payload, and the frame's size.
pub type Picture = (u64, u32);

pub type Oracle = SurjectArena<P0, Picture, u64>;

/// A frame on both sides, with the payload that it was given last and its size.
#[derive(Clone, Copy, Debug)]
pub struct Frame {
    pub key: Key,
    pub ptr: P0,
    pub picture: Picture,
}

/// A wrong step that is planted in the driver, to show that the run catches it.
#[derive(Clone, Copy, PartialEq, Eq, Debug)]
pub enum Fault {
    None,
    /// Union's keys change roles also where the runs are equally large.
    EqualSwapped,
    /// Removing a run takes out only the given frame.
    RunStays,
    /// After compression the keys of the last two frames are taken for each other.
    MapCrossed,
    /// Insert at a run of four or more stands one further.
    OneFurther,
    /// A seal sets no mark.
    Unsealed,
    /// A seal writes the ring from the next frame on.
    SealedElsewhere,
    /// The pairs of the last two frames that a compression in slot order moved have each other's new keys.
    PairsCrossed,
    /// A compression in slot order leaves the last two headers in each other's slots.
    HeadersCrossed,
    /// Whether two frames are of one run is asked with their keys the other way round.
    KeysSwapped,
    /// Insert at a run of two or more gives the archive one byte less.
    SizeOff,
    /// A canonical compression leaves the first run of two or more with the sizes of two frames exchanged.
    SizesCrossed,
    /// An undo leaves the run that comes back under the other's shared value.
    UndoneValue,
    /// A set leaves the union before it to be undone.
    SetKeepsUndo,
    /// A copy has its free slots chained highest first.
    ChainReversed,
    /// A move lays its first ring of two or more down from the next frame on.
    MovedElsewhere,
    /// The source of a move keeps its generation.
    SourceKept,
    /// A file has the first two frames of its first run of three or more exchanged.
    FramesExchanged,
}

/// What was met.
#[derive(Clone, Copy, Default, Debug)]
pub struct Tally {
    pub sequences: u64,
    /// By kind: accepted, dead, same class, sealed, nothing to undo, no element slot, no shared slot, out of range.
    pub calls: [[u64; 8]; KINDS.len()],
    /// The dead ones by their cause.
    pub causes: [u64; 3],
    pub longest_ring: u64,
    pub largest_union: u64,
    pub largest_total: u64,
    pub compared: u64,
}

pub struct Pair {
    pub port: Arena,
    pub oracle: Oracle,
    /// By name; a frame that was removed stays, its keys are then dead on both sides.
    pub frames: Vec<Option<Frame>>,
    /// The name that was last given to a slot of the archive, and to one of the oracle.
    pub by_key: Vec<Name>,
    pub by_ptr: Vec<Name>,
    /// The highest slot that the archive gave since the tables were last made, emptied or compressed.
    pub extent: u64,
    /// The frames that accepted seals wrote: no frame comes into their runs, so those that live are the sealed runs' frames.
    pub sealed: HashSet<Name>,
    /// Whether both sides put a new frame on the same side of its target.
    pub ordered: bool,
    pub fault: Fault,
    pub tally: Tally,
    /// Both sides as they were before the union that can be undone.
    pub before: Option<Before>,
    /// What the oracle said of the last union: the removed value, the frame kept, the frames that changed their run.
    pub joined: (u64, Name, u64),
    /// Another recorder's tables, on both sides, with names of their own.
    pub other: Option<Box<Pair>>,
}

/// Whether the archive has the entry: one that lacks some is compared in the others.
pub fn has(entry: &str) -> bool {
    !doorsedge::sys::MISSING.iter().any(|missing| missing.strip_prefix("doorsedge_") == Some(entry))
}

/// No difference.
pub fn same<T: PartialEq + std::fmt::Debug>(what: &str, port: T, oracle: T) -> Result<(), String> {
    if port == oracle { Ok(()) } else { Err(format!("{what}: archive {port:?}, oracle {oracle:?}")) }
}

impl Pair {
    pub fn new(case: &Case, ordered: bool, fault: Fault) -> Pair {
        let other = Box::new(Pair::of(case.others, ordered, fault));
        Pair { other: Some(other), ..Pair::of([case.elems, case.shared], ordered, fault) }
    }

    fn of([elems, shared]: [usize; 2], ordered: bool, fault: Fault) -> Pair {
        let port = Arena::fresh(elems, shared).expect("capacities of a case are in range");
        let oracle = Oracle::with_min_capacity_separated(elems, shared).unwrap();
        let (by_key, by_ptr) = (vec![NEVER; elems + 1], vec![NEVER; elems + 1]);
        Pair {
            port,
            oracle,
            frames: vec![],
            by_key,
            by_ptr,
            extent: 0,
            sealed: HashSet::new(),
            ordered,
            fault,
            tally: Tally::default(),
            before: None,
            joined: (0, NEVER, 0),
            other: None,
        }
    }

    /// A name's keys. An unknown name has keys that were never given.
    pub fn keys(&self, name: Name) -> (Key, P0) {
        match self.frames.get(name) {
            Some(Some(frame)) => (frame.key, frame.ptr),
            _ => (Key::new(0, 1), P0::invalid()),
        }
    }

    pub fn is_live(&self, name: Name) -> bool {
        self.oracle.contains(self.keys(name).1)
    }

    /// Whether the frame is of a sealed run, by the calls made.
    pub fn is_sealed(&self, name: Name) -> bool {
        self.is_live(name) && self.sealed.contains(&name)
    }

    /// The names of live frames.
    pub fn live(&self) -> impl Iterator<Item = Name> {
        (0..self.frames.len()).filter(|name| self.is_live(*name))
    }

    /// The map is one-to-one: a slot of a live frame is not given again.
    pub fn learn(&mut self, name: Name, key: Key, ptr: P0, picture: Picture) -> Result<(), String> {
        let Some(before) = self.by_key.get(key.slot() as usize).copied() else {
            return Err(format!("the archive gives {key:?}, past its capacity"));
        };
        if before != NEVER && self.is_live(before) {
            return Err(format!("the archive gives {key:?}, the slot of a live frame"));
        }
        if self.frames.len() <= name {
            self.frames.resize(name + 1, None);
        }
        self.frames[name] = Some(Frame { key, ptr, picture });
        self.by_key[key.slot() as usize] = name;
        self.by_ptr[ptr.inx().get()] = name;
        self.extent = self.extent.max(key.slot());
        Ok(())
    }

    /// The frame that was last put into a slot of the archive.
    pub fn last_in(&self, slot: u64) -> Name {
        self.by_key[slot as usize]
    }

    pub fn forget(&mut self) {
        self.extent = 0;
        self.by_key.fill(NEVER);
        self.by_ptr.fill(NEVER);
    }

    /// The name of a key of the archive, and of one of the oracle.
    pub fn name_of_key(&self, key: Key) -> Name {
        let name = self.by_key.get(key.slot() as usize).copied().unwrap_or(NEVER);
        if self.frames.get(name).is_some_and(|frame| frame.is_some_and(|frame| frame.key == key)) {
            name
        } else {
            NEVER
        }
    }

    pub fn name_of_ptr(&self, ptr: P0) -> Name {
        let name = self.by_ptr.get(ptr.inx().get()).copied().unwrap_or(NEVER);
        if self.frames.get(name).is_some_and(|frame| frame.is_some_and(|frame| frame.ptr == ptr)) {
            name
        } else {
            NEVER
        }
    }

    /// Whether a call would need more room than there is: such calls are outside the domain.
    pub fn lacks_room(&self, call: &Call) -> bool {
        let elems = self.oracle.len() == self.oracle.capacity();
        match call {
            Call::InsertSurject(..) => elems || self.oracle.len_shared() == self.oracle.capacity_shared(),
            // 12 is said before 5
            Call::Insert(at, ..) => elems && !self.is_sealed(*at),
            // where insert's side differs, so may the last live slots
            Call::CloneFrom => !self.ordered && self.other.as_ref().is_none_or(|other| !other.has_room_for(self)),
            _ => false,
        }
    }

    fn has_room_for(&self, source: &Pair) -> bool {
        let room = |pair: &Pair| (pair.oracle.capacity(), pair.oracle.capacity_shared());
        room(self).0 >= room(source).0 && room(self).1 >= room(source).1
    }

    /// Makes the call on both sides and compares the answers.
    pub fn make(&mut self, call: &Call) -> Result<(), String> {
        if self.lacks_room(call) || !has(KINDS[call.kind()]) {
            return Ok(());
        }
        let refusal = match *call {
            Call::InsertSurject(..) | Call::Insert(..) | Call::Fresh => self.put_in(call)?,
            Call::Union(j, k) => self.union(j, k)?,
            Call::Undo => self.undo()?,
            Call::Seal(k) => self.seal(k)?,
            Call::RemoveElement(_) | Call::RemoveShared(_) | Call::Drain(_) => self.take_out(call)?,
            Call::DrainAll | Call::Clear | Call::Compress(_) => self.on_all(call)?,
            Call::CompressWith(reset) => self.compress_with(reset)?,
            Call::GetSize(k) => self.get_size(k)?,
            Call::GetTotal(k) => self.get_total(k)?,
            Call::CloneFrom => self.copy()?,
            Call::Transfer(generation) => self.transfer(generation)?,
            Call::WriteFile => self.write_file()?,
            Call::ReadFile => self.read_file()?,
            Call::Change => {
                self.change_tables();
                None
            }
            Call::Set(..) | Call::SetShared(..) | Call::Exchange(..) => self.store(call)?,
            _ => self.read(call)?,
        };
        let is_of_two = matches!(call, Call::CloneFrom | Call::Transfer(_));
        let column = match refusal {
            None => 0,
            Some(Refusal::Dead(cause)) => {
                self.tally.causes[cause as usize - 1] += 1;
                1
            }
            Some(Refusal::SameClass) => 2,
            Some(Refusal::Sealed) => 3,
            Some(Refusal::Nothing) => 4,
            // no other call is made without room
            Some(Refusal::NoElement) if is_of_two => 5,
            Some(Refusal::NoShared) if is_of_two => 6,
            Some(Refusal::OutOfRange) if *call == Call::Transfer(0) => 7,
            Some(other) => return Err(format!("the archive says {other}")),
        };
        if refusal.is_none() && !matches!(call, Call::Union(..)) && !call.keeps_undo() {
            self.before = None;
        }
        self.tally.calls[call.kind()][column] += 1;
        Ok(())
    }

    /// A ring, or the set of its frames where the sides differ in order.
    pub fn as_compared(&self, mut ring: Vec<Name>) -> Vec<Name> {
        if !self.ordered {
            ring.sort_unstable();
        }
        ring
    }
}
