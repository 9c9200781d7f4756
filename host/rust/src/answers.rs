//! Keys, refusals and what calls answer.

use crate::{PAIR, RECORD, SEAL_PLACE};
use std::{error, fmt};

/// The name of a frame: its slot, and the generation in which it was put there.
///
/// ```
/// # fn main() -> Result<(), doorsedge::Refusal> {
/// use doorsedge::{Arena, Key};
///
/// let key = Arena::fresh(1, 1)?.insert_surject(10, 100, 0)?;
/// assert_eq!(key, Key::new(1, 1));
/// assert_eq!((key.slot(), key.generation()), (1, 1));
/// # Ok(())
/// # }
/// ```
#[derive(Clone, Copy, PartialEq, Eq, PartialOrd, Ord, Hash, Debug)]
pub struct Key {
    slot: u64,
    generation: u64,
}

impl Key {
    /// A key from its numbers, as one that was saved. Any numbers will do: a call refuses one that is not live.
    pub const fn new(slot: u64, generation: u64) -> Key {
        Key { slot, generation }
    }

    pub const fn slot(self) -> u64 {
        self.slot
    }

    pub const fn generation(self) -> u64 {
        self.generation
    }
}

/// Why a call was refused. Nothing has changed then.
///
/// ```
/// use doorsedge::{Arena, Key, Refusal};
///
/// let refusal = Arena::fresh(0, 1).unwrap_err();
/// assert_eq!((refusal, refusal.number()), (Refusal::Shape, 1));
/// assert_eq!(Refusal::Short.to_string(), "refused 7: a buffer has fewer places than needed");
/// ```
#[derive(Clone, Copy, PartialEq, Eq, Hash, Debug)]
pub enum Refusal {
    /// A capacity is outside 1 to 65,536, or a table's length is not what its capacity asks.
    Shape,
    /// The shape fits, but the state is not sound.
    Unsound,
    /// A key handed in is not live, and why: of the first such key, in the order of the arguments.
    Dead(Cause),
    /// Two keys that must be of different runs are of one.
    SameClass,
    /// No element slot up to the capacity is free; or the last frame's slot of what is [copied](crate::Arena::clone_from) is past it;
    /// or a [file](crate::Arena::read_file) or what is [moved](crate::Arena::transfer_canonical) has more frames.
    NoElement,
    /// No shared slot up to the capacity is free; or the last header's slot of what is [copied](crate::Arena::clone_from) is past it;
    /// or a [file](crate::Arena::read_file) or what is [moved](crate::Arena::transfer_canonical) has more runs.
    NoShared,
    /// A buffer has fewer places than needed.
    Short,
    /// The bytes are no run file.
    NoFile,
    /// There is no union to take back: none was made, or another accepted call that is no read came after it.
    Nothing,
    /// The bytes begin with another version of run files than the one that is read.
    OtherVersion,
    /// The run is sealed: it was saved as it stood, no frame may come into it by an insert or a union, and it cannot be
    /// sealed again. What comes too late begins a run of its own.
    Sealed,
    /// A number handed in is not in its range.
    OutOfRange,
}

impl Refusal {
    /// The number of the refusal: the low eight bits of what the C entries return.
    pub const fn number(self) -> u64 {
        match self {
            Refusal::Shape => 1,
            Refusal::Unsound => 2,
            Refusal::Dead(_) => 3,
            Refusal::SameClass => 4,
            Refusal::NoElement => 5,
            Refusal::NoShared => 6,
            Refusal::Short => 7,
            Refusal::NoFile => 9,
            Refusal::Nothing => 10,
            Refusal::OtherVersion => 11,
            Refusal::Sealed => 12,
            Refusal::OutOfRange => 13,
        }
    }

    /// Why a key is dead, where that is what the refusal says.
    pub const fn cause(self) -> Option<Cause> {
        if let Refusal::Dead(cause) = self { Some(cause) } else { None }
    }

    /// What a C entry's result says: the cause stands above the number.
    pub(crate) fn test(result: u64) -> Result<(), Refusal> {
        Err(match result {
            0 => return Ok(()),
            1 => Refusal::Shape,
            2 => Refusal::Unsound,
            0x103 => Refusal::Dead(Cause::NoSlot),
            0x203 => Refusal::Dead(Cause::FreeSlot),
            0x303 => Refusal::Dead(Cause::OtherGeneration),
            4 => Refusal::SameClass,
            5 => Refusal::NoElement,
            6 => Refusal::NoShared,
            7 => Refusal::Short,
            9 => Refusal::NoFile,
            10 => Refusal::Nothing,
            11 => Refusal::OtherVersion,
            12 => Refusal::Sealed,
            13 => Refusal::OutOfRange,
            crate::sys::ABSENT => panic!("the archive lacks this entry"),
            n => unreachable!("no entry gives {n}"),
        })
    }
}

impl fmt::Display for Refusal {
    fn fmt(&self, f: &mut fmt::Formatter<'_>) -> fmt::Result {
        let why = match self {
            Refusal::Dead(cause) => return write!(f, "refused 3 cause {}: {cause}", cause.number()),
            Refusal::Shape => "a capacity is outside its range, or a table's length does not fit it",
            Refusal::Unsound => "the state is not sound",
            Refusal::SameClass => "two keys are of one run",
            Refusal::NoElement => {
                "no element slot up to the capacity is free, or what is copied, moved or read needs more"
            }
            Refusal::NoShared => {
                "no shared slot up to the capacity is free, or what is copied, moved or read needs more"
            }
            Refusal::Short => "a buffer has fewer places than needed",
            Refusal::NoFile => "the bytes are no run file",
            Refusal::Nothing => "there is no union to take back",
            Refusal::OtherVersion => "the run file is of another version",
            Refusal::Sealed => "the run is sealed, no frame may come into it",
            Refusal::OutOfRange => "a number is out of its range",
        };
        write!(f, "refused {}: {why}", self.number())
    }
}

impl error::Error for Refusal {}

/// Why a key is dead. The tests come in this order, so exactly one of the three holds of a key that is not live.
///
/// Of a key that was given since the arena was last made, cleared, drained whole or compressed, the cause tells what became
/// of its frame: it was removed, and its slot is free or was taken again. A key from before, of another arena, or damaged on
/// its way can have any of the three, and it alone can have the first.
///
/// ```
/// # fn main() -> Result<(), doorsedge::Refusal> {
/// use doorsedge::{Arena, Cause, Key, Refusal};
///
/// let mut arena = Arena::fresh(4, 3)?;
/// let (first, second) = (arena.insert_surject(10, 100, 0)?, arena.insert_surject(20, 200, 0)?);
///
/// // a damaged key: no frame was ever in slot 9
/// assert_eq!(arena.lookup(Key::new(9, 1)), Err(Refusal::Dead(Cause::NoSlot)));
/// // a frame that was removed
/// arena.remove_element(first)?;
/// assert_eq!(arena.get(first), Err(Refusal::Dead(Cause::FreeSlot)));
/// // and then another came into its slot
/// assert_eq!(arena.insert(second, 21, 0)?.slot(), first.slot());
/// assert_eq!(arena.get(first), Err(Refusal::Dead(Cause::OtherGeneration)));
/// assert_eq!(arena.get(first).unwrap_err().to_string(), "refused 3 cause 3: a key is dead, another frame is in its slot now");
/// # Ok(())
/// # }
/// ```
#[derive(Clone, Copy, PartialEq, Eq, PartialOrd, Ord, Hash, Debug)]
#[repr(u8)]
pub enum Cause {
    /// Its slot is 0, or past every slot that has been in use: no key of today. It is from before the arena was last made,
    /// cleared, drained whole or compressed; or damaged, or of another arena.
    NoSlot = 1,
    /// No frame is in its slot: the frame was removed.
    FreeSlot = 2,
    /// A frame of another generation is in its slot: the key is old. Its frame was removed and another came into the slot; or
    /// a compression gave every frame a new key.
    OtherGeneration = 3,
}

impl Cause {
    /// The number that stands above the refusal's in what the C entries return.
    pub const fn number(self) -> u64 {
        self as u64
    }
}

impl fmt::Display for Cause {
    fn fmt(&self, f: &mut fmt::Formatter<'_>) -> fmt::Result {
        f.write_str(match self {
            Cause::NoSlot => {
                "a key is dead, no frame has had its slot since the tables were made, cleared or compressed"
            }
            Cause::FreeSlot => "a key is dead, no frame is in its slot now",
            Cause::OtherGeneration => "a key is dead, another frame is in its slot now",
        })
    }
}

/// What [union](crate::Arena::union) answers.
#[derive(Clone, Copy, PartialEq, Eq, Debug)]
pub struct Joined {
    /// The shared value that was removed.
    pub was: u64,
    /// The one of the two keys whose run's shared value is kept.
    pub kept: Key,
    /// How many frames changed their run: the smaller run's.
    pub moved: u64,
}

/// What [remove_element](crate::Arena::remove_element) answers.
#[derive(Clone, Copy, PartialEq, Eq, Debug)]
pub struct Removed {
    pub payload: u64,
    /// The shared value, if that was the last frame of its run.
    pub last: Option<u64>,
    /// The generation went from its last number to 1: keys of removed frames may come to life again.
    pub overflow: bool,
}

/// What [remove_shared](crate::Arena::remove_shared) answers.
#[derive(Clone, Copy, PartialEq, Eq, Debug)]
pub struct RemovedShared {
    pub value: u64,
    pub overflow: bool,
}

/// A run as it stood when it was [sealed](crate::Arena::seal): all of one moment, and no frame has come into it since.
#[derive(Clone, PartialEq, Eq, Debug)]
pub struct SealedRun {
    /// The shared value.
    pub value: u64,
    /// The frames in ring order, from the one whose key was handed in. Their number is the count in the run's header.
    pub frames: Vec<SealedFrame>,
}

/// A frame that a seal wrote.
#[derive(Clone, Copy, PartialEq, Eq, Debug)]
pub struct SealedFrame {
    pub key: Key,
    pub payload: u64,
}

impl SealedFrame {
    /// A frame from the numbers that a seal writes.
    pub fn of(numbers: &[u64; SEAL_PLACE]) -> SealedFrame {
        let [slot, generation, payload] = *numbers;
        SealedFrame { key: Key::new(slot, generation), payload }
    }
}

/// What [seal_into](crate::Arena::seal_into) answers.
#[derive(Clone, Copy, PartialEq, Eq, Debug)]
pub struct SealedHeader {
    /// The shared value.
    pub value: u64,
    /// How many frames the run has, which is how many were written.
    pub count: u64,
}

/// A frame that a drain took out.
#[derive(Clone, Copy, PartialEq, Eq, Debug)]
pub struct Record {
    pub key: Key,
    pub payload: u64,
    /// The shared value, with the last frame of its run.
    pub last: Option<u64>,
    pub overflow: bool,
}

impl Record {
    /// A record from the numbers that a drain writes.
    pub fn of(numbers: &[u64; RECORD]) -> Record {
        let [slot, generation, payload, last, value, overflow] = *numbers;
        Record { key: Key::new(slot, generation), payload, last: (last != 0).then_some(value), overflow: overflow != 0 }
    }
}

/// A frame that a [compression in slot order](crate::Arena::compress_with) moved: the key that it had, and the key that it
/// has now.
#[derive(Clone, Copy, PartialEq, Eq, Debug)]
pub struct Moved {
    pub old: Key,
    pub new: Key,
}

impl Moved {
    /// A pair of keys from the numbers that a compression in slot order writes.
    pub fn of(numbers: &[u64; PAIR]) -> Moved {
        let [slot, generation, new_slot, new_generation] = *numbers;
        Moved { old: Key::new(slot, generation), new: Key::new(new_slot, new_generation) }
    }
}

/// What [compress_with_into](crate::Arena::compress_with_into) answers.
#[derive(Clone, Copy, PartialEq, Eq, Debug)]
pub struct Compressed {
    /// How many pairs of keys were written, which is how many frames there are.
    pub count: u64,
    pub overflow: bool,
}
