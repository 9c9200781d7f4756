//! Head, keys, refusals, and how the numbers lie in the tables.

/// Numbers to a head.
pub const HEAD: usize = 13;
/// Numbers to an element slot: generation, payload, class, previous, next, size.
pub const FRAME: usize = 6;
/// Numbers to a shared slot: count, value, next free, mark, total.
pub const HEADER: usize = 5;
/// Numbers to a place that a listing writes: slot, generation.
pub const PLACE: usize = 2;
/// Numbers to a place that a seal writes: slot, generation, payload.
pub const SEAL_PLACE: usize = 3;
/// Numbers to a drain's record: slot, generation, payload, last, value, overflow.
pub const RECORD: usize = 6;
/// Numbers to a pair of keys that a compression in slot order writes: old slot and generation, new slot and generation.
pub const PAIR: usize = 4;

pub const GENERATION: usize = 0;
pub const PAYLOAD: usize = 1;
pub const CLASS: usize = 2;
pub const PREVIOUS: usize = 3;
pub const NEXT: usize = 4;
/// The frame's bytes.
pub const SIZE: usize = 5;

pub const COUNT: usize = 0;
pub const VALUE: usize = 1;
pub const NEXT_FREE: usize = 2;
/// 1 where the run is sealed, else 0.
pub const MARK: usize = 3;
/// The bytes of the run's frames, summed.
pub const TOTAL: usize = 4;

pub const MOST_SLOTS: u64 = 65_536;
pub const LAST_GENERATION: u64 = 4_294_967_295;
/// The greatest size of a frame.
pub const MOST_BYTES: u64 = 4_294_967_295;

#[derive(Clone, Copy, PartialEq, Eq, Debug)]
pub struct Pool {
    pub capacity: u64,
    pub extent: u64,
    pub root: u64,
    pub live: u64,
}

#[derive(Clone, Copy, PartialEq, Eq, Debug)]
pub struct Head {
    pub elems: Pool,
    pub shared: Pool,
    pub generation: u64,
    pub undo: Memory,
}

/// What is needed to take the last union back: document 02, ticket 7. Zeros where there is nothing to undo.
#[derive(Clone, Copy, PartialEq, Eq, Debug, Default)]
pub struct Memory {
    /// The slot of the key whose run was kept.
    pub kept: u64,
    /// The slot of the other key.
    pub gone: u64,
    /// How many frames changed their run.
    pub moved: u64,
    /// The shared value that was removed.
    pub value: u64,
}

#[derive(Clone, Copy, PartialEq, Eq, Debug)]
pub struct Key {
    pub slot: u64,
    pub generation: u64,
}

/// Why a key is dead: document 02, ticket 5. Tested in this order.
#[derive(Clone, Copy, PartialEq, Eq, Debug)]
pub enum Cause {
    /// The slot is 0 or past the extent.
    NoSlot = 1,
    FreeSlot = 2,
    OtherGeneration = 3,
}

#[derive(Clone, Copy, PartialEq, Eq, Debug)]
pub enum Refusal {
    Shape,
    Unsound,
    Dead(Cause),
    SameClass,
    NoElement,
    NoShared,
    Short,
    NoFile,
    Nothing,
    OtherVersion,
    Sealed,
    OutOfRange,
}

impl Refusal {
    /// Numbers given on refusal.
    pub const fn number(self) -> u64 {
        match self {
            Refusal::Shape => 1,
            Refusal::Unsound => 2,
            Refusal::Dead(_) => 3,
            Refusal::SameClass => 4,
            Refusal::NoElement => 5,
            Refusal::NoShared => 6,
            Refusal::Short => 7,
            Refusal::NoFile => 9,
            Refusal::Nothing => 10,
            Refusal::OtherVersion => 11,
            Refusal::Sealed => 12,
            Refusal::OutOfRange => 13,
        }
    }

    /// What a C entry returns: the number in the low eight bits, and above them the cause of 3.
    pub const fn result(self) -> u64 {
        match self {
            Refusal::Dead(cause) => self.number() + 256 * cause as u64,
            _ => self.number(),
        }
    }
}

impl Pool {
    pub fn fresh(capacity: u64) -> Pool {
        Pool { capacity, extent: 0, root: 0, live: 0 }
    }

    /// Refusals 5 and 6: no slot can be taken.
    pub fn is_full(&self) -> bool {
        self.root == 0 && self.extent == self.capacity
    }
}

impl Head {
    pub fn fresh(elems: u64, shared: u64) -> Head {
        Head { elems: Pool::fresh(elems), shared: Pool::fresh(shared), generation: 1, undo: Memory::default() }
    }

    pub fn of(numbers: &[u64; HEAD]) -> Head {
        let [capacity, extent, root, live, capacity1, extent1, root1, live1, generation, kept, gone, moved, value] =
            *numbers;
        Head {
            elems: Pool { capacity, extent, root, live },
            shared: Pool { capacity: capacity1, extent: extent1, root: root1, live: live1 },
            generation,
            undo: Memory { kept, gone, moved, value },
        }
    }

    pub fn numbers(&self) -> [u64; HEAD] {
        let (e, s, m) = (self.elems, self.shared, self.undo);
        let pools = [e.capacity, e.extent, e.root, e.live, s.capacity, s.extent, s.root, s.live];
        let mut numbers = [0; HEAD];
        numbers[..8].copy_from_slice(&pools);
        numbers[8..].copy_from_slice(&[self.generation, m.kept, m.gone, m.moved, m.value]);
        numbers
    }

    /// What a compression gives to all frames: 1 with a reset, which says no overflow, else the next generation.
    pub fn next_generation(&mut self, reset: bool) -> bool {
        if reset {
            self.generation = 1;
            return false;
        }
        self.raise()
    }

    /// After a compression: the live slots come first, and none below them is free.
    pub fn pack(&mut self) {
        for pool in [&mut self.elems, &mut self.shared] {
            pool.extent = pool.live;
            pool.root = 0;
        }
    }

    /// After the last generation comes 1. Answers whether it overflowed.
    pub fn raise(&mut self) -> bool {
        let over = self.generation == LAST_GENERATION;
        self.generation = if over { 1 } else { self.generation + 1 };
        over
    }
}

/// A head's numbers where there is nothing to undo.
pub fn head(numbers: [u64; HEAD - 4]) -> [u64; HEAD] {
    let mut head = [0; HEAD];
    head[..HEAD - 4].copy_from_slice(&numbers);
    head
}

/// Refusals 1: a capacity is in its range and the table as long as it asks.
pub fn fits(capacity: u64, width: usize, length: usize) -> bool {
    (1..=MOST_SLOTS).contains(&capacity) && length as u64 == capacity * width as u64
}
