//! A study moved to another recorder's tables, beside the Rust's own `transfer_canonical_reallocating`: the pairs that its closure is
//! handed give the new keys. Both recorders go on from there, on either side, and are compared.

use crate::calls::Name;
use crate::pair::{Fault, P0, Pair, Picture, same};
use crate::whole::by_payload;
use doorsedge::{Arena, FRAME, HEADER, Key, Refusal};
use std::num::NonZeroU32;
use triple_arena::traits::*;

/// What the oracle's closure was handed: the old pointer, payload and size, the new pointer.
type Told = Vec<(P0, Picture, P0)>;

impl Pair {
    /// Moves the study to the other recorder's tables, and compares all frames there.
    pub fn transfer(&mut self, generation: u32) -> Result<Option<Refusal>, String> {
        let mut other = self.other.take().expect("there are two recorders");
        let said = self.transfer_to(&mut other, generation);
        self.other = Some(other);
        let refusal = said?;
        if refusal.is_none() {
            self.change_tables();
            let said = self.compare();
            self.change_tables();
            said?;
        }
        Ok(refusal)
    }

    /// Where the Rust would have to reallocate its elements, the archive must say 5, and 6 where only its shared values; no generation
    /// of the Rust is 0. Neither side has changed after a refusal.
    fn transfer_to(&mut self, other: &mut Pair, generation: u32) -> Result<Option<Refusal>, String> {
        let (mut source, mut target, mut told) = (self.oracle.exact_copy(), other.oracle.exact_copy(), vec![]);
        let wanted = match NonZeroU32::new(generation) {
            None => Err(Refusal::OutOfRange),
            Some(generation) => {
                let map = |old, frame: triple_arena::InvalidationOption<Picture>, new| {
                    let picture = frame.allow();
                    told.push((old, picture, new));
                    picture
                };
                let moved = target.transfer_canonical_reallocating(generation, &mut source, map, |value| value);
                moved.map_err(|error| format!("the oracle's move: {error:?}"))?;
                match (target.capacity() > other.oracle.capacity(), target.capacity_shared()) {
                    (true, _) => Err(Refusal::NoElement),
                    (_, shared) if shared > other.oracle.capacity_shared() => Err(Refusal::NoShared),
                    _ => Ok(false),
                }
            }
        };
        let before = (self.port.clone(), other.port.clone());
        let said = other.port.transfer_canonical(generation, &mut self.port);
        same("move", said, wanted)?;
        if let Err(refusal) = said {
            same("the tables of a refused move", (&self.port, &other.port), (&before.0, &before.1))?;
            return Ok(Some(refusal));
        }
        match self.fault {
            Fault::MovedElsewhere => begin_elsewhere(&mut other.port),
            Fault::SourceKept => keep_generation(&mut self.port, &before.0),
            _ => (),
        }
        (self.oracle, other.oracle) = (source, target);
        self.learn_moved(other, generation, &told)?;
        self.same_left(&before.0)?;
        Ok(None)
    }

    /// A name stands for the frame in its new tables from there on; the target's own names are forgotten, with their keys.
    fn learn_moved(&mut self, other: &mut Pair, generation: u32, told: &Told) -> Result<(), String> {
        same("the target's generation", other.port.generation(), generation.into())?;
        let live = other.port.elems().chunks(FRAME).zip(1..).filter(|(row, _)| row[0] != 0);
        let keys: Vec<(u64, Key)> = live.map(|(row, slot)| (row[1], Key::new(slot, row[0]))).collect();
        same("frames that moved", keys.len(), told.len())?;
        let keys = by_payload(keys)?;
        other.frames = vec![None; self.frames.len()];
        other.sealed = self.sealed.clone();
        other.before = None;
        other.forget();
        for (old, picture, new) in told {
            let Some(key) = keys.get(&picture.0) else { return Err(format!("{picture:?} is not in the target")) };
            same("a moved frame's generation", key.generation(), generation.into())?;
            if self.ordered {
                same("a moved frame's slot", key.slot(), new.inx().get() as u64)?;
            }
            let name: Name = self.name_of_ptr(*old);
            other.learn(name, *key, *new, *picture)?;
        }
        same("the target's extent", other.port.head()[1], told.len() as u64)?;
        other.same_headers()
    }

    /// The source is left as a clear leaves it, and an empty one as it was. The oracle's slots are then on its free chains, so it
    /// is cleared too: from there on both sides give the same slots.
    fn same_left(&mut self, before: &Arena) -> Result<(), String> {
        same("frames left", (self.oracle.len(), self.oracle.len_shared()), (0, 0))?;
        let mut wanted = before.clone();
        if !before.is_empty() {
            same("overflow", wanted.clear(), Ok(false))?;
            self.oracle.clear().allow();
            self.extent = 0;
        }
        same("the source of a move", &self.port, &wanted)
    }
}

/// The fault [Fault::MovedElsewhere]: payloads and sizes of the run one slot on, the state stays sound.
fn begin_elsewhere(port: &mut Arena) {
    let (head, mut elems, shared) = (*port.head(), port.elems().to_vec(), port.shared().to_vec());
    let counts = shared.chunks(HEADER).map(|row| row[0] as usize);
    let mut first = 0;
    for count in counts.take_while(|count| *count > 0) {
        if count > 1 {
            let rows: Vec<u64> = elems[first * FRAME..][..count * FRAME].to_vec();
            for (at, row) in rows.chunks(FRAME).enumerate() {
                let to = (first + (at + count - 1) % count) * FRAME;
                (elems[to + 1], elems[to + 5]) = (row[1], row[5]);
            }
            break;
        }
        first += count;
    }
    *port = Arena::restored(head, elems, shared).unwrap();
}

/// The fault [Fault::SourceKept].
fn keep_generation(port: &mut Arena, before: &Arena) {
    let (mut head, elems, shared) = (*port.head(), port.elems().to_vec(), port.shared().to_vec());
    head[8] = before.generation();
    *port = Arena::restored(head, elems, shared).unwrap();
}
