//! Ticket 7 of document 02: heads that remember a union that was made, one that was not, or what is no union. What the archive says
//! of each is compared with the model, which takes the union back and makes it again.

use crate::Host;
use crate::random::{Random, any_buffer, any_call, begun};
use model::door::Call;
use model::layout::{CLASS, COUNT, MARK, NEXT};
use model::{FRAME, HEAD, HEADER, Key};
use std::collections::BTreeMap;

/// Where the head's memory begins.
const UNDO: usize = HEAD - 4;

/// What the head was made to remember, with how many states it left sound, and how many not.
pub type Tally = BTreeMap<&'static str, [u64; 2]>;

/// Panics at the first difference.
pub fn compare(cases: u64, seed: u64) -> Tally {
    let mut r = Random::new(seed);
    let mut tally = Tally::new();
    let mut grown = begun(&mut r);
    while tally.values().flatten().sum::<u64>() < cases {
        grow(&mut grown, &mut r);
        if grown.head[UNDO] == 0 && !r.one_in(16) {
            continue;
        }
        let mut host = grown.clone();
        let what = forged(&mut host, &mut r);
        let sound = host.call(Call::Check, &[]).number == 0;
        tally.entry(what).or_default()[usize::from(!sound)] += 1;
        // and each is called: refused 2, or taken back, which the union then makes again
        let present = host.clone();
        let Some((j, k)) = remembered(&host) else { continue };
        if host.call(Call::Undo, &[]).number == 0 {
            assert_eq!(host.head[UNDO..], [0; 4]);
            assert_eq!(host.clone().call(Call::Undo, &[]).number, 10);
            assert_eq!(host.call(Call::Union(j, k), &[]).number, 0);
            assert_eq!(host, present);
        }
    }
    tally
}

/// A call more, often a union, and now and then a new start.
fn grow(grown: &mut Host, r: &mut Random) {
    let keys = grown.keys();
    let call = match r.below(4) {
        0 if !keys.is_empty() => Call::Union(r.of(&keys), r.of(&keys)),
        _ => any_call(grown, r),
    };
    let lent = any_buffer(grown, &call, r);
    grown.call(call, &lent);
    if r.one_in(80) {
        *grown = begun(r);
    }
}

/// The two keys that the head remembers, if it names frames.
fn remembered(host: &Host) -> Option<(Key, Key)> {
    let key = |slot: u64| host.keys().into_iter().find(|key| key.slot == slot);
    Some((key(host.head[UNDO])?, key(host.head[UNDO + 1])?))
}

fn next(host: &Host, slot: u64) -> u64 {
    host.elems[(slot as usize - 1) * FRAME + NEXT]
}

/// Changes what the head remembers, or what that is about, and says how.
pub(crate) fn forged(host: &mut Host, r: &mut Random) -> &'static str {
    let keys = host.keys();
    let way = r.below(13);
    match way {
        0 => "as it was",
        1..=7 => renumbered(host, way, r),
        8 if !keys.is_empty() => {
            let c = host.elems[(r.of(&keys).slot as usize - 1) * FRAME + CLASS];
            host.shared[(c as usize - 1) * HEADER + MARK] = 1;
            "a run sealed"
        }
        9 if !keys.is_empty() => {
            call_unseen(host, Call::RemoveElement(r.of(&keys)));
            "a frame removed, and yet remembered"
        }
        10 => {
            call_unseen(host, Call::InsertSurject { payload: 1, value: 2, size: 3 });
            "a run begun, and yet remembered"
        }
        _ if keys.is_empty() => "as it was",
        _ => conjured(host, r.of(&keys).slot, way == 11, r),
    }
}

/// The call, and what the head remembered put back after it.
fn call_unseen(host: &mut Host, call: Call) {
    let head = host.head;
    host.call(call, &[]);
    host.head[UNDO..].copy_from_slice(&head[UNDO..]);
}

/// Other numbers in what the head remembers.
fn renumbered(host: &mut Host, way: u64, r: &mut Random) -> &'static str {
    let (any, which) = (r.odd(host.head[0] + 2), r.below(4) as usize);
    let memory = &mut host.head[UNDO..];
    match way {
        1 => {
            memory[3] = any;
            "another value"
        }
        2 => {
            memory.swap(0, 1);
            "the keys exchanged"
        }
        3 => {
            memory[2] = r.of(&[0, memory[2] + 1, memory[2].wrapping_sub(1), any]);
            "another number moved"
        }
        4 => {
            memory[0] = any;
            "another kept slot"
        }
        5 => {
            memory[1] = any;
            "another gone slot"
        }
        6 => {
            memory[which] = 0;
            "one number 0"
        }
        _ => {
            memory.fill_with(|| r.odd(any % 9 + 2));
            "any numbers"
        }
    }
}

/// A union that was perhaps never made, of frames in the ring of this slot: right where it leaves no larger part, the run is not
/// sealed and a shared slot is free; or with one number wrong.
fn conjured(host: &mut Host, kept: u64, right: bool, r: &mut Random) -> &'static str {
    let class = host.elems[(kept as usize - 1) * FRAME + CLASS];
    let count = host.shared[(class as usize - 1) * HEADER + COUNT];
    let moved = 1 + r.below(if right { (count / 2).max(1) } else { count + 1 });
    let gone = (0..moved).fold(kept, |slot, _| next(host, slot));
    host.head[UNDO..].copy_from_slice(&[kept, gone, moved, r.odd(50)]);
    if right { "a union never made, its numbers right" } else { "a union never made, too many moved" }
}
