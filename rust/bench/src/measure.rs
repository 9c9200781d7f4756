//! Times: the least of many rounds, the sides in turn within each round, so that all see the same machine.

use crate::sides::{BYTES, Bed, Side};
use model::door::Call;
use model::layout::{NEXT, PREVIOUS};
use model::{FRAME, HEAD, Head, Key, Rows};
use std::time::{Duration, Instant};

/// Calls that are timed together, on a state to which they are made one after another.
pub struct Batch {
    pub name: &'static str,
    pub bed: Bed,
    pub calls: Vec<Call>,
    /// What one time is divided by: the calls, or the frames that one call goes through.
    pub per: usize,
}

impl Batch {
    /// Whether the archive has the entry.
    pub fn is_there(&self) -> bool {
        let name = self.calls.first().map_or("check", |call| call.name().0);
        !doorsedge::sys::MISSING.iter().any(|entry| entry.strip_prefix("doorsedge_") == Some(name))
    }
}

/// Nanoseconds for each side; none for the archive where it lacks the entry.
pub fn least(batch: &Batch, sides: &[Side], budget: Duration) -> Vec<f64> {
    least_of(12, batch, sides, budget)
}

/// The same with fewer rounds at least, where one takes long.
pub fn least_of(least: usize, batch: &Batch, sides: &[Side], budget: Duration) -> Vec<f64> {
    let mut best = vec![f64::MAX; sides.len()];
    let mut bed = batch.bed.restored();
    let start = Instant::now();
    let mut rounds = 0;
    while rounds < least || start.elapsed() < budget && rounds < 2_000 {
        // who comes first changes, since what a side leaves in the caches helps the next
        for at in (0..sides.len()).map(|i| (i + rounds) % sides.len()) {
            let (best, side) = (&mut best[at], sides[at]);
            if side == Side::Archive && !batch.is_there() {
                *best = f64::NAN;
                continue;
            }
            bed.restore(&batch.bed, side);
            let now = Instant::now();
            bed.make(side, &batch.calls);
            *best = best.min(now.elapsed().as_nanos() as f64 / batch.per as f64);
        }
        rounds += 1;
    }
    best
}

fn keys(bed: &Bed) -> Vec<Key> {
    bed.host.keys()
}

/// One batch for each call on a single frame or a small ring: half of the slots in rings of four.
pub fn single_calls(n: usize, most: usize) -> Vec<Batch> {
    let bed = Bed::new(n, n / 2, 4);
    let keys = keys(&bed);
    let runs = keys.len() / 4;
    let count = most.min(runs / 2).max(1);
    // frames of different runs, spread over the table
    let at = |i: usize| keys[(i * 37) % runs];
    let one = |name, call: &dyn Fn(usize) -> Call, count: usize| Batch {
        name,
        bed: bed.restored(),
        calls: (0..count).map(call).collect(),
        per: count,
    };
    let batch = |name, call: &dyn Fn(usize) -> Call| one(name, call, count);
    let pair = |i: usize| (keys[2 * i % runs], keys[(2 * i + 1) % runs + runs]);
    let four = |i: usize| [0, 1, 2, 3].map(|j| keys[(4 * i + j) % runs]);
    let payload = |i: usize| 1_000 + i as u64;
    let mut joined = bed.restored();
    for side in [Side::Rows, Side::Oracle] {
        joined.make(side, &[Call::Union(pair(0).0, pair(0).1)]);
    }
    vec![
        batch("lookup", &|i| Call::Lookup(at(i))),
        batch("len_surject", &|i| Call::LenSurject(at(i))),
        batch("in_same_surject", &|i| Call::InSameSurject(at(i), at(i + 1))),
        batch("get", &|i| Call::Get(at(i))),
        batch("get_shared", &|i| Call::GetShared(at(i))),
        batch("get_size", &|i| Call::GetSize(at(i))),
        batch("get_total", &|i| Call::GetTotal(at(i))),
        batch("set", &|i| Call::Set(at(i), payload(i))),
        batch("set_shared", &|i| Call::SetShared(at(i), payload(i))),
        batch("exchange_shared4", &|i| Call::ExchangeShared4(four(i), [1, 2, 3, 4])),
        batch("insert_surject", &|i| Call::InsertSurject { payload: payload(i), value: 7, size: BYTES }),
        batch("insert", &|i| Call::Insert(at(i), payload(i), BYTES)),
        one("union (4 + 4)", &|i| Call::Union(pair(i).0, pair(i).1), count.min(runs / 4).max(1)),
        Batch { name: "undo (4 + 4), once", bed: joined, calls: vec![Call::Undo], per: 1 },
        batch("remove_element", &|i| Call::RemoveElement(keys[i % runs])),
        batch("remove_shared (4)", &|i| Call::RemoveShared(keys[i % runs])),
        batch("list (4)", &|i| Call::List(at(i))),
        batch("seal (4)", &|i| Call::Seal(keys[i % runs])),
        batch("drain (4)", &|i| Call::Drain(keys[i % runs])),
    ]
}

/// What a finalizer did without a seal: a count, then the list, beside "seal (4)". Times are for both calls.
pub fn count_and_list(n: usize, most: usize) -> Batch {
    let bed = Bed::new(n, n / 2, 4);
    let keys = keys(&bed);
    let count = most.min(keys.len() / 8).max(1);
    let calls = keys[..count].iter().flat_map(|&k| [Call::LenSurject(k), Call::List(k)]).collect();
    Batch { name: "len_surject, then list (4)", bed, calls, per: count }
}

/// Each union taken back, beside "union (4 + 4)": times are for both calls. Where the rows arena or the oracle is timed, which check
/// nothing, it is the two calls alone.
pub fn union_and_undo(n: usize, most: usize) -> Batch {
    let bed = Bed::new(n, n / 2, 4);
    let keys = keys(&bed);
    let runs = keys.len() / 4;
    let count = most.min(runs / 4).max(1);
    let pair = |i: usize| Call::Union(keys[2 * i % runs], keys[(2 * i + 1) % runs + runs]);
    Batch {
        name: "union, then undo (4 + 4)",
        bed,
        calls: (0..count).flat_map(|i| [pair(i), Call::Undo]).collect(),
        per: count,
    }
}

/// One batch for each call that goes through a whole table: times are for each frame.
pub fn whole_calls(n: usize) -> Vec<Batch> {
    let rings = || Bed::new(n, n, 4);
    let ring = || Bed::new(n, n, n);
    let first = Key { slot: 1, generation: 1 };
    let batch = |name, bed: Bed, call| Batch { name, bed, calls: vec![call], per: n };
    vec![
        batch("list, one ring", ring(), Call::List(first)),
        batch("seal, one ring", ring(), Call::Seal(first)),
        batch("drain, one ring", ring(), Call::Drain(first)),
        batch("remove_shared, one ring", ring(), Call::RemoveShared(first)),
        batch("undo, halves of one ring", halves(n), Call::Undo),
        batch("drain_all", rings(), Call::DrainAll),
        batch("clear", rings(), Call::Clear),
        batch("compress_canonical", rings(), Call::CompressCanonical { reset: 0 }),
        batch("compress_with", rings(), Call::CompressWith { reset: 0 }),
    ]
}

/// Full tables with one ring, of two equal ones that were joined, which can be undone.
fn halves(n: usize) -> Bed {
    let mut bed = Bed::new(n, n, n / 2);
    let key = |slot: u64| Key { slot, generation: 1 };
    for side in [Side::Rows, Side::Oracle] {
        bed.make(side, &[Call::Union(key(1), key(2))]);
    }
    bed
}

/// Compression of full tables: rings of one, one ring in shuffled order, and the longest follow. Times are for each frame.
pub fn compressions(n: usize) -> Vec<Batch> {
    let batch = |name, bed| Batch { name, bed, calls: vec![Call::CompressCanonical { reset: 0 }], per: n };
    vec![
        batch("rings of one", Bed::new(n, n, 1)),
        batch("one ring, shuffled", shuffled_ring(n)),
        batch("headers one on", Bed::headers_one_on(n)),
    ]
}

/// Compression in slot order: rings of one of which the first is gone, so that every header moves, which takes the oracle the
/// square of their number; rings of four of which every other one is gone; and one ring, whose header stays. Times are for
/// each frame that moves.
pub fn ordered_compressions(n: usize) -> Vec<Batch> {
    let batch = |name, bed: Bed| {
        let per = bed.host.head[3] as usize;
        Batch { name, bed, calls: vec![Call::CompressWith { reset: 0 }], per }
    };
    vec![
        batch("rings of one, first gone", Bed::with_holes(n, 1, n)),
        batch("rings of four, half gone", Bed::with_holes(n, 4, 2)),
        batch("one ring, shuffled", shuffled_ring(n)),
    ]
}

pub fn shuffled_ring(n: usize) -> Bed {
    let mut seed = 88_172_645_463_325_252;
    Bed::one_ring(n, |most| {
        next(&mut seed);
        seed as usize % most
    })
}

fn next(seed: &mut u64) {
    *seed ^= *seed << 13;
    *seed ^= *seed >> 7;
    *seed ^= *seed << 17;
}

/// Runs of one joined two by two, four by four and so on, to one ring: times are for each union.
pub fn unions(n: usize) -> Batch {
    let bed = Bed::new(n, n, 1);
    let key = |i: usize| Key { slot: i as u64 + 1, generation: 1 };
    let mut calls = vec![];
    let mut gap = 1;
    while gap < n {
        calls.extend((0..n - gap).step_by(2 * gap).map(|i| Call::Union(key(i), key(i + gap))));
        gap *= 2;
    }
    let per = calls.len();
    Batch { name: "union to one ring", bed, calls, per }
}

/// The check on full tables: rings of one, rings of four, one ring, in order and shuffled; one ring of two that were joined, without
/// what the head remembers of that and with it, which is the most that it can be; on tables with half of the slots on the free
/// chains, in order and shuffled; and on fresh tables.
pub fn checks(n: usize) -> Vec<Batch> {
    let batch = |name, bed, shuffled: bool| {
        // a check of few slots takes about as long as reading the clock
        let count = 2_048_usize.div_ceil(n);
        let mut batch = Batch { name, bed, calls: vec![Call::Check; count], per: count };
        if shuffled {
            shuffle(&mut batch.bed);
        }
        batch
    };
    let freed = |name, shuffled| {
        let mut batch = batch(name, Bed::new(n, n, 1), false);
        free_half(&mut batch.bed, shuffled);
        batch
    };
    let halves = |name, shuffled, remembered: bool| {
        let mut batch = batch(name, halves(n), shuffled);
        if !remembered {
            batch.bed.host.head[HEAD - 4..].fill(0);
        }
        batch
    };
    vec![
        batch("fresh", Bed::new(n, 0, 1), false),
        batch("rings of one", Bed::new(n, n, 1), false),
        batch("rings of one, shuffled", Bed::new(n, n, 1), true),
        batch("rings of four, shuffled", Bed::new(n, n, 4), true),
        batch("one ring", Bed::new(n, n, n), false),
        batch("one ring, shuffled", Bed::new(n, n, n), true),
        halves("joined ring", false, false),
        halves("joined ring, to undo", false, true),
        halves("joined ring, shuffled", true, false),
        halves("the same, to undo", true, true),
        freed("half free", false),
        freed("half free, shuffled", true),
    ]
}

/// The same rings over slots in another order. Only the numbers are changed: the oracle has no check to time.
fn shuffle(bed: &mut Bed) {
    let n = bed.host.head[1] as usize;
    let mut to: Vec<usize> = (0..n).collect();
    mix(&mut to);
    let old = bed.host.elems.clone();
    let moved = |slot: u64| to[slot as usize - 1] as u64 + 1;
    let [kept, gone, ..] = &mut bed.host.head[HEAD - 4..] else { unreachable!() };
    if *kept != 0 {
        (*kept, *gone) = (moved(*kept), moved(*gone));
    }
    for (row, &at) in old.chunks(FRAME).zip(&to) {
        let new = &mut bed.host.elems[at * FRAME..][..FRAME];
        new.copy_from_slice(row);
        (new[PREVIOUS], new[NEXT]) = (moved(row[PREVIOUS]), moved(row[NEXT]));
    }
}

fn mix<T>(items: &mut [T]) {
    let mut seed = 88_172_645_463_325_252u64;
    for i in (1..items.len()).rev() {
        next(&mut seed);
        items.swap(i, seed as usize % (i + 1));
    }
}

/// Every other frame removed, and so its run. Only the numbers are changed.
fn free_half(bed: &mut Bed, shuffled: bool) {
    let host = &mut bed.host;
    let mut slots: Vec<u64> = (1..=host.head[1]).step_by(2).collect();
    if shuffled {
        mix(&mut slots);
    }
    let mut head = Head::of(&host.head);
    let mut rows = Rows { head: &mut head, elems: &mut host.elems, shared: &mut host.shared };
    for slot in slots {
        rows.remove_element(Key { slot, generation: 1 }).unwrap();
    }
    host.head = head.numbers();
}
