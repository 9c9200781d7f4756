//! Document 02's ticket 12 sentence by sentence, on moves of every state that short sequences of calls leave, to tables of every capacity
//! around that hold a study of their own.

use model::door::{Call, run};
use model::layout::{CLASS, COUNT, LAST_GENERATION, MARK, NEXT, PAYLOAD, PREVIOUS, SIZE, TOTAL, VALUE};
use model::{FRAME, HEAD, HEADER, Key, SEAL_PLACE, Study, sets, transfer};

#[derive(Clone, PartialEq, Eq, Debug)]
struct Host {
    head: [u64; HEAD],
    elems: Vec<u64>,
    shared: Vec<u64>,
}

impl Host {
    fn fresh(elems: u64, shared: u64, generation: u64) -> Host {
        let mut head = [0; HEAD];
        (head[0], head[4], head[8]) = (elems, shared, generation);
        Host { head, elems: vec![0; elems as usize * FRAME], shared: vec![0; shared as usize * HEADER] }
    }

    fn call(&mut self, call: Call) -> u64 {
        let lent = &mut [0; 4 * SEAL_PLACE];
        run(sets::sound, &mut self.head, &mut self.elems, &mut self.shared, &call, lent, &mut [0; 4])
    }

    fn lent(&mut self) -> Study<'_> {
        Study { head: &mut self.head, elems: &mut self.elems, shared: &mut self.shared }
    }

    /// The number, and what `out` has then.
    fn transfer_from(&mut self, generation: u32, source: &mut Host) -> (u64, u64) {
        let mut out = [77];
        (transfer::run(sets::sound, self.lent(), generation, source.lent(), &mut out), out[0])
    }

    fn keys(&self) -> Vec<Key> {
        let rows = self.elems.chunks(FRAME).zip(1..);
        rows.filter(|(row, _)| row[0] != 0).map(|(row, slot)| Key { slot, generation: row[0] }).collect()
    }

    fn field(&self, slot: u64, field: usize) -> u64 {
        self.elems[(slot as usize - 1) * FRAME + field]
    }

    fn header(&self, slot: u64, field: usize) -> u64 {
        self.shared[(slot as usize - 1) * HEADER + field]
    }

    /// The old slots in their new order: each ring from its lowest slot, the rings in the order of these.
    fn order(&self) -> Vec<u64> {
        let mut order = vec![];
        for k in self.keys() {
            let mut slot = k.slot;
            while !order.contains(&slot) {
                order.push(slot);
                slot = self.field(slot, NEXT);
            }
        }
        order
    }
}

/// Every state after up to `more` calls that are accepted, this one included.
fn each_after(host: &Host, more: usize, seen: &mut dyn FnMut(&Host)) {
    seen(host);
    if more == 0 {
        return;
    }
    let keys = host.keys();
    let mut calls = vec![Call::InsertSurject { payload: 7, value: more as u64, size: 9 }];
    for &k in &keys {
        calls.extend([Call::Insert(k, more as u64, u32::MAX), Call::RemoveElement(k), Call::Seal(k)]);
        calls.extend(keys.iter().map(|&j| Call::Union(j, k)));
    }
    for call in calls {
        let mut next = host.clone();
        if next.call(call) == 0 {
            each_after(&next, more - 1, seen);
        }
    }
}

/// Whether each frame of the target is the source's frame in that place: payload and size its own, and the neighbours those of its
/// neighbours; and its header that of its run.
fn is_moved(source: &Host, target: &Host, generation: u32) -> bool {
    let order = source.order();
    let new = |old: u64| order.iter().position(|slot| *slot == old).unwrap() as u64 + 1;
    let frames = (1..).zip(&order).all(|(slot, &old)| {
        let links = [PREVIOUS, NEXT].iter().all(|link| target.field(slot, *link) == new(source.field(old, *link)));
        let own = [PAYLOAD, SIZE].iter().all(|field| target.field(slot, *field) == source.field(old, *field));
        let (class, was) = (target.field(slot, CLASS), source.field(old, CLASS));
        let header = [COUNT, VALUE, MARK, TOTAL].iter().all(|f| target.header(class, *f) == source.header(was, *f));
        let others = (1..=order.len() as u64).filter(|other| target.field(*other, CLASS) == class).count();
        target.field(slot, 0) == u64::from(generation)
            && links
            && own
            && header
            && others as u64 == source.header(was, COUNT)
    });
    // classes are numbered in the order of their runs
    let classes: Vec<u64> = (1..=order.len() as u64).map(|slot| target.field(slot, CLASS)).collect();
    let past = target.elems[order.len() * FRAME..].iter().chain(&target.shared[source.head[7] as usize * HEADER..]);
    frames && classes.is_sorted() && past.into_iter().all(|number| *number == 0)
}

#[test]
fn every_sentence() {
    let (mut accepted, mut through, mut empty) = (0, 0, 0);
    let start = Host::fresh(4, 4, LAST_GENERATION - 2);
    each_after(&start, 6, &mut |source| {
        let (frames, runs) = (source.head[3], source.head[7]);
        for (elems, shared) in [(frames, runs), (frames + 1, runs + 2), (4, 4)] {
            let mut own = Host::fresh(elems.max(1), shared.max(1), 5);
            assert_eq!(own.call(Call::InsertSurject { payload: 1, value: 2, size: 3 }), 0);
            for generation in [1, u32::MAX] {
                let (mut left, mut target) = (source.clone(), own.clone());
                let over = u64::from(source.head[8] == LAST_GENERATION && frames > 0);
                assert_eq!(target.transfer_from(generation, &mut left), (0, over));
                assert!(is_moved(source, &target, generation), "{source:?} {target:?}");
                let (e, s) = (elems.max(1), shared.max(1));
                assert_eq!(target.head, [e, frames, 0, frames, s, runs, 0, runs, generation.into(), 0, 0, 0, 0]);
                assert_eq!(target.call(Call::Check), 0);
                let mut cleared = source.clone();
                if frames > 0 {
                    assert_eq!(cleared.call(Call::Clear), 0);
                }
                assert_eq!(left, cleared);
                let order = source.order();
                (accepted, empty) = (accepted + 1, empty + u64::from(frames == 0));
                through += u64::from(!order.is_sorted());
            }
        }
        refused(source);
    });
    assert!(accepted > 10_000 && through > 1_000 && empty > 10, "{accepted} {through} {empty}");
}

/// One slot too few, on either side or on both; a generation of 0; states that are not sound: nothing changes.
fn refused(source: &Host) {
    let (frames, runs) = (source.head[3], source.head[7]);
    let mut broken = source.clone();
    broken.head[3] += 1;
    let cases = [
        (frames - frames.min(1), runs + 1, 1, source, 5),
        (frames + 1, runs - runs.min(1), 1, source, 6),
        (frames - frames.min(1), runs - runs.min(1), 1, source, 5),
        (frames - frames.min(1), runs + 1, 0, source, 13),
        (frames - frames.min(1), runs + 1, 0, &broken, 2),
    ];
    for (elems, shared, generation, source, number) in cases {
        let (mut left, mut target) = (source.clone(), Host::fresh(elems, shared, 5));
        let wanted = if elems == 0 || shared == 0 { 1 } else { number };
        // without frames there is always room
        let wanted = if frames == 0 && [5, 6].contains(&wanted) { 0 } else { wanted };
        if wanted != 0 {
            assert_eq!(target.transfer_from(generation, &mut left), (wanted, 77));
            assert_eq!((left, target), (source.clone(), Host::fresh(elems, shared, 5)));
        }
    }
}
