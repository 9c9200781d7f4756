//! Document 02's ticket 10 sentence by sentence, on copies of every state that short sequences of calls leave, to tables of every
//! capacity around.

use model::door::{Call, run};
use model::layout::{NEXT, NEXT_FREE};
use model::{FRAME, HEAD, HEADER, Key, SEAL_PLACE, Source, copy, sets};

#[derive(Clone, PartialEq, Eq, Debug)]
struct Host {
    head: [u64; HEAD],
    elems: Vec<u64>,
    shared: Vec<u64>,
}

impl Host {
    /// Tables of these capacities that hold this number everywhere else.
    fn filled(elems: u64, shared: u64, number: u64) -> Host {
        let mut head = [number; HEAD];
        (head[0], head[4]) = (elems, shared);
        Host { head, elems: vec![number; elems as usize * FRAME], shared: vec![number; shared as usize * HEADER] }
    }

    fn call(&mut self, call: Call) -> u64 {
        let lent = &mut [0; 4 * SEAL_PLACE];
        run(sets::sound, &mut self.head, &mut self.elems, &mut self.shared, &call, lent, &mut [0; 4])
    }

    fn copy_from(&mut self, source: &Host) -> u64 {
        let from = Source { head: &source.head, elems: &source.elems, shared: &source.shared };
        copy::run(sets::sound, &mut self.head, &mut self.elems, &mut self.shared, from)
    }

    fn keys(&self) -> Vec<Key> {
        let rows = self.elems.chunks(FRAME).zip(1..);
        rows.filter(|(row, _)| row[0] != 0).map(|(row, slot)| Key { slot, generation: row[0] }).collect()
    }
}

/// Every state after up to `more` calls that are accepted, this one included.
fn each_after(host: &Host, more: usize, seen: &mut dyn FnMut(&Host)) {
    seen(host);
    if more == 0 {
        return;
    }
    let keys = host.keys();
    let mut calls = vec![Call::InsertSurject { payload: 7, value: 8, size: 9 }];
    for &k in &keys {
        calls.extend([Call::Insert(k, 1, u32::MAX), Call::RemoveElement(k), Call::Seal(k)]);
        calls.extend(keys.iter().map(|&j| Call::Union(j, k)));
    }
    for call in calls {
        let mut next = host.clone();
        if next.call(call) == 0 {
            each_after(&next, more - 1, seen);
        }
    }
}

/// One table of the copy, beside the source's: live slots are the same, the extent is the last of them, the free ones below are on the
/// chain in the order of the slots, and everything else is zero.
fn is_copied(width: usize, link: usize, source: &[u64], copy: &[u64], pool: &[u64]) -> bool {
    let row = |table: &[u64], slot: usize| table.get((slot - 1) * width..slot * width).map(<[u64]>::to_vec);
    let is_live = |slot: usize| row(source, slot).is_some_and(|row| row[0] != 0);
    let last = (1..=source.len() / width).filter(|slot| is_live(*slot)).max().unwrap_or(0);
    let free: Vec<usize> = (1..=last).filter(|slot| !is_live(*slot)).collect();
    let (mut chain, mut slot) = (vec![], pool[2] as usize);
    while slot != 0 && chain.len() <= last {
        chain.push(slot);
        slot = copy[(slot - 1) * width + link] as usize;
    }
    let mut zeros = copy.to_vec();
    free.iter().for_each(|slot| zeros[(slot - 1) * width + link] = 0);
    let live = |slot: usize| row(copy, slot) == row(source, slot);
    let zero = |slot: usize| row(&zeros, slot).unwrap().iter().all(|number| *number == 0);
    let rows = (1..=copy.len() / width).all(|slot| if is_live(slot) { live(slot) } else { zero(slot) });
    rows && chain == free && pool[1] == last as u64 && pool[3] == (last - free.len()) as u64
}

#[test]
fn every_sentence() {
    let mut start = Host::filled(4, 4, 0);
    assert_eq!(start.call(Call::Fresh { elems: 4, shared: 4 }), 0);
    let (mut accepted, mut holes) = (0, 0);
    let last = |table: &[u64], width| table.chunks(width).rposition(|row| row[0] != 0).map_or(0, |at| at as u64 + 1);
    each_after(&start, 6, &mut |source| {
        let (frames, headers) = (last(&source.elems, FRAME), last(&source.shared, HEADER));
        for (elems, shared) in [(frames, headers), (frames + 1, headers + 2), (4, 4)] {
            let (elems, shared) = (elems.max(1), shared.max(1));
            let mut copy = Host::filled(elems, shared, 77);
            assert_eq!(copy.copy_from(source), 0);
            assert!(is_copied(FRAME, NEXT, &source.elems, &copy.elems, &copy.head[..4]), "{source:?} {copy:?}");
            assert!(
                is_copied(HEADER, NEXT_FREE, &source.shared, &copy.shared, &copy.head[4..8]),
                "{source:?} {copy:?}"
            );
            assert_eq!((copy.head[0], copy.head[4], copy.head[8]), (elems, shared, source.head[8]));
            assert_eq!(copy.head[9..], [0; 4]);
            assert_eq!(copy.call(Call::Check), 0);
            accepted += 1;
            holes += u64::from(copy.head[2] != 0 && copy.head[6] != 0);
        }
        // one slot too few, on either side or on both
        for (elems, shared, number) in [(frames, headers + 1, 5), (frames + 1, headers, 6), (frames, headers, 5)] {
            let mut small = Host::filled(elems.saturating_sub(1), shared.saturating_sub(1), 77);
            let (before, is_shaped) = (small.clone(), small.head[0] > 0 && small.head[4] > 0);
            assert_eq!(small.copy_from(source), if is_shaped { number } else { 1 });
            assert_eq!(small, before);
        }
    });
    assert!(accepted > 10_000 && holes > 1_000, "{accepted} accepted, {holes} with holes on both sides");
}
