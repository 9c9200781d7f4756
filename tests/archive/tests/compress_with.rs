//! Ticket 3 of document 02: compression in slot order, the pairs of keys that it writes, what it refuses, and that runs are the
//! same up to the renaming under both compressions. Each call is also compared with the model's in every number.

use archive::random::Random;
use archive::{Host, UNTOUCHED, head, key};
use model::door::Call;
use model::layout::{COUNT, MARK, PAYLOAD, SIZE, TOTAL, VALUE};
use model::{FRAME, HEADER, Key, PAIR, PLACE, SEAL_PLACE};
use std::collections::BTreeMap;

const LAST: u64 = 4_294_967_295;

/// Sizes are seven times the payload.
fn new_run(payload: u64, value: u64) -> Call {
    Call::InsertSurject { payload, value, size: 7 * payload as u32 }
}

fn made(elems: u64, shared: u64, calls: &[Call]) -> Host {
    let mut host = Host::fresh(elems, shared);
    for &call in calls {
        assert_eq!(host.call(call, &[0; 64]).number, 0, "{call:?}");
    }
    host
}

/// Slot 3 under 100, and 4 and 6 in a sealed ring under 300; slots 1, 2 and 5 and the second shared slot are free.
fn with_holes() -> Host {
    let runs = [new_run(10, 100), new_run(20, 200), Call::Insert(key(1, 1), 11, 77), new_run(30, 300)];
    let grown = [Call::Insert(key(2, 1), 21, 147), Call::Insert(key(4, 1), 31, 217), Call::Seal(key(6, 1))];
    let gone = [Call::RemoveShared(key(2, 1)), Call::RemoveElement(key(1, 1))];
    made(7, 4, &[&runs[..], &grown, &gone].concat())
}

fn compress(host: &mut Host, reset: u64) -> Vec<u64> {
    let live = host.head[3] as usize;
    let said = host.call(Call::CompressWith { reset }, &vec![9; live * PAIR]);
    assert_eq!((said.number, said.out[0]), (0, live as u64));
    said.lent
}

/// Frames and headers stand first, in the order that they had; what is left of both tables is zero, and nothing is free.
#[test]
fn what_it_answers_and_leaves() {
    for (reset, g) in [(0, 4), (1, 1)] {
        let mut host = with_holes();
        let said = host.call(Call::CompressWith { reset }, &[77; 3 * PAIR + 2]);
        assert_eq!((said.number, said.out), (0, [3, 0, UNTOUCHED, UNTOUCHED]));
        assert_eq!(said.lent, [3, 1, 1, g, 4, 1, 2, g, 6, 1, 3, g, 77, 77]);
        let rows = [[g, 11, 1, 1, 1, 77], [g, 30, 2, 3, 3, 210], [g, 31, 2, 2, 2, 217]].concat();
        assert_eq!(host.elems, [rows, vec![0; 4 * FRAME]].concat());
        assert_eq!(host.shared, [[1, 100, 0, 0, 77], [2, 300, 0, 1, 427], [0; HEADER], [0; HEADER]].concat());
        assert_eq!(host.head, head([7, 3, 0, 3, 4, 2, 0, 2, g]));
    }
}

/// Ring 1, 3, 2: canonical compression lays it out along the ring, this one leaves the frames where they stand.
#[test]
fn frames_keep_the_order_of_their_slots() {
    let ring = made(4, 3, &[new_run(10, 100), Call::Insert(key(1, 1), 11, 77), Call::Insert(key(1, 1), 12, 84)]);
    let (mut canonical, mut ordered) = (ring.clone(), ring);
    assert_eq!(canonical.call(Call::CompressCanonical { reset: 1 }, &[0; 4 * FRAME]).number, 0);
    assert_eq!(
        canonical.elems[..3 * FRAME],
        [[1, 10, 1, 3, 2, 70], [1, 12, 1, 1, 3, 84], [1, 11, 1, 2, 1, 77]].concat()
    );
    assert_eq!(compress(&mut ordered, 1), [1, 1, 1, 1, 2, 1, 2, 1, 3, 1, 3, 1]);
    assert_eq!(ordered.elems[..3 * FRAME], [[1, 10, 1, 2, 3, 70], [1, 11, 1, 3, 1, 77], [1, 12, 1, 1, 2, 84]].concat());
}

/// P11's state with one run more: the lowest frame's header is the second one. Canonical compression puts it first, this one
/// leaves it behind the other. (P11's state itself comes out alike: tests/entries.rs.)
#[test]
fn headers_keep_the_order_of_their_slots() {
    let calls = [new_run(10, 100), new_run(20, 200), Call::RemoveElement(key(1, 1)), Call::Insert(key(2, 1), 21, 147)];
    let host = made(4, 3, &[&calls[..], &[new_run(30, 300)]].concat());
    assert_eq!(host.shared[..2 * HEADER], [1, 300, 0, 0, 210, 2, 200, 0, 0, 287]);
    let (mut canonical, mut ordered) = (host.clone(), host);
    assert_eq!(canonical.call(Call::CompressCanonical { reset: 0 }, &[0; 4 * FRAME]).number, 0);
    assert_eq!(canonical.shared[..2 * HEADER], [2, 200, 0, 0, 287, 1, 300, 0, 0, 210]);
    compress(&mut ordered, 0);
    assert_eq!(ordered.shared[..2 * HEADER], [1, 300, 0, 0, 210, 2, 200, 0, 0, 287]);
    let rows = [[3, 21, 2, 2, 2, 147], [3, 20, 2, 1, 1, 140], [3, 30, 1, 3, 3, 210]];
    assert_eq!(ordered.elems[..3 * FRAME], rows.concat());
    assert_ne!(canonical, ordered);
}

/// Each frame has its own old generation in its pair, and the new one is one for all.
#[test]
fn pairs_have_each_frame_s_old_generation() {
    let calls = [new_run(10, 100), Call::Insert(key(1, 1), 11, 77), Call::RemoveElement(key(1, 1))];
    let mut host = made(4, 3, &[&calls[..], &[Call::Insert(key(2, 1), 12, 84), new_run(20, 200)]].concat());
    assert_eq!(compress(&mut host, 0), [1, 2, 1, 3, 2, 1, 2, 3, 3, 2, 3, 3]);
    assert_eq!(compress(&mut host, 0), [1, 3, 1, 4, 2, 3, 2, 4, 3, 3, 3, 4]);
}

/// Old keys are dead and new ones live. With reset an old key can be another frame's.
#[test]
fn keys_before_and_after() {
    let mut host = with_holes();
    for pair in compress(&mut host, 0).chunks(PAIR) {
        assert_eq!(host.call(Call::Get(key(pair[0], pair[1])), &[]).number, 3);
        assert_eq!(host.call(Call::Get(key(pair[2], pair[3])), &[]).number, 0);
    }
    let mut host = with_holes();
    assert_eq!(host.call(Call::Get(key(3, 1)), &[]).out[0], 11);
    compress(&mut host, 1);
    assert_eq!(host.call(Call::Get(key(3, 1)), &[]).out[0], 31);
}

#[test]
fn overflow() {
    for (reset, over) in [(0, 1), (1, 0)] {
        let mut host = with_holes();
        host.head[8] = LAST;
        let said = host.call(Call::CompressWith { reset }, &[0; 3 * PAIR]);
        assert_eq!((said.number, &said.out[..2]), (0, &[3, over][..]));
        assert_eq!((host.head[8], host.elems[0], said.lent[3]), (1, 1, 1));
    }
    let mut host = with_holes();
    host.head[8] = LAST - 1;
    let said = host.call(Call::CompressWith { reset: 0 }, &[0; 3 * PAIR]);
    assert_eq!((said.out[1], host.head[8]), (0, LAST));
}

/// Without frames no pair is needed, and the generation rises all the same; free slots and extents go.
#[test]
fn empty_tables() {
    for (reset, g) in [(0, 3), (1, 1)] {
        let mut host = made(2, 2, &[new_run(10, 100), Call::RemoveElement(key(1, 1))]);
        let said = host.call(Call::CompressWith { reset }, &[]);
        assert_eq!((said.number, &said.out[..2]), (0, &[0, 0][..]));
        let mut wanted = Host::fresh(2, 2);
        wanted.head[8] = g;
        assert_eq!(host, wanted);
        assert_eq!(host.call(Call::CompressWith { reset: 1 }, &[5]).lent, [5]);
    }
}

/// Places are counted in numbers, four to a frame: one number short is short. Nothing has moved then, and nothing is written.
#[test]
fn every_shorter_buffer_is_refused_7() {
    for length in 0..3 * PAIR {
        let mut host = with_holes();
        let said = host.call(Call::CompressWith { reset: 1 }, &vec![77; length]);
        assert_eq!((said.number, said.lent), (7, vec![77; length]));
        assert_eq!(host, with_holes());
    }
    assert_eq!(with_holes().call(Call::CompressWith { reset: 1 }, &[77; 3 * PAIR]).number, 0);
}

#[test]
fn refusals_1_and_2_come_before_7() {
    let mut host = with_holes();
    host.head[3] += 1;
    assert_eq!(host.call(Call::CompressWith { reset: 0 }, &[]).number, 2);
    host.head[3] = u64::MAX;
    assert_eq!(host.call(Call::CompressWith { reset: 0 }, &[]).number, 2);
    host.shared.pop();
    assert_eq!(host.call(Call::CompressWith { reset: 0 }, &[]).number, 1);
}

/// A run: its frames' payloads and sizes in ring order from a key, its value, count, mark and total.
#[derive(PartialEq, Eq, Debug)]
struct Seen {
    ring: Vec<(Key, [u64; 2])>,
    header: [u64; 4],
}

fn seen(host: &mut Host, k: Key) -> Seen {
    let list = host.call(Call::List(k), &vec![0; host.head[3] as usize * PLACE]);
    assert_eq!(list.number, 0);
    let places = list.lent.chunks(PLACE).take(list.out[0] as usize);
    let ring = places.map(|place| key(place[0], place[1]));
    let row = |k: Key| &host.elems[(k.slot as usize - 1) * FRAME..][..FRAME];
    let ring = ring.map(|k| (k, [row(k)[PAYLOAD], row(k)[SIZE]])).collect();
    let class = host.elems[(k.slot as usize - 1) * FRAME + 2] as usize;
    let row = &host.shared[(class - 1) * HEADER..][..HEADER];
    Seen { ring, header: [row[COUNT], row[VALUE], row[MARK], row[TOTAL]] }
}

/// A state grown by random calls, its payloads distinct.
fn grown(r: &mut Random) -> Host {
    let most = 1 + r.below(12);
    let mut host = Host::fresh(most, 1 + r.below(most));
    for payload in 0..r.below(60) {
        let keys = host.keys();
        let (j, k) = if keys.is_empty() { (key(0, 0), key(0, 0)) } else { (r.of(&keys), r.of(&keys)) };
        let call = match r.below(9) {
            0..=2 => new_run(payload, 1_000 + payload),
            3 | 4 => Call::Insert(k, payload, 7 * payload as u32),
            5 => Call::Union(j, k),
            6 if r.one_in(3) => Call::Seal(k),
            7 if r.one_in(2) => Call::RemoveShared(k),
            _ => Call::RemoveElement(k),
        };
        host.call(call, &[0; 12 * SEAL_PLACE]);
    }
    host
}

/// Every run, seen from every frame, is the same under the new keys.
fn same_runs(before: &mut Host, after: &mut Host, renaming: &BTreeMap<(u64, u64), Key>) {
    let new = |k: Key| renaming[&(k.slot, k.generation)];
    for k in before.keys() {
        let mut wanted = seen(before, k);
        wanted.ring.iter_mut().for_each(|(k, _)| *k = new(*k));
        assert_eq!(seen(after, new(k)), wanted, "{before:?}");
    }
    assert_eq!((before.head[3], before.head[7]), (after.head[3], after.head[7]));
    assert_eq!(after.call(Call::Check, &[]).number, 0);
}

/// Of this compression the pairs tell the renaming; of canonical compression the payloads do.
#[test]
fn runs_are_the_same_up_to_the_renaming() {
    let mut r = Random::new(3);
    let (mut moved, mut differ) = (0, 0);
    for _ in 0..2_000 {
        let mut host = grown(&mut r);
        let reset = r.below(2);
        let mut ordered = host.clone();
        let pairs = compress(&mut ordered, reset);
        assert!(pairs.chunks(PAIR).zip(1..).all(|(pair, n)| pair[2] == n));
        moved += pairs.chunks(PAIR).filter(|pair| pair[0] != pair[2]).count();
        let told = pairs.chunks(PAIR).map(|pair| ((pair[0], pair[1]), key(pair[2], pair[3])));
        same_runs(&mut host, &mut ordered, &told.collect());
        let mut canonical = host.clone();
        let scratch = vec![0; host.elems.len()];
        assert_eq!(canonical.call(Call::CompressCanonical { reset }, &scratch).number, 0);
        let payload = |host: &Host, k: Key| host.elems[(k.slot as usize - 1) * FRAME + 1];
        let by_payload: BTreeMap<u64, Key> =
            canonical.keys().into_iter().map(|k| (payload(&canonical, k), k)).collect();
        let learned = host.keys().into_iter().map(|k| ((k.slot, k.generation), by_payload[&payload(&host, k)]));
        let learned = learned.collect();
        same_runs(&mut host, &mut canonical, &learned);
        differ += (canonical != ordered) as u32;
    }
    assert!(moved > 1_000 && differ > 500, "{moved} moved, {differ} differ");
}
