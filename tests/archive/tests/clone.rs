//! Ticket 10 of document 02: a study copied to other tables. Each copy is also compared with the model's in every number, over memory
//! with canaries around target and source, where every number of the source must stay, and on a refusal every number of the target.

use archive::random::{Random, any_buffer, any_call, begun};
use archive::{Host, head, key};
use model::door::Call;
use model::layout::{COUNT, LAST_GENERATION, MARK, MOST_BYTES, TOTAL};
use model::{FRAME, HEADER, Key, PLACE, check};

fn new_run(payload: u64, value: u64, size: u32) -> Call {
    Call::InsertSurject { payload, value, size }
}

/// The call is accepted; its answer.
fn done(host: &mut Host, call: Call) -> [u64; 4] {
    let said = host.call(call, &[0; 64]);
    assert_eq!(said.number, 0, "{call:?} of {host:?}");
    said.out
}

fn number(host: &Host, call: Call) -> u64 {
    host.clone().call(call, &[0; 64]).number
}

/// The copy in tables of these capacities that held nothing.
fn copy_of(source: &Host, elems: u64, shared: u64) -> Host {
    let mut copy = Host::fresh(elems, shared);
    assert_eq!(copy.copy_from(source), 0, "{source:?}");
    copy
}

/// Tables of these capacities with this number everywhere else.
fn filled(elems: u64, shared: u64, number: u64) -> Host {
    let mut host = Host::fresh(elems, shared);
    host.head.fill(number);
    host.elems.fill(number);
    host.shared.fill(number);
    (host.head[0], host.head[4]) = (elems, shared);
    host
}

/// Six runs of one in eight slots of each table, under ten times their slots; 2, 3 and 5 removed, in another order; then 6 too, so
/// that the last slot in use is free. Slots 1 and 4 are live.
fn with_holes() -> Host {
    let mut host = Host::fresh(8, 7);
    for n in 1..=6 {
        done(&mut host, new_run(100 + n, 10 * n, n as u32));
    }
    for slot in [3, 6, 2, 5] {
        done(&mut host, Call::RemoveElement(key(slot, 1)));
    }
    host
}

/// Live slots in their places, the free ones below the last chained lowest first, zeros from there on.
#[test]
fn holes_on_both_sides() {
    let source = with_holes();
    assert_eq!(source.head, head([8, 6, 5, 2, 7, 6, 5, 2, 5]));
    let copy = copy_of(&source, 8, 7);
    assert_eq!(copy.head, head([8, 4, 2, 2, 7, 4, 2, 2, 5]));
    let none = [0; FRAME];
    let (second, third) = ([0, 0, 0, 0, 3, 0], none);
    let rows = [[1, 101, 1, 1, 1, 1], second, third, [1, 104, 4, 4, 4, 4], none, none, none, none];
    assert_eq!(copy.elems, rows.concat());
    let headers = [[1, 10, 0, 0, 1], [0, 0, 3, 0, 0], [0; HEADER], [1, 40, 0, 0, 4], [0; HEADER], [0; HEADER]];
    assert_eq!(copy.shared, [&headers.concat()[..], &[0; HEADER]].concat());
    assert_eq!(number(&copy, Call::Check), 0);
    // the source takes the slot freed last, the copy the lowest; past the chain both take the next
    let slots = |mut host: Host| [(); 5].map(|_| done(&mut host, new_run(7, 7, 7))[0]);
    assert_eq!((slots(source), slots(copy)), ([5, 2, 6, 3, 7], [2, 3, 5, 6, 7]));
}

/// Frames and headers of one run lie in different slots: each table has holes of its own.
#[test]
fn holes_of_each_table() {
    let mut source = Host::fresh(6, 6);
    for n in 1..=5 {
        done(&mut source, new_run(100 + n, 10 * n, 1));
    }
    // frames 1 to 4 under the header of 4, frame 5 is gone with its header; then frame 2 goes
    for (j, k) in [(4, 1), (4, 2), (4, 3)] {
        done(&mut source, Call::Union(key(j, 1), key(k, 1)));
    }
    done(&mut source, Call::RemoveElement(key(5, 1)));
    done(&mut source, Call::RemoveElement(key(2, 1)));
    let copy = copy_of(&source, 4, 4);
    assert_eq!(copy.head, head([4, 4, 2, 3, 4, 4, 1, 1, 3]));
    // ring 4, 3, 1
    let rows = [[1, 101, 4, 3, 4, 1], [0; FRAME], [1, 103, 4, 4, 1, 1], [1, 104, 4, 1, 3, 1]];
    assert_eq!(copy.elems, rows.concat());
    let headers = [[0, 0, 2, 0, 0], [0, 0, 3, 0, 0], [0; HEADER], [3, 40, 0, 0, 3]];
    assert_eq!(copy.shared, headers.concat());
}

/// Without frames the extents are 0, whatever slots were in use; the generation comes along.
#[test]
fn an_empty_source() {
    let mut emptied = Host::fresh(5, 4);
    for n in 1..=3 {
        done(&mut emptied, new_run(n, n, 9));
    }
    for n in [2, 1, 3] {
        done(&mut emptied, Call::RemoveElement(key(n, 1)));
    }
    assert_eq!(emptied.head, head([5, 3, 3, 0, 4, 3, 3, 0, 4]));
    let mut last = Host::fresh(5, 4);
    last.head[8] = LAST_GENERATION;
    for (source, generation) in [(emptied, 4), (Host::fresh(5, 4), 1), (last, LAST_GENERATION)] {
        for mut target in [Host::fresh(1, 1), filled(1, 1, 77), filled(9, 9, u64::MAX), with_holes()] {
            let mut wanted = Host::fresh(target.head[0], target.head[4]);
            wanted.head[8] = generation;
            assert_eq!(target.copy_from(&source), 0);
            assert_eq!(target, wanted);
        }
    }
}

/// 5 and 6 go by the last live slots: not by how many live, and not by the extents. 5 comes before 6.
#[test]
fn as_large_as_the_last_live_slot() {
    // slots 1 and 4 live on both sides, extents 6
    let source = with_holes();
    for (elems, shared) in (1..=9).flat_map(|e| (1..=9).map(move |s| (e, s))) {
        for mut target in [Host::fresh(elems, shared), filled(elems, shared, 77)] {
            let wanted = if elems < 4 { 5 } else { 6 * u64::from(shared < 4) };
            assert_eq!(target.copy_from(&source), wanted, "{elems} {shared}");
        }
    }
    // one frame in the last slot, its header first; and the other way round
    let mut frames = Host::fresh(5, 5);
    done(&mut frames, new_run(1, 10, 0));
    for n in 2..=5 {
        done(&mut frames, Call::Insert(key(1, 1), n, 0));
    }
    for n in 1..=4 {
        done(&mut frames, Call::RemoveElement(key(n, 1)));
    }
    let mut headers = Host::fresh(5, 5);
    for n in 1..=5 {
        done(&mut headers, new_run(n, n, 0));
    }
    done(&mut headers, Call::Union(key(5, 1), key(1, 1)));
    for n in 2..=5 {
        done(&mut headers, Call::RemoveElement(key(n, 1)));
    }
    for (elems, shared, wanted) in [(5, 1, [0, 6]), (4, 1, [5, 6]), (1, 5, [5, 0]), (1, 4, [5, 6]), (5, 5, [0, 0])] {
        let said = [&frames, &headers].map(|source| filled(elems, shared, 3).copy_from(source));
        assert_eq!(said, wanted, "{elems} {shared}");
    }
    // compressed, it fits where it did not
    done(&mut frames, Call::CompressWith { reset: 0 });
    assert_eq!(filled(1, 1, 3).copy_from(&frames), 0);
}

/// What stood in the target leaves no trace.
#[test]
fn a_dirty_target() {
    let mut r = Random::new(10);
    let source = with_holes();
    let clean = copy_of(&source, 5, 6);
    let mut dirty: Vec<Host> = [0, 1, 77, u64::MAX].map(|number| filled(5, 6, number)).to_vec();
    dirty.extend((0..200).map(|_| {
        let mut host = filled(5, 6, 0);
        host.head.iter_mut().chain(&mut host.elems).chain(&mut host.shared).for_each(|number| *number = r.number());
        (host.head[0], host.head[4]) = (5, 6);
        host
    }));
    // a study of its own, with an undo, a seal and a later generation
    let mut own = Host::fresh(5, 6);
    for n in 1..=5 {
        done(&mut own, new_run(n, n, 500));
    }
    done(&mut own, Call::Seal(key(3, 1)));
    done(&mut own, Call::RemoveElement(key(5, 1)));
    done(&mut own, Call::Union(key(1, 1), key(2, 1)));
    dirty.push(own);
    for mut target in dirty {
        assert_eq!(target.copy_from(&source), 0);
        assert_eq!(target, clean);
    }
}

/// Marks, sizes and totals come along, the largest too; the copy's sealed run lets no frame in.
#[test]
fn sealed_and_sized_runs() {
    let most = MOST_BYTES as u32;
    let mut source = Host::fresh(6, 4);
    for call in [new_run(1, 10, most), new_run(2, 20, 5), Call::Insert(key(1, 1), 3, most), new_run(4, 30, 0)] {
        done(&mut source, call);
    }
    done(&mut source, Call::Seal(key(1, 1)));
    done(&mut source, Call::RemoveElement(key(2, 1)));
    let mut copy = copy_of(&source, 4, 3);
    let header = |host: &Host, c: usize| [COUNT, MARK, TOTAL].map(|field| host.shared[(c - 1) * HEADER + field]);
    assert_eq!([1, 2, 3].map(|c| header(&copy, c)), [[2, 1, 2 * MOST_BYTES], [0, 0, 0], [1, 0, 0]]);
    assert_eq!(done(&mut copy, Call::GetSize(key(3, 1)))[0], MOST_BYTES);
    assert_eq!(number(&copy, Call::Insert(key(3, 1), 5, 0)), 12);
    assert_eq!(number(&copy, Call::Union(key(4, 1), key(1, 1))), 12);
    assert_eq!(number(&copy, Call::Seal(key(3, 1))), 12);
    // a seal of the copy is none of the source, and the other way round
    done(&mut copy, Call::Seal(key(4, 1)));
    assert_eq!((header(&copy, 3)[1], header(&source, 3)[1]), (1, 0));
    done(&mut source, Call::Insert(key(4, 1), 6, 9));
    assert_eq!(done(&mut copy, Call::GetTotal(key(4, 1)))[0], 0);
}

/// The source's union can be undone after a copy, and not in the copy, which has the joined run.
#[test]
fn the_undo_stays_with_the_source() {
    let mut source = Host::fresh(6, 6);
    for n in 1..=4 {
        done(&mut source, new_run(n, 10 * n, n as u32));
    }
    let before = source.clone();
    done(&mut source, Call::Union(key(4, 1), key(2, 1)));
    assert_eq!(source.head[9..], [4, 2, 1, 20]);
    let mut copy = copy_of(&source, 6, 6);
    assert_eq!(copy.head, head([6, 4, 0, 4, 6, 4, 2, 3, 1]));
    assert_eq!((&copy.elems, &copy.shared), (&source.elems, &source.shared));
    assert_eq!(number(&copy, Call::Undo), 10);
    assert_eq!(number(&source, Call::Undo), 0);
    done(&mut source, Call::Undo);
    assert_eq!(source, before);
    assert_eq!(done(&mut copy, Call::LenSurject(key(2, 1)))[0], 2);
    // a copy over tables with a union to undo leaves none there, one that is refused leaves it
    let mut joined = before;
    done(&mut joined, Call::Union(key(1, 1), key(3, 1)));
    assert_eq!(filled(3, 6, 0).copy_from(&joined), 5);
    let mut target = joined.clone();
    assert_eq!(target.copy_from(&source), 0);
    assert_eq!(number(&target, Call::Undo), 10);
    let mut small = copy_of(&Host::fresh(1, 1), 3, 3);
    for n in 1..=2 {
        done(&mut small, new_run(n, n, 0));
    }
    done(&mut small, Call::Union(key(1, 1), key(2, 1)));
    assert_eq!(small.copy_from(&source), 5);
    done(&mut small, Call::Undo);
}

/// A sound state with 5 and 6 to give, with numbers changed: which refusal comes first.
#[test]
fn the_order_of_refusals() {
    let sound = with_holes();
    let with = |change: fn(&mut Host)| {
        let mut host = sound.clone();
        change(&mut host);
        host
    };
    let unsound = with(|host| host.head[8] = 0);
    let shapes: [fn(&mut Host); 8] = [
        |host| host.elems.truncate(host.elems.len() - 1),
        |host| host.shared.truncate(host.shared.len() - 1),
        |host| host.elems.push(0),
        |host| host.shared.push(0),
        |host| host.head[0] = 0,
        |host| host.head[4] = 65_537,
        |host| host.elems.clear(),
        |host| host.shared.clear(),
    ];
    let small = [(3, 3, 5), (3, 9, 5), (9, 3, 6), (9, 9, 0)].map(|(e, s, n)| (filled(e, s, 77), n));
    for (target, number) in small {
        assert_eq!(target.clone().copy_from(&sound), number);
        assert_eq!(target.clone().copy_from(&unsound), 2);
        for misshape in shapes {
            // of the source, of the target, of both; whether or not the source is sound
            for source in [&sound, &unsound] {
                let (mut bad, mut short) = (source.clone(), target.clone());
                misshape(&mut bad);
                misshape(&mut short);
                assert_eq!(target.clone().copy_from(&bad), 1);
                assert_eq!(short.clone().copy_from(source), 1);
                assert_eq!(short.copy_from(&bad), 1);
            }
        }
    }
    // 2 is never said of the target: it may be unsound in any of its numbers
    let mut broken = sound.clone();
    for at in (0..13).filter(|at| ![0, 4].contains(at)) {
        broken.head[at] = u64::MAX;
        assert_eq!(broken.clone().call(Call::Check, &[]).number, 2);
        assert_eq!(broken.clone().copy_from(&sound), 0);
    }
}

/// A source is refused 2 for each line of soundness, what the head remembers included, and a chain that leaves a free slot out.
#[test]
fn an_unsound_source() {
    let breaks: [fn(&mut Host); 12] = [
        |host| host.head[8] = LAST_GENERATION + 1,
        |host| host.head[1] = 9,
        |host| host.head[3] += 1,
        |host| host.head[7] -= 1,
        |host| host.head[2] = 0,
        |host| host.head[6] = 3,
        |host| host.elems[0] = 0,
        |host| host.elems[3 * FRAME + 2] = 1,
        |host| host.elems[7 * FRAME + 1] = 1,
        |host| host.shared[TOTAL] += 1,
        |host| host.shared[MARK] = 2,
        |host| host.head[12] = 1,
    ];
    for damage in breaks {
        let mut source = with_holes();
        damage(&mut source);
        for mut target in [Host::fresh(8, 7), Host::fresh(1, 1), source.clone()] {
            assert_eq!(target.copy_from(&source), 2, "{source:?}");
        }
    }
}

/// Capacities at their limits, of either side; lengths that only fit modulo 2 to the 64th.
#[test]
fn limits_of_capacities() {
    let source = with_holes();
    let most = 65_536;
    for (elems, shared, number) in [(most, 4, 0), (4, most, 0), (most, most, 0), (most + 1, 4, 1), (4, most + 1, 1)] {
        assert_eq!(filled(elems, shared, 5).copy_from_with(check::sound, &source), number);
        assert_eq!(Host::fresh(8, 7).copy_from_with(check::sound, &Host::fresh(elems, shared)), number);
    }
    let mut wide = Host::fresh(4, 4);
    // 4 slots of 6 numbers: so has this capacity, modulo 2 to the 64th
    wide.head[0] = 4 + (1 << 63);
    assert_eq!((wide.clone().copy_from(&source), Host::fresh(4, 4).copy_from(&wide)), (1, 1));
}

/// A full study of the largest capacities, in one ring through all slots, in rings of one, and with every other slot free.
#[test]
fn the_largest_studies() {
    let most = 65_536u64;
    let mut one_ring = Host::fresh(most, most);
    one_ring.head = head([most, most, 0, most, most, 1, 0, 1, 9]);
    let slot = |k: u64| (k * 40_503) % most + 1;
    for k in 0..most {
        let row = [1 + k % 9, k, 1, slot(k + most - 1), slot(k + 1), MOST_BYTES];
        one_ring.elems[(slot(k) as usize - 1) * FRAME..][..FRAME].copy_from_slice(&row);
    }
    one_ring.shared[..HEADER].copy_from_slice(&[most, 7, 0, 1, most * MOST_BYTES]);
    let mut alone = Host::fresh(most, most);
    alone.head = head([most, most, 0, most, most, most, 0, most, 9]);
    let mut halved = Host::fresh(most, most);
    halved.head = head([most, most, most - 1, most / 2, most, most, most - 1, most / 2, 9]);
    for k in 1..=most {
        let (row, header) = ([9, k, k, k, k, k], [1, k, 0, k % 2, k]);
        let at = k as usize - 1;
        alone.elems[at * FRAME..][..FRAME].copy_from_slice(&row);
        alone.shared[at * HEADER..][..HEADER].copy_from_slice(&header);
        // odd slots are free, and the source has them chained highest first
        let next = k.saturating_sub(2) * (k % 2);
        let (row, header) = if k % 2 == 0 { (row, header) } else { ([0, 0, 0, 0, next, 0], [0, 0, next, 0, 0]) };
        halved.elems[at * FRAME..][..FRAME].copy_from_slice(&row);
        halved.shared[at * HEADER..][..HEADER].copy_from_slice(&header);
    }
    for (source, root) in [(&one_ring, 0), (&alone, 0), (&halved, 1)] {
        let mut target = filled(most, most, 3);
        assert_eq!(target.copy_from_with(check::sound, source), 0);
        assert_eq!((target.head[2], target.head[8]), (root, 9));
        assert_eq!(target.call_with(check::sound, Call::Check, &[]).number, 0);
        if root == 0 {
            assert_eq!(target, *source);
        }
        assert_eq!(filled(most - 1, most, 3).copy_from_with(check::sound, source), 5);
    }
    assert_eq!(filled(most, most - 1, 3).copy_from_with(check::sound, &alone), 6);
    assert_eq!(filled(most, 1, 3).copy_from_with(check::sound, &one_ring), 0);
}

/// A state that random calls have grown, and a copy of it in tables that hold it.
fn grown_and_copy(r: &mut Random) -> (Host, Host) {
    let mut source = begun(r);
    for _ in 0..r.below(60) {
        let keys = source.keys();
        let call = match r.below(6) {
            0 | 1 => new_run(r.number(), r.number(), r.size()),
            2 if !keys.is_empty() => Call::Insert(r.of(&keys), r.number(), r.size()),
            3 if !keys.is_empty() => Call::RemoveElement(r.of(&keys)),
            _ => any_call(&source, r),
        };
        let lent = any_buffer(&source, &call, r);
        source.call(call, &lent);
    }
    if r.one_in(2) {
        let gone: Vec<Key> = source.keys().into_iter().filter(|_| r.one_in(3)).collect();
        gone.into_iter().for_each(|k| assert_eq!(source.call(Call::RemoveElement(k), &[]).number, 0));
    }
    let last = |table: &[u64], width| table.chunks(width).rposition(|row| row[0] != 0).map_or(0, |at| at as u64 + 1);
    let (elems, shared) = (last(&source.elems, FRAME), last(&source.shared, HEADER));
    let mut copy = filled(elems.max(1) + r.below(4), shared.max(1) + r.below(4), r.number());
    assert_eq!(copy.copy_from(&source), 0);
    (source, copy)
}

/// What a call that only reads answers, with the key's run as `list` writes it.
fn reads(host: &Host, j: Key, k: Key) -> Vec<(u64, u64, Vec<u64>)> {
    let calls = [
        Call::Lookup(k),
        Call::LenSurject(k),
        Call::InSameSurject(j, k),
        Call::InSameSurject(k, j),
        Call::Get(k),
        Call::GetShared(k),
        Call::GetSize(k),
        Call::GetTotal(k),
        Call::List(k),
    ];
    let said = calls.map(|call| host.clone().call(call, &vec![0; host.keys().len() * PLACE]));
    said.into_iter().map(|said| (said.number, said.out[0], said.lent)).collect()
}

/// The keys that live in the copy are those that live in the source; every read with them answers alike; and one that is dead in
/// the one is dead in the other, if not always by the same cause.
#[test]
fn keys_and_reads_are_alike() {
    let mut r = Random::new(24);
    let (mut live, mut dead) = (0, 0);
    for _ in 0..3_000 {
        let (source, copy) = grown_and_copy(&mut r);
        assert_eq!(copy.keys(), source.keys());
        assert_eq!(number(&copy, Call::Check), 0);
        assert_eq!([3, 7, 8].map(|at| copy.head[at]), [3, 7, 8].map(|at| source.head[at]));
        for k in source.keys() {
            let j = r.of(&source.keys());
            assert_eq!(reads(&copy, j, k), reads(&source, j, k));
            live += 1;
        }
        for (slot, generation) in (0..=source.head[0] + 1).flat_map(|s| [0, 1, source.head[8]].map(|g| (s, g))) {
            let k = key(slot, generation);
            let said = [&copy, &source].map(|host| number(host, Call::Lookup(k)));
            assert_eq!(said[0], said[1]);
            dead += u64::from(said[0] == 3);
        }
    }
    assert!(live > 5_000 && dead > 5_000, "{live} live, {dead} dead");
}

/// New frames come into the lowest free slots first, in the order of the slots, then past the last live one.
#[test]
fn free_slots_are_taken_lowest_first() {
    let mut r = Random::new(5);
    let mut holes = 0;
    for _ in 0..2_000 {
        let (_, mut copy) = grown_and_copy(&mut r);
        let (capacity, room) = (copy.head[0], copy.head[4] - copy.head[7]);
        let taken: Vec<u64> = copy.keys().iter().map(|k| k.slot).collect();
        let free: Vec<u64> = (1..=capacity).filter(|slot| !taken.contains(slot)).collect();
        holes += free.iter().filter(|slot| **slot < taken.last().copied().unwrap_or(0)).count();
        for slot in free.into_iter().take(room as usize) {
            assert_eq!(done(&mut copy, new_run(1, 2, 3))[..2], [slot, copy.head[8]]);
        }
    }
    assert!(holes > 1_000, "{holes} holes");
}

/// A copy of a copy is the same in every number; and both go on by themselves, each as the model says.
#[test]
fn both_go_on() {
    let mut r = Random::new(12);
    let mut apart = 0;
    for _ in 0..1_500 {
        let (mut source, mut copy) = grown_and_copy(&mut r);
        assert_eq!(copy_of(&copy, copy.head[0], copy.head[4]), copy);
        assert_eq!(filled(copy.head[0], copy.head[4], 9).copy_from(&source), 0);
        for _ in 0..20 {
            let (one, other) = if r.one_in(2) { (&mut source, &copy) } else { (&mut copy, &source) };
            let before = other.clone();
            let call = any_call(one, &mut r);
            let lent = any_buffer(one, &call, &mut r);
            one.call(call, &lent);
            assert_eq!(*other, before);
        }
        apart += u64::from(source.keys() != copy.keys());
        // and back: the copy's study takes the place of the source's, where it fits
        let said = source.copy_from(&copy);
        assert!(said != 0 || source.keys() == copy.keys());
    }
    assert!(apart > 500, "{apart} apart");
}

/// A key that the target gave before a copy can be live after it, and mean another frame: for such keys a copy is a fresh call.
#[test]
fn an_old_key_of_the_target_can_come_back() {
    let mut target = Host::fresh(3, 3);
    assert_eq!(done(&mut target, new_run(1, 10, 0))[..2], [1, 1]);
    done(&mut target, Call::RemoveElement(key(1, 1)));
    assert_eq!(number(&target, Call::Lookup(key(1, 1))), 3);
    let mut source = Host::fresh(3, 3);
    done(&mut source, new_run(2, 20, 0));
    assert_eq!(target.copy_from(&source), 0);
    assert_eq!(done(&mut target, Call::Get(key(1, 1)))[0], 2);
    // while a key that was removed in the source stays dead in the copy
    done(&mut source, Call::RemoveElement(key(1, 1)));
    done(&mut source, new_run(3, 30, 0));
    assert_eq!(target.copy_from(&source), 0);
    let lookup = |k| target.clone().call(Call::Lookup(k), &[]).result();
    assert_eq!((lookup(key(1, 1)), lookup(key(1, 2))), (3 + 256 * 3, 0));
}
