//! Document 01's worked numbers, P1 to P12, and its traps, on the model.

use model::door::{Call, run};
use model::layout::{MARK, SIZE, TOTAL, head};
use model::{FRAME, HEAD, HEADER, Key, PAIR, SEAL_PLACE, check, sets};

#[derive(Clone)]
struct Host {
    head: [u64; HEAD],
    elems: Vec<u64>,
    shared: Vec<u64>,
}

impl Host {
    fn fresh(elems: u64, shared: u64) -> Host {
        let mut host =
            Host { head: [0; HEAD], elems: vec![7; elems as usize * FRAME], shared: vec![7; shared as usize * HEADER] };
        assert_eq!(host.call(Call::Fresh { elems, shared }), (0, vec![]));
        host
    }

    fn lent(&mut self, call: Call, lent: &mut [u64]) -> (u64, Vec<u64>) {
        let mut out = [0; 4];
        let number = run(sets::sound, &mut self.head, &mut self.elems, &mut self.shared, &call, lent, &mut out);
        let count = if number == 0 { call.name().1 } else { 0 };
        (number, out[..count].to_vec())
    }

    fn call(&mut self, call: Call) -> (u64, Vec<u64>) {
        self.lent(call, &mut [])
    }

    fn ring(&mut self, k: Key) -> Vec<u64> {
        let mut places = vec![0; 2 * 8];
        let (number, out) = self.lent(Call::List(k), &mut places);
        assert_eq!(number, 0);
        places.chunks(2).take(out[0] as usize).map(|place| place[0]).collect()
    }
}

fn key(slot: u64, generation: u64) -> Key {
    Key { slot, generation }
}

/// Refusal 3 with this cause, as an entry returns it.
fn dead(cause: u64) -> u64 {
    3 + 256 * cause
}

fn new_run(payload: u64, value: u64) -> Call {
    Call::InsertSurject { payload, value, size: 0 }
}

#[test]
fn p1_to_p10() {
    let mut host = Host::fresh(4, 3);
    assert_eq!(host.call(new_run(10, 100)), (0, vec![1, 1]));
    assert_eq!(host.call(Call::Insert(key(1, 1), 11, 0)), (0, vec![2, 1]));
    assert_eq!(host.call(Call::Insert(key(1, 1), 12, 0)), (0, vec![3, 1]));
    assert_eq!(host.ring(key(1, 1)), [1, 3, 2]);
    assert_eq!(host.call(Call::LenSurject(key(2, 1))), (0, vec![3]));
    assert_eq!(host.call(new_run(20, 200)), (0, vec![4, 1]));
    assert_eq!(host.call(new_run(30, 300)), (5, vec![]));
    assert_eq!(host.call(Call::Union(key(4, 1), key(1, 1))), (0, vec![200, 1, 1, 1]));
    assert_eq!(host.ring(key(1, 1)), [1, 4, 3, 2]);
    assert_eq!(host.call(Call::Union(key(4, 1), key(4, 1))), (4, vec![]));
    assert_eq!(host.call(Call::Union(key(5, 1), key(1, 1))), (dead(1), vec![]));
    assert_eq!(host.call(Call::RemoveElement(key(4, 1))), (0, vec![20, 0, 0, 0]));
    assert_eq!(host.head[8], 2);
    assert_eq!(host.call(new_run(21, 210)), (0, vec![4, 2]));
    assert_eq!(host.elems[3 * FRAME + 2], 2);
    assert_eq!(host.call(Call::RemoveElement(key(4, 2))), (0, vec![21, 1, 210, 0]));
    assert_eq!(host.head[8], 3);
    let mut records = [0; 18];
    assert_eq!(host.lent(Call::Drain(key(3, 1)), &mut records), (0, vec![3]));
    assert_eq!(records, [3, 1, 12, 0, 0, 0, 2, 1, 11, 0, 0, 0, 1, 1, 10, 1, 100, 0]);
    assert_eq!(host.head[8], 6);
    let mut scratch = [9; 4 * FRAME + 1];
    assert_eq!(host.lent(Call::CompressCanonical { reset: 0 }, &mut scratch), (0, vec![0]));
    assert_eq!(scratch[..4 * FRAME], [0; 4 * FRAME]);
    assert_eq!(scratch[4 * FRAME], 9);
    assert_eq!(host.head, head([4, 0, 0, 0, 3, 0, 0, 0, 7]));
    assert!(host.elems.iter().chain(&host.shared).all(|&n| n == 0));
}

/// What P11 has before its compression.
fn p11() -> Host {
    let mut host = Host::fresh(4, 3);
    assert_eq!(host.call(new_run(10, 100)), (0, vec![1, 1]));
    assert_eq!(host.call(new_run(20, 200)), (0, vec![2, 1]));
    assert_eq!(host.call(Call::RemoveElement(key(1, 1))), (0, vec![10, 1, 100, 0]));
    assert_eq!(host.call(Call::Insert(key(2, 1), 21, 0)), (0, vec![1, 2]));
    host
}

#[test]
fn p11_and_p12() {
    let mut host = p11();
    assert_eq!(host.lent(Call::CompressCanonical { reset: 0 }, &mut [0; 4 * FRAME]), (0, vec![0]));
    assert_eq!(host.elems[..2 * FRAME], [3, 21, 1, 2, 2, 0, 3, 20, 1, 1, 1, 0]);
    assert_eq!(host.shared, [[2, 200, 0, 0, 0], [0; HEADER], [0; HEADER]].concat());
    assert_eq!(host.head, head([4, 2, 0, 2, 3, 1, 0, 1, 3]));

    let mut host = Host::fresh(4, 3);
    host.head[8] = 4_294_967_295;
    assert_eq!(host.call(new_run(10, 100)), (0, vec![1, 4_294_967_295]));
    assert_eq!(host.call(Call::RemoveElement(key(1, 4_294_967_295))), (0, vec![10, 1, 100, 1]));
    assert_eq!(host.head[8], 1);
}

/// Two rings of two, each with one frame of class 1 and one of class 2.
#[test]
fn mixed_rings_are_unsound() {
    let mut host = Host {
        head: head([4, 4, 0, 4, 3, 2, 0, 2, 1]),
        elems: [[1, 0, 1, 2, 2, 0], [1, 0, 2, 1, 1, 0], [1, 0, 1, 4, 4, 0], [1, 0, 2, 3, 3, 0]].concat(),
        shared: [[2, 0, 0, 0, 0], [2, 0, 0, 0, 0], [0; HEADER]].concat(),
    };
    assert_eq!(host.call(Call::Check), (2, vec![]));
    host.elems[FRAME + 2] = 1;
    host.elems[2 * FRAME + 2] = 2;
    assert_eq!(host.call(Call::Check), (0, vec![]));
}

/// Document 02's ticket 5: slot 1 is free, slot 2 was taken again, slot 3 is past the extent. Tested in the order 1, 2, 3; of
/// several keys the first dead one's cause.
#[test]
fn causes() {
    let mut host = Host::fresh(4, 3);
    assert_eq!(host.call(Call::Lookup(key(1, 1))), (dead(1), vec![]));
    let calls = [new_run(10, 100), new_run(20, 200), Call::RemoveElement(key(1, 1)), Call::RemoveElement(key(2, 1))];
    for call in calls.into_iter().chain([new_run(30, 300)]) {
        assert_eq!(host.call(call).0, 0);
    }
    assert_eq!(host.ring(key(2, 3)), [2]);
    for (k, result) in [
        (key(2, 3), 0),
        (key(0, 0), dead(1)),
        (key(3, 0), dead(1)),
        (key(u64::MAX, u64::MAX), dead(1)),
        (key(1, 1), dead(2)),
        (key(1, 0), dead(2)),
        (key(1, u64::MAX), dead(2)),
        (key(2, 1), dead(3)),
        (key(2, 0), dead(3)),
        (key(2, u64::MAX), dead(3)),
    ] {
        assert_eq!(host.call(Call::Lookup(k)), (result, vec![]), "{k:?}");
    }
    let (live, free, old) = (key(2, 3), key(1, 1), key(2, 1));
    for (keys, result) in [([live, old], 3), ([old, free], 3), ([free, old], 2), ([free, key(0, 1)], 2)] {
        assert_eq!(host.call(Call::Union(keys[0], keys[1])), (dead(result), vec![]));
        assert_eq!(
            host.call(Call::ExchangeShared4([live, keys[0], keys[1], key(9, 9)], [0; 4])),
            (dead(result), vec![])
        );
    }
}

/// Document 02's ticket 1: value, count, keys and payloads in one call; from then on 12, after 3 and 4, before 5 and 7.
#[test]
fn seal() {
    let mut host = Host::fresh(4, 3);
    for call in [new_run(10, 100), Call::Insert(key(1, 1), 11, 0), Call::Insert(key(1, 1), 12, 0), new_run(20, 200)] {
        assert_eq!(host.call(call).0, 0);
    }
    let mut places = [9; 3 * SEAL_PLACE + 1];
    assert_eq!(host.lent(Call::Seal(key(3, 1)), &mut places[..8]), (7, vec![]));
    assert_eq!((places, host.shared[MARK]), ([9; 10], 0));
    assert_eq!(host.lent(Call::Seal(key(3, 1)), &mut places), (0, vec![100, 3]));
    assert_eq!(places, [3, 1, 12, 2, 1, 11, 1, 1, 10, 9]);
    assert_eq!(host.shared, [[3, 100, 0, 1, 0], [1, 200, 0, 0, 0], [0; HEADER]].concat());
    for (call, number) in [
        (Call::Insert(key(2, 2), 13, 0), dead(3)),
        (Call::Union(key(1, 1), key(5, 1)), dead(1)),
        (Call::Union(key(1, 1), key(2, 1)), 4),
        (Call::Insert(key(2, 1), 13, 0), 12),
        (Call::Insert(key(4, 1), 13, 0), 5),
        (Call::Union(key(1, 1), key(4, 1)), 12),
        (Call::Union(key(4, 1), key(1, 1)), 12),
        (Call::Seal(key(4, 2)), dead(3)),
        (Call::Seal(key(2, 1)), 12),
        (Call::Seal(key(4, 1)), 7),
    ] {
        assert_eq!(host.call(call), (number, vec![]), "{call:?}");
    }
}

/// The mark goes with the run's last frame, and with compression to its new slot; clear and fresh drop it.
#[test]
fn the_mark() {
    let mut host = Host::fresh(4, 3);
    for call in [new_run(10, 100), new_run(20, 200), Call::Insert(key(2, 1), 21, 0)] {
        assert_eq!(host.call(call).0, 0);
    }
    assert_eq!(host.lent(Call::Seal(key(2, 1)), &mut [0; 6]).0, 0);
    assert_eq!(host.call(Call::RemoveElement(key(1, 1))).0, 0);
    assert_eq!(host.lent(Call::CompressCanonical { reset: 0 }, &mut [0; 4 * FRAME]).0, 0);
    assert_eq!(host.shared[..HEADER], [2, 200, 0, 1, 0]);
    let (mut cleared, mut freshened) = (host.clone(), host.clone());
    assert_eq!(cleared.call(Call::Clear).0, 0);
    assert_eq!(freshened.call(Call::Fresh { elems: 4, shared: 3 }).0, 0);
    assert!(cleared.shared.iter().chain(&freshened.shared).all(|&n| n == 0));
    assert_eq!(host.call(Call::RemoveElement(key(1, 3))), (0, vec![20, 0, 0, 0]));
    assert_eq!(host.shared[..HEADER], [1, 200, 0, 1, 0]);
    assert_eq!(host.call(Call::RemoveElement(key(2, 3))), (0, vec![21, 1, 200, 0]));
    assert_eq!(host.shared[..HEADER], [0; HEADER]);
    assert_eq!(host.call(new_run(30, 300)), (0, vec![2, 5]));
    assert_eq!(host.shared[..HEADER], [1, 300, 0, 0, 0]);
}

/// Document 02's ticket 3: frames and headers move down in the order of their slots, with the keys from before and after.
#[test]
fn compress_with() {
    let mut host = Host::fresh(5, 4);
    for call in [new_run(10, 100), new_run(20, 200), Call::Insert(key(2, 1), 21, 0), new_run(30, 300)] {
        assert_eq!(host.call(call).0, 0);
    }
    assert_eq!(host.lent(Call::Seal(key(4, 1)), &mut [0; SEAL_PLACE]).0, 0);
    for call in [Call::RemoveElement(key(1, 1)), Call::Insert(key(3, 1), 22, 0), Call::RemoveElement(key(2, 1))] {
        assert_eq!(host.call(call).0, 0);
    }
    // ring 3, 1 under 200 in shared slot 2, and 4 under 300 in shared slot 3, sealed; slot 2 and the first header are free
    let before = host.clone();
    let mut pairs = [9; 3 * PAIR + 1];
    assert_eq!(host.lent(Call::CompressWith { reset: 0 }, &mut pairs[..3 * PAIR - 1]), (7, vec![]));
    assert_eq!((pairs, &host.elems, host.head), ([9; 13], &before.elems, before.head));
    assert_eq!(host.lent(Call::CompressWith { reset: 0 }, &mut pairs), (0, vec![3, 0]));
    assert_eq!(pairs, [1, 2, 1, 4, 3, 1, 2, 4, 4, 1, 3, 4, 9]);
    let rows = [[4, 22, 1, 2, 2, 0], [4, 21, 1, 1, 1, 0], [4, 30, 2, 3, 3, 0]];
    assert_eq!(host.elems[..3 * FRAME], rows.concat());
    assert_eq!(host.shared, [[2, 200, 0, 0, 0], [1, 300, 0, 1, 0], [0; HEADER], [0; HEADER]].concat());
    assert_eq!((host.head, &host.elems[3 * FRAME..]), (head([5, 3, 0, 3, 4, 2, 0, 2, 4]), &[0; 2 * FRAME][..]));
    let mut reset = before;
    reset.head[8] = 4_294_967_295;
    let mut over = reset.clone();
    assert_eq!(reset.lent(Call::CompressWith { reset: 1 }, &mut pairs), (0, vec![3, 0]));
    assert_eq!(over.lent(Call::CompressWith { reset: 0 }, &mut pairs), (0, vec![3, 1]));
    assert_eq!((reset.head[8], over.head[8], reset.elems), (1, 1, over.elems));
    let mut empty = Host::fresh(1, 1);
    assert_eq!(empty.call(Call::CompressWith { reset: 0 }), (0, vec![0, 0]));
    assert_eq!(empty.head, head([1, 0, 0, 0, 1, 0, 0, 0, 2]));
}

/// P11's state comes out alike under both compressions, pairs aside. With a run more, whose header stands before, it does not.
#[test]
fn p11_under_both_compressions() {
    for (more, alike) in [(None, true), (Some(new_run(30, 300)), false)] {
        let mut canonical = p11();
        if let Some(call) = more {
            assert_eq!(canonical.call(call), (0, vec![3, 2]));
        }
        let mut ordered = canonical.clone();
        assert_eq!(canonical.lent(Call::CompressCanonical { reset: 0 }, &mut [0; 4 * FRAME]).0, 0);
        assert_eq!(ordered.lent(Call::CompressWith { reset: 0 }, &mut [0; 3 * PAIR]).0, 0);
        assert_eq!(canonical.head, ordered.head);
        assert_eq!((canonical.elems == ordered.elems, canonical.shared == ordered.shared), (alike, alike));
    }
}

/// Document 02's ticket 6, the whole case with sizes: ring 1, 3, 2 of 1, 4 and 2 bytes, and 4 of the most. Totals through
/// insert, union from either side, removals and both compressions.
#[test]
fn sizes_and_totals() {
    let mut host = Host::fresh(4, 3);
    let most = u64::from(u32::MAX);
    for call in [
        Call::InsertSurject { payload: 10, value: 100, size: 1 },
        Call::Insert(key(1, 1), 11, 2),
        Call::Insert(key(1, 1), 12, 4),
        Call::InsertSurject { payload: 20, value: 200, size: u32::MAX },
    ] {
        assert_eq!(host.call(call).0, 0);
    }
    assert_eq!(host.shared, [[3, 100, 0, 0, 7], [1, 200, 0, 0, most], [0; HEADER]].concat());
    for (slot, size, total) in [(1, 1, 7), (2, 2, 7), (3, 4, 7), (4, most, most)] {
        assert_eq!(host.call(Call::GetSize(key(slot, 1))), (0, vec![size]));
        assert_eq!(host.call(Call::GetTotal(key(slot, 1))), (0, vec![total]));
    }
    assert_eq!(host.call(Call::GetSize(key(4, 2))), (dead(3), vec![]));
    assert_eq!(host.call(Call::GetTotal(key(5, 1))), (dead(1), vec![]));
    let mut other = host.clone();
    assert_eq!(host.call(Call::Union(key(4, 1), key(1, 1))).0, 0);
    assert_eq!(other.call(Call::Union(key(1, 1), key(4, 1))).0, 0);
    for host in [&mut host, &mut other] {
        assert_eq!(host.shared[..HEADER], [4, 100, 0, 0, 7 + most]);
        assert_eq!(host.call(Call::Set(key(4, 1), 21)), (0, vec![20]));
        assert_eq!(host.call(Call::RemoveElement(key(1, 1))).0, 0);
        assert_eq!(host.shared[..HEADER], [3, 100, 0, 0, 6 + most]);
    }
    assert_eq!(host.lent(Call::CompressCanonical { reset: 0 }, &mut [0; 4 * FRAME]).0, 0);
    assert_eq!(other.lent(Call::CompressWith { reset: 0 }, &mut [0; 3 * PAIR]).0, 0);
    let sizes = |host: &Host| host.elems.chunks(FRAME).map(|row| row[SIZE]).collect::<Vec<_>>();
    assert_eq!((sizes(&host), host.shared[TOTAL]), (vec![2, most, 4, 0], 6 + most));
    assert_eq!((sizes(&other), other.shared[TOTAL]), (vec![2, 4, most, 0], 6 + most));
    for (slot, left) in [(2, 6), (1, 4), (3, 0)] {
        assert_eq!(host.call(Call::RemoveElement(key(slot, 3))).0, 0);
        assert_eq!(host.shared[TOTAL], left);
    }
    assert_eq!(sizes(&host), [0; 4]);
}

/// A total one off, and a size past a u32 with the total that goes with it.
#[test]
fn sizes_and_totals_that_are_unsound() {
    let mut host = Host::fresh(2, 2);
    assert_eq!(host.call(Call::InsertSurject { payload: 1, value: 2, size: u32::MAX }).0, 0);
    for (size, total, number) in [(7, 7, 0), (7, 8, 2), (7, 6, 2), (0, 0, 0), (1 << 32, 1 << 32, 2), (1 << 32, 0, 2)] {
        (host.elems[SIZE], host.shared[TOTAL]) = (size, total);
        assert_eq!(host.call(Call::Check), (number, vec![]), "{size} {total}");
        let linear = check::sound(&model::Head::of(&host.head), &host.elems, &host.shared);
        assert_eq!(linear, number == 0, "{size} {total}");
    }
}

/// Document 02's ticket 7: P4's union taken back, number for number; nothing to undo after it, nor after a set of the same payload.
#[test]
fn undo() {
    let mut host = Host::fresh(4, 3);
    assert_eq!(host.call(Call::Undo), (10, vec![]));
    for call in [new_run(10, 100), Call::Insert(key(1, 1), 11, 0), Call::Insert(key(1, 1), 12, 0), new_run(20, 200)] {
        assert_eq!(host.call(call).0, 0);
    }
    let before = host.clone();
    assert_eq!(host.call(Call::Union(key(4, 1), key(1, 1))), (0, vec![200, 1, 1, 1]));
    assert_eq!(host.head, [4, 4, 0, 4, 3, 2, 2, 1, 1, 1, 4, 1, 200]);
    for call in [Call::Check, Call::Get(key(4, 1)), Call::Lookup(key(4, 1)), Call::Set(key(4, 2), 21)] {
        host.call(call);
    }
    assert_eq!(host.ring(key(1, 1)), [1, 4, 3, 2]);
    let mut set = host.clone();
    assert_eq!(host.call(Call::Undo), (0, vec![]));
    assert_eq!((host.head, &host.elems, &host.shared), (before.head, &before.elems, &before.shared));
    assert_eq!(host.call(Call::Undo), (10, vec![]));
    assert_eq!(set.call(Call::Set(key(4, 1), 20)), (0, vec![20]));
    assert_eq!((set.head[9..].to_vec(), set.call(Call::Undo)), (vec![0; 4], (10, vec![])));
}

/// What the head may remember after P4's union, ring 1, 4, 3, 2: that one under any value, and no other.
#[test]
fn memories_that_are_unsound() {
    let mut host = Host::fresh(4, 3);
    for call in [new_run(10, 100), Call::Insert(key(1, 1), 11, 0), Call::Insert(key(1, 1), 12, 0), new_run(20, 200)] {
        assert_eq!(host.call(call).0, 0);
    }
    assert_eq!(host.call(Call::Union(key(4, 1), key(1, 1))).0, 0);
    let numbers = [0, 1, 2, 3, 4, 5, u64::MAX];
    let mut sound = vec![];
    for memory in (0..7usize.pow(3)).map(|n| [numbers[n % 7], numbers[n / 7 % 7], numbers[n / 49], 9]) {
        host.head[9..].copy_from_slice(&memory);
        let linear = check::sound(&model::Head::of(&host.head), &host.elems, &host.shared);
        assert_eq!(linear, host.call(Call::Check).0 == 0, "{memory:?}");
        if linear {
            sound.push(memory);
        }
    }
    // any frame and the next one, or the next but one: so far the first part is the larger one, or as large
    sound.sort_unstable();
    let wanted = [[1, 3, 2, 9], [1, 4, 1, 9], [2, 1, 1, 9], [2, 4, 2, 9]];
    assert_eq!(sound, [wanted, [[3, 1, 2, 9], [3, 2, 1, 9], [4, 2, 2, 9], [4, 3, 1, 9]]].concat());
}

/// The linear check and the sentences by sets agree: grown states, with one to three numbers changed.
#[test]
fn the_check_is_the_sentences() {
    let mut seed = 88_172_645_463_325_252u64;
    let mut next = move |below: u64| {
        seed ^= seed << 13;
        seed ^= seed >> 7;
        seed ^= seed << 17;
        seed % below
    };
    let mut verdicts = [0u32; 2];
    for _ in 0..20_000 {
        let mut host = Host::fresh(1 + next(5), 1 + next(4));
        for _ in 0..next(12) {
            let (j, k) = (key(1 + next(5), 1 + next(3)), key(1 + next(5), 1 + next(3)));
            let call = match next(6) {
                0 => Call::InsertSurject { payload: next(3), value: next(3), size: next(3) as u32 },
                1 => Call::Insert(k, next(3), next(3) as u32),
                2 => Call::Union(j, k),
                3 => Call::Seal(k),
                4 => Call::Undo,
                _ => Call::RemoveElement(k),
            };
            host.lent(call, &mut [0; 5 * SEAL_PLACE]);
        }
        for _ in 0..next(4) {
            let value = next(7);
            match next(4) {
                0 => host.head[[1, 2, 3, 5, 6, 7, 8][next(7) as usize]] = value,
                3 => host.head[9 + next(3) as usize] = value,
                1 => *pick(&mut host.elems, next(1 << 32)) = value,
                _ => *pick(&mut host.shared, next(1 << 32)) = value,
            }
        }
        let head = model::Head::of(&host.head);
        let verdict = sets::sound(&head, &host.elems, &host.shared);
        assert_eq!(
            check::sound(&head, &host.elems, &host.shared),
            verdict,
            "{:?} {:?} {:?}",
            host.head,
            host.elems,
            host.shared
        );
        verdicts[verdict as usize] += 1;
    }
    assert!(verdicts[0] > 2_000 && verdicts[1] > 2_000, "{verdicts:?}");
}

fn pick(table: &mut [u64], n: u64) -> &mut u64 {
    let at = n as usize % table.len();
    &mut table[at]
}
