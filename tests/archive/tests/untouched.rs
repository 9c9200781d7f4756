//! Refusals, below the table: a refusal leaves head, tables, outputs and scratch untouched. Here they lie in pages that
//! cannot be written, where a store even of the numbers that stood there already ends the process: every refusal of
//! every entry is had there. So lies the source of every copy, accepted or not, and the tables of an empty source of a move.

use archive::copies::copy_at;
use archive::pages::{End, Pages, Parts, end_of, is_fault, listed};
use archive::transfers::{modelled, transfer_at};
use archive::{Host, UNTOUCHED, every_call, key, run_at};
use doorsedge::sys::doorsedge_union_ceiling;
use model::door::{self, Call};
use model::layout::{COUNT, MARK, SIZE, TOTAL};
use model::{FRAME, HEADER, Key, Source, check, copy};
use std::collections::BTreeSet;

/// How a child process ends that makes the call.
fn end(parts: &Parts, call: &Call) -> End {
    let lent = parts.lent();
    // Safety: over pages that are apart
    end_of(|| unsafe { run_at(lent, call) })
}

/// The same of a copy, target first.
fn end_of_copy(to: &Parts, from: &Parts) -> End {
    let (to, from) = (to.lent(), from.lent());
    // Safety: as above
    end_of(|| unsafe { copy_at(to, from) })
}

/// The same of a move; `out` is the target's.
fn end_of_move(to: &Parts, generation: u32, from: &Parts) -> End {
    let (to, from) = (to.lent(), from.lent());
    // Safety: as above
    end_of(|| unsafe { transfer_at(to, generation, from, to.out.cast()) })
}

/// The model's result and what it leaves, with `out` last.
fn model(host: &Host, call: &Call, buffer: &[u64]) -> (u64, [Vec<u64>; 5]) {
    let (mut host, mut buffer, mut out) = (host.clone(), buffer.to_vec(), [UNTOUCHED; 4]);
    let (h, e, s) = (&mut host.head, &mut host.elems, &mut host.shared);
    let number = door::run(check::sound, h, e, s, call, &mut buffer, &mut out);
    (number, [host.head.to_vec(), host.elems, host.shared, buffer, out.to_vec()])
}

/// The same of a copy: the model's result, and what it leaves of the target.
fn model_copy(target: &Host, source: &Host) -> (u64, [Vec<u64>; 3]) {
    let mut host = target.clone();
    let from = Source { head: &source.head, elems: &source.elems, shared: &source.shared };
    let number = copy::run(check::sound, &mut host.head, &mut host.elems, &mut host.shared, from);
    (number, [host.head.to_vec(), host.elems, host.shared])
}

/// Runs of slots 1, 3 and of slot 2, in tables of these capacities.
fn two_runs(elems: u64, shared: u64) -> Host {
    let mut host = Host::fresh(elems, shared);
    let new_run = |payload, value| Call::InsertSurject { payload, value, size: 9 };
    for call in [new_run(1, 2), new_run(3, 4), Call::Insert(key(1, 1), 5, 9)] {
        assert_eq!(host.call(call, &[]).number, 0);
    }
    host
}

/// A run of slots 1 and 2 after their union, which can be undone, and runs of slots 3, 4 and 5.
fn joined() -> Host {
    let mut host = Host::fresh(6, 6);
    for n in 1..=5 {
        assert_eq!(host.call(Call::InsertSurject { payload: n, value: n, size: 9 }, &[]).number, 0);
    }
    assert_eq!(host.call(Call::Union(key(1, 1), key(2, 1)), &[]).number, 0);
    host
}

/// Sound ones with room, without an element slot, without a shared slot and without either, empty ones, ones with a free
/// slot, ones with a sealed run, and ones after a union; then unsound ones, and ones that do not fit.
fn hosts() -> Vec<Host> {
    let changed = |change: fn(&mut Host)| {
        let mut host = two_runs(4, 3);
        change(&mut host);
        host
    };
    vec![
        two_runs(4, 3),
        two_runs(3, 3),
        two_runs(4, 2),
        two_runs(3, 2),
        Host::fresh(4, 3),
        changed(|host| drop(host.call(Call::RemoveElement(key(3, 1)), &[]))),
        changed(|host| host.shared[MARK] = 1),
        joined(),
        changed(|host| host.head[9..].copy_from_slice(&[1, 3, 1, 7])),
        changed(|host| host.head[12] = 1),
        changed(|host| host.head[3] += 1),
        changed(|host| host.head[8] = 0),
        changed(|host| host.elems[2] = 2),
        changed(|host| host.shared[COUNT] = 3),
        changed(|host| host.shared[MARK] = 2),
        changed(|host| host.shared[TOTAL] += 1),
        changed(|host| (host.elems[FRAME + SIZE], host.shared[HEADER + TOTAL]) = (1 << 32, 1 << 32)),
        changed(|host| host.elems.truncate(19)),
        changed(|host| host.shared.push(0)),
        changed(|host| host.elems.clear()),
        changed(|host| host.shared.clear()),
        changed(|host| host.head[0] = 0),
        changed(|host| host.head[4] = 65_537),
    ]
}

fn calls(j: Key, k: Key) -> Vec<Call> {
    let mut calls = every_call(j, k);
    calls.extend([(4, 4), (0, 3), (65_537, 3), (4, 3)].map(|(elems, shared)| Call::Fresh { elems, shared }));
    calls
}

/// Keys of two runs, of one, and dead ones.
const KEYS: [[(u64, u64); 2]; 5] =
    [[(1, 1), (2, 1)], [(1, 1), (3, 1)], [(2, 1), (3, 2)], [(0, 1), (2, 1)], [(4, 1), (9, 9)]];

/// How the ceiling of `n` ends with its `out` locked.
fn ceiling_locked(n: u64) -> End {
    let out = Pages::of(&[UNTOUCHED]);
    out.lock();
    // Safety: `out` has its one place
    end_of(|| unsafe { doorsedge_union_ceiling(n, out.start.cast()) })
}

#[test]
fn refusals_write_nothing() {
    let mut had = BTreeSet::new();
    let mut wrote = BTreeSet::new();
    for host in hosts() {
        for keys in KEYS {
            let [j, k] = keys.map(|(slot, generation)| key(slot, generation));
            for (call, buffer) in
                calls(j, k).iter().flat_map(|call| [(call, &[][..]), (call, &[77; 11]), (call, &[77; 40])])
            {
                let (number, _) = model(&host, call, buffer);
                if number == 0 {
                    continue;
                }
                let parts = Parts::of(&host, buffer);
                parts.0.iter().for_each(Pages::lock);
                let end = end(&parts, call);
                if is_fault(&end) {
                    wrote.insert((call.name().0, number));
                } else {
                    assert_eq!(end, End::Said(number), "{call:?} of {host:?}");
                    had.insert((call.name().0.to_owned(), number));
                }
            }
        }
    }
    for (target, source) in hosts().iter().flat_map(|target| sources().map(|source| (target.clone(), source))) {
        let (number, _) = model_copy(&target, &source);
        if number == 0 {
            continue;
        }
        let (to, from) = (Parts::of(&target, &[]), Parts::of(&source, &[]));
        to.0.iter().chain(&from.0).for_each(Pages::lock);
        let end = end_of_copy(&to, &from);
        if is_fault(&end) {
            wrote.insert(("clone_from", number));
        } else {
            assert_eq!(end, End::Said(number), "a copy of {source:?} to {target:?}");
            had.insert(("clone_from".to_owned(), number));
        }
    }
    for (target, source, generation) in moves() {
        let (number, ..) = modelled(check::sound, [&target, &source], generation);
        if number == 0 {
            continue;
        }
        let (to, from) = (Parts::of(&target, &[]), Parts::of(&source, &[]));
        to.0.iter().chain(&from.0).for_each(Pages::lock);
        let end = end_of_move(&to, generation, &from);
        if is_fault(&end) {
            wrote.insert(("transfer_canonical", number));
        } else {
            assert_eq!(end, End::Said(number), "a move of {source:?} to {target:?}");
            had.insert(("transfer_canonical".to_owned(), number));
        }
    }
    assert!(wrote.is_empty(), "these refused, and wrote: {wrote:?}");
    // the one entry that takes no tables
    assert_eq!(ceiling_locked(0), End::Said(13));
    had.insert(("union_ceiling".to_owned(), 13));
    // those of run files are in untouched_files.rs
    let listed = listed().into_iter().filter(|(entry, _)| !["write_file", "read_file"].contains(&&entry[..]));
    assert_eq!(had, listed.collect());
}

/// What is copied: every state, and runs of which only the last slots are live.
fn sources() -> impl Iterator<Item = Host> {
    let last_alone = [(6, 1), (1, 6), (6, 6)].map(|(elems, shared)| {
        let mut host = Host::fresh(6, 6);
        for slot in 1..elems.max(shared) {
            assert_eq!(host.call(Call::InsertSurject { payload: slot, value: slot, size: 9 }, &[]).number, 0);
        }
        let last = host.call(Call::InsertSurject { payload: 6, value: 6, size: 9 }, &[]).out;
        assert_eq!(last[0], 6);
        // the frame in slot 6 under the first header, or the one in slot 1 under the last
        match (elems, shared) {
            (6, 1) => drop(host.call(Call::Union(key(1, 1), key(6, 1)), &[])),
            (1, 6) => drop(host.call(Call::Union(key(6, 1), key(1, 1)), &[])),
            _ => (),
        }
        for slot in (1..=6).filter(|slot| *slot != elems) {
            assert_eq!(host.call(Call::RemoveElement(key(slot, 1)), &[]).number, 0);
        }
        host
    });
    hosts().into_iter().chain(last_alone)
}

/// What is moved, and where to: every state to every state.
fn moves() -> impl Iterator<Item = (Host, Host, u32)> {
    let targets = hosts().into_iter().chain([Host::fresh(1, 3), Host::fresh(4, 1)]);
    targets
        .flat_map(|to| hosts().into_iter().flat_map(move |from| [0, 5].map(|given| (to.clone(), from.clone(), given))))
}

/// Each part that an accepted move changes is stored to, of target and source. Of an empty source no table is.
#[test]
fn a_move_writes_both() {
    let (mut accepted, mut empty) = (0, 0);
    for (target, source, generation) in moves() {
        let (number, [to, from], out) = modelled(check::sound, [&target, &source], generation);
        if number != 0 {
            continue;
        }
        accepted += 1;
        let parts = |host: Host, out: &[u64]| [host.head.to_vec(), host.elems, host.shared, vec![], out.to_vec()];
        let (after, left) = (parts(to, &[out[0], UNTOUCHED, UNTOUCHED, UNTOUCHED]), parts(from, &[UNTOUCHED; 4]));
        assert_eq!(end_of_move(&Parts::of(&target, &[]), generation, &Parts::of(&source, &[])), End::Said(0));
        for (side, part) in [0, 1].iter().flat_map(|side| (0..5).map(move |part| (*side, part))) {
            let both = [Parts::of(&target, &[]), Parts::of(&source, &[])];
            both[side].0[part].lock();
            let end = end_of_move(&both[0], generation, &both[1]);
            if both[side].0[part].numbers() != [&after, &left][side][part] {
                assert!(is_fault(&end), "a move does not write part {part} of {side}");
            } else if source.head[3] == 0 && side == 1 && part > 0 {
                assert_eq!(end, End::Said(0), "a move writes part {part} of an empty source");
                empty += 1;
            }
        }
    }
    assert!(accepted > 50 && empty > 10, "{accepted} accepted, {empty} parts of empty sources");
}

/// The source of an accepted copy is not stored to, and each part of the target that it changes is.
#[test]
fn a_copy_writes_its_target_alone() {
    let mut accepted = 0;
    for (target, source) in hosts().iter().flat_map(|target| sources().map(|source| (target.clone(), source))) {
        let (number, after) = model_copy(&target, &source);
        if number != 0 {
            continue;
        }
        accepted += 1;
        let from = Parts::of(&source, &[]);
        from.0.iter().for_each(Pages::lock);
        let to = Parts::of(&target, &[]);
        assert_eq!(end_of_copy(&to, &from), End::Said(0), "a copy of {source:?} to {target:?}");
        for (part, after) in after.iter().enumerate() {
            let to = Parts::of(&target, &[]);
            to.0[part].lock();
            if to.0[part].numbers() != after {
                assert!(is_fault(&end_of_copy(&to, &from)), "a copy does not write part {part}");
            }
        }
    }
    assert!(accepted > 50, "{accepted} accepted");
}

/// The pages do what the test above rests on: an accepted call, each part that it changes locked in turn, ends the process;
/// with none locked it goes through.
#[test]
fn accepted_calls_write() {
    assert!(is_fault(&ceiling_locked(1)));
    let buffer = [77; 40];
    let mut stores = BTreeSet::new();
    let exchange = Call::ExchangeShared4([1, 3, 4, 5].map(|slot| key(slot, 1)), [1, 3, 4, 5]);
    let with =
        |host: Host| calls(key(1, 1), key(2, 1)).into_iter().chain([exchange]).map(move |call| (host.clone(), call));
    for (host, call) in with(two_runs(4, 3)).chain(with(joined())) {
        let (number, after) = model(&host, &call, &buffer);
        if number != 0 {
            continue;
        }
        assert_eq!(end(&Parts::of(&host, &buffer), &call), End::Said(0));
        for (part, after) in after.iter().enumerate() {
            let parts = Parts::of(&host, &buffer);
            parts.0[part].lock();
            if parts.0[part].numbers() != after {
                assert!(is_fault(&end(&parts, &call)), "{call:?} does not write part {part}");
                if part == 0 {
                    stores.insert(call.name().0);
                }
            }
        }
    }
    assert_eq!(stores.len(), 18, "eighteen entries store the head: {stores:?}");
}
