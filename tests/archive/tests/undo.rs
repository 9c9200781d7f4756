//! Ticket 7 of document 02: the last union taken back, number for number; what drops it and what keeps it; what the head may
//! remember. Each call is also compared with the model's in every number, and a refused call held to change nothing.

use archive::random::{Random, any_buffer, any_call, begun};
use archive::{Host, UNTOUCHED, every_call, head, key, memories};
use model::door::Call;
use model::layout::{COUNT, MARK, MOST_BYTES, NEXT_FREE, SIZE, TOTAL, VALUE};
use model::{FRAME, HEADER, Key, SEAL_PLACE, check};

fn new_run(payload: u64, value: u64, size: u32) -> Call {
    Call::InsertSurject { payload, value, size }
}

/// The call is accepted; its answer.
fn done(host: &mut Host, call: Call) -> [u64; 4] {
    let said = host.call(call, &[0; 64]);
    assert_eq!(said.number, 0, "{call:?} of {host:?}");
    said.out
}

fn after(host: &Host, call: Call) -> Host {
    let mut host = host.clone();
    done(&mut host, call);
    host
}

fn number(host: &Host, call: Call) -> u64 {
    host.clone().call(call, &[0; 64]).number
}

/// What the head remembers: the kept key's slot, the other's, frames moved, the value removed.
fn memory(host: &Host) -> [u64; 4] {
    host.head[9..].try_into().unwrap()
}

/// P1 to P3 of document 01's worked numbers: ring 1, 3, 2 under 100, and 4 under 200.
fn p3() -> Host {
    let mut host = Host::fresh(4, 3);
    for call in [new_run(10, 100, 0), Call::Insert(key(1, 1), 11, 0), Call::Insert(key(1, 1), 12, 0)] {
        done(&mut host, call);
    }
    done(&mut host, new_run(20, 200, 0));
    host
}

/// Runs of one in the first slots of six, each under ten times its slot.
fn runs(count: u64) -> Host {
    let mut host = Host::fresh(6, 6);
    for n in 1..=count {
        done(&mut host, new_run(100 + n, 10 * n, n as u32));
    }
    host
}

/// P4's union, and its undo: head and tables number for number.
#[test]
fn p4_taken_back() {
    let mut host = p3();
    assert_eq!(host.head, [4, 4, 0, 4, 3, 2, 0, 2, 1, 0, 0, 0, 0]);
    let elems = [[1, 10, 1, 2, 3, 0], [1, 11, 1, 3, 1, 0], [1, 12, 1, 1, 2, 0], [1, 20, 2, 4, 4, 0]].concat();
    let shared = [[3, 100, 0, 0, 0], [1, 200, 0, 0, 0], [0; HEADER]].concat();
    assert_eq!((&host.elems, &host.shared), (&elems, &shared));

    assert_eq!(done(&mut host, Call::Union(key(4, 1), key(1, 1))), [200, 1, 1, 1]);
    assert_eq!(host.head, [4, 4, 0, 4, 3, 2, 2, 1, 1, 1, 4, 1, 200]);
    assert_eq!(
        host.elems,
        [[1, 10, 1, 2, 4, 0], [1, 11, 1, 3, 1, 0], [1, 12, 1, 4, 2, 0], [1, 20, 1, 1, 3, 0]].concat()
    );
    assert_eq!(host.shared, [[4, 100, 0, 0, 0], [0; HEADER], [0; HEADER]].concat());

    assert_eq!(done(&mut host, Call::Undo), [UNTOUCHED; 4]);
    assert_eq!(host.head, [4, 4, 0, 4, 3, 2, 0, 2, 1, 0, 0, 0, 0]);
    assert_eq!((&host.elems, &host.shared), (&elems, &shared));
    // and there is nothing further to undo
    assert_eq!(number(&host, Call::Undo), 10);
}

#[test]
fn nothing_to_undo() {
    for host in [Host::fresh(1, 1), p3(), runs(6)] {
        assert_eq!(number(&host, Call::Undo), 10);
    }
    let joined = after(&runs(4), Call::Union(key(1, 1), key(2, 1)));
    let once = after(&joined, Call::Undo);
    assert_eq!((number(&once, Call::Undo), once), (10, runs(4)));
}

/// 1 and 2 come before 10.
#[test]
fn the_order_of_refusals() {
    for host in [p3(), after(&p3(), Call::Union(key(4, 1), key(1, 1)))] {
        let (mut short, mut unsound) = (host.clone(), host.clone());
        short.elems.pop();
        unsound.head[8] = 0;
        assert_eq!((number(&short, Call::Undo), number(&unsound, Call::Undo)), (1, 2));
        short.head[8] = 0;
        assert_eq!(number(&short, Call::Undo), 1);
    }
}

/// Whichever key is first, the larger run's is the kept one; of equal runs the first key's.
#[test]
fn roles_and_equal_sizes() {
    let mut three = runs(5);
    for (j, k) in [(1, 2), (2, 3)] {
        done(&mut three, Call::Union(key(j, 1), key(k, 1)));
    }
    done(&mut three, Call::Union(key(4, 1), key(5, 1)));
    done(&mut three, Call::Set(key(1, 1), 101));
    // runs of slots 1 to 3 and of 4 and 5: any frame of either, from either side
    for (j, k) in (1..=3).flat_map(|j| [(j, 4), (j, 5)]) {
        for (first, second) in [(j, k), (k, j)] {
            let mut host = three.clone();
            assert_eq!(done(&mut host, Call::Union(key(first, 1), key(second, 1))), [40, j, 1, 2]);
            assert_eq!(memory(&host), [j, k, 2, 40]);
            assert_eq!(after(&host, Call::Undo), three);
        }
    }
    // runs of one, equally large
    for (first, second) in [(1, 2), (2, 1), (6, 3)] {
        let host = runs(6);
        let joined = after(&host, Call::Union(key(first, 1), key(second, 1)));
        assert_eq!(memory(&joined), [first, second, 1, 10 * second]);
        assert_eq!(after(&joined, Call::Undo), host);
    }
}

/// Value 0 and the largest: what is remembered is the slots.
#[test]
fn any_value() {
    for value in [0, 1, u64::MAX] {
        let mut host = runs(3);
        done(&mut host, Call::SetShared(key(2, 1), value));
        let joined = after(&host, Call::Union(key(3, 1), key(2, 1)));
        assert_eq!(memory(&joined), [3, 2, 1, value]);
        assert_eq!(after(&joined, Call::Undo), host);
    }
}

/// Shared slots 4, 2 and 5 are free, in that order; the union's goes before them and comes back.
#[test]
fn the_free_chain_of_shared_slots() {
    let mut host = runs(6);
    for slot in [5, 2, 4] {
        done(&mut host, Call::RemoveShared(key(slot, 1)));
    }
    let next_free = |host: &Host, c: usize| host.shared[(c - 1) * HEADER + NEXT_FREE];
    let chain = |host: &Host| [host.head[6], next_free(host, 4), next_free(host, 2), next_free(host, 5)];
    assert_eq!(chain(&host), [4, 2, 5, 0]);
    for (j, k, freed) in [(1, 3, 3), (3, 1, 1), (1, 6, 6), (6, 3, 3)] {
        let joined = after(&host, Call::Union(key(j, 1), key(k, 1)));
        assert_eq!((joined.head[6], next_free(&joined, freed), joined.head[7]), (freed as u64, 4, 2));
        let undone = after(&joined, Call::Undo);
        assert_eq!((chain(&undone), undone.head[7]), ([4, 2, 5, 0], 3));
        assert_eq!(undone, host);
    }
}

/// Totals are parted again, of any sizes.
#[test]
fn totals() {
    let mut host = Host::fresh(6, 4);
    for call in [new_run(1, 10, u32::MAX), Call::Insert(key(1, 1), 2, 0), Call::Insert(key(1, 1), 3, 5)] {
        done(&mut host, call);
    }
    for call in [new_run(4, 20, 7), Call::Insert(key(4, 1), 5, u32::MAX)] {
        done(&mut host, call);
    }
    let joined = after(&host, Call::Union(key(4, 1), key(2, 1)));
    assert_eq!((joined.shared[COUNT], joined.shared[TOTAL]), (5, 2 * MOST_BYTES + 12));
    let undone = after(&joined, Call::Undo);
    assert_eq!((undone.shared[TOTAL], undone.shared[HEADER + TOTAL]), (MOST_BYTES + 5, MOST_BYTES + 7));
    assert_eq!(undone, host);
}

/// Every call once, at a state that can be undone, where most are accepted: runs of slots 1 and 2, joined, and of 3, 4 and 5.
fn in_between() -> (Host, Vec<Call>) {
    let joined = after(&runs(5), Call::Union(key(1, 1), key(2, 1)));
    let mut calls = every_call(key(1, 1), key(3, 1));
    calls.extend([
        Call::Fresh { elems: 6, shared: 6 },
        Call::ExchangeShared4([1, 3, 4, 5].map(|slot| key(slot, 1)), [1, 2, 3, 4]),
        // those that leave equal values
        Call::Set(key(1, 1), 101),
        Call::SetShared(key(1, 1), 10),
        Call::ExchangeShared4([1, 3, 4, 5].map(|slot| key(slot, 1)), [10, 30, 40, 50]),
        Call::Set(key(5, 1), 105),
        Call::SetShared(key(5, 1), 50),
    ]);
    (joined, calls)
}

/// Kept by reads, lists, lookups and the check; dropped by every other accepted call, also where its values were there already.
#[test]
fn what_keeps_it_and_what_drops_it() {
    let keeps =
        ["check", "lookup", "len_surject", "in_same_surject", "get", "get_shared", "get_size", "get_total", "list"];
    let (joined, calls) = in_between();
    let (mut kept, mut dropped) = (0, 0);
    for call in calls {
        let mut host = joined.clone();
        if matches!(call, Call::Undo | Call::Union(..)) || host.call(call, &[0; 64]).number != 0 {
            continue;
        }
        if keeps.contains(&call.name().0) {
            assert_eq!(host, joined, "{call:?}");
            assert_eq!(after(&host, Call::Undo), runs(5), "{call:?}");
            kept += 1;
        } else {
            assert_eq!(memory(&host), [0; 4], "{call:?}");
            assert_eq!(number(&host, Call::Undo), 10, "{call:?}");
            dropped += 1;
        }
    }
    // every call but the four-key one with keys twice, union and undo; and fresh, two exchanges and four sets more
    assert_eq!((kept, dropped), (9, 14 + 7));
}

/// A set of what stood there changes nothing but what the head remembers.
#[test]
fn equal_values() {
    let (joined, calls) = in_between();
    for &call in &calls[calls.len() - 5..] {
        let mut wanted = joined.clone();
        wanted.head[9..].fill(0);
        assert_eq!(after(&joined, call), wanted, "{call:?}");
    }
    // so does a seal but for its mark, and a compression where nothing moves but for the keys
    let sealed = after(&joined, Call::Seal(key(4, 1)));
    assert_eq!((memory(&sealed), sealed.shared[3 * HEADER + MARK]), ([0; 4], 1));
    assert_eq!(memory(&after(&joined, Call::CompressWith { reset: 1 })), [0; 4]);
}

/// Each refusal that a call can give then leaves it, and the union is taken back.
#[test]
fn a_refused_call_leaves_it() {
    let mut host = Host::fresh(6, 5);
    for n in 1..=5 {
        done(&mut host, new_run(n, n, 0));
    }
    done(&mut host, Call::Seal(key(5, 1)));
    done(&mut host, Call::RemoveElement(key(4, 1)));
    let before = host.clone();
    done(&mut host, Call::Union(key(1, 1), key(2, 1)));
    let (one, gone) = (key(1, 1), key(4, 1));
    for (call, lent, said) in [
        (Call::Get(gone), 64, 3),
        (Call::Lookup(key(9, 1)), 64, 3),
        (Call::Set(gone, 7), 64, 3),
        (Call::SetShared(key(1, 2), 7), 64, 3),
        (Call::ExchangeShared4([one, key(3, 1), key(5, 1), gone], [0; 4]), 64, 3),
        (Call::ExchangeShared4([one, key(3, 1), key(5, 1), key(2, 1)], [0; 4]), 64, 4),
        (Call::RemoveElement(gone), 64, 3),
        (Call::RemoveInPlace(gone), 64, 3),
        (Call::RemoveShared(gone), 64, 3),
        (Call::Drain(gone), 64, 3),
        (Call::Union(one, key(2, 1)), 64, 4),
        (Call::Union(one, key(5, 1)), 64, 12),
        (Call::Union(one, gone), 64, 3),
        (Call::Insert(key(5, 1), 7, 7), 64, 12),
        (Call::InsertInPlace(key(5, 1), 7, 7), 64, 12),
        (Call::Seal(key(5, 1)), 64, 12),
        (Call::Seal(one), 2 * SEAL_PLACE - 1, 7),
        (Call::List(one), 3, 7),
        (Call::Drain(one), 11, 7),
        (Call::DrainAll, 23, 7),
        (Call::CompressCanonical { reset: 0 }, 6 * FRAME - 1, 7),
        (Call::CompressWith { reset: 0 }, 15, 7),
        (Call::Fresh { elems: 7, shared: 5 }, 64, 1),
    ] {
        let mut host = host.clone();
        assert_eq!(host.call(call, &vec![0; lent]).number, said, "{call:?}");
        assert_eq!(memory(&host), [1, 2, 1, 2]);
        assert_eq!(after(&host, Call::Undo), before, "{call:?}");
    }
}

/// 5 leaves it too; 6 cannot be while a union's shared slot is free. And a state that was damaged in between and is mended again.
#[test]
fn no_room_and_damage_leave_it() {
    let mut full = runs(6);
    done(&mut full, Call::Union(key(6, 1), key(5, 1)));
    for call in [new_run(1, 1, 1), Call::Insert(key(1, 1), 1, 1), Call::InsertInPlace(key(1, 1), 1, 1)] {
        assert_eq!(full.call(call, &[]).number, 5);
        assert_eq!(after(&full, Call::Undo), runs(6));
    }
    full.head[3] += 1;
    assert_eq!(number(&full, Call::Undo), 2);
    full.head[3] -= 1;
    assert_eq!(after(&full, Call::Undo), runs(6));
}

/// Only the last union of several comes back.
#[test]
fn the_last_of_several() {
    let first = after(&runs(6), Call::Union(key(1, 1), key(2, 1)));
    let second = after(&first, Call::Union(key(3, 1), key(1, 1)));
    assert_eq!(memory(&second), [1, 3, 1, 30]);
    let mut wanted = first.clone();
    wanted.head[9..].fill(0);
    let undone = after(&second, Call::Undo);
    assert_eq!(undone, wanted);
    assert_eq!(number(&undone, Call::Undo), 10);
    // a union that is refused is no other union
    let mut refused = second;
    assert_eq!(refused.call(Call::Union(key(1, 1), key(3, 1)), &[]).number, 4);
    assert_eq!(after(&refused, Call::Undo), wanted);
}

/// Union, undo, union: the first one's answer and state.
#[test]
fn union_undo_union() {
    for (j, k) in [(4, 1), (1, 4), (2, 4), (4, 3)] {
        let mut host = p3();
        let answer = done(&mut host, Call::Union(key(j, 1), key(k, 1)));
        let joined = host.clone();
        done(&mut host, Call::Undo);
        assert_eq!((done(&mut host, Call::Union(key(j, 1), key(k, 1))), host), (answer, joined));
    }
}

/// Frames, keys and the generation are what they were, the joined keys live all along; and what was taken apart works on.
#[test]
fn no_frame_comes_or_goes() {
    let mut host = p3();
    done(&mut host, Call::Union(key(4, 1), key(1, 1)));
    let keys = host.keys();
    done(&mut host, Call::Undo);
    assert_eq!((host.keys(), host.head[3], host.head[8]), (keys.clone(), 4, 1));
    for k in keys {
        assert_eq!(number(&host, Call::Lookup(k)), 0);
    }
    assert_eq!(done(&mut host, Call::GetShared(key(4, 1)))[0], 200);
    assert_eq!(done(&mut host, Call::RemoveElement(key(4, 1))), [20, 1, 200, 0]);
    assert_eq!(done(&mut host, Call::LenSurject(key(2, 1)))[0], 3);
}

/// Document 02's sentence of soundness broken in each way, at P4's state after the union: ring 1, 4, 3, 2. Every call refuses it.
#[test]
fn forged_memories_are_refused_2() {
    let joined = after(&p3(), Call::Union(key(4, 1), key(1, 1)));
    assert_eq!(memory(&joined), [1, 4, 1, 200]);
    for (what, forged) in [
        ("the kept slot 0", [0, 4, 1, 200]),
        ("the gone slot 0", [1, 0, 1, 200]),
        ("no frame moved", [1, 4, 0, 200]),
        ("no frame moved, the kept slot twice", [1, 1, 0, 200]),
        ("zeros but the kept slot", [1, 0, 0, 0]),
        ("zeros but the gone slot", [0, 4, 0, 0]),
        ("zeros but the number moved", [0, 0, 1, 0]),
        ("zeros but the value", [0, 0, 0, 200]),
        ("the kept slot past the extent", [5, 4, 1, 200]),
        ("the kept slot past every number", [u64::MAX, 4, 1, 200]),
        ("the gone slot past the extent", [1, 5, 1, 200]),
        ("another gone slot", [1, 3, 1, 200]),
        ("the kept slot twice", [1, 1, 1, 200]),
        ("the kept slot twice, round the ring", [1, 1, 4, 200]),
        ("another number moved", [1, 4, 2, 200]),
        ("once more round the ring", [1, 4, 5, 200]),
        ("as many moved as there are numbers", [1, 4, u64::MAX, 200]),
        ("the keys exchanged, the larger run moved", [4, 1, 3, 200]),
        ("the keys exchanged", [4, 1, 1, 200]),
    ] {
        let mut host = joined.clone();
        host.head[9..].copy_from_slice(&forged);
        let calls = every_call(key(1, 1), key(2, 1));
        assert!(calls.into_iter().all(|call| number(&host, call) == 2), "{what}");
        assert_eq!(number(&host, Call::Fresh { elems: 4, shared: 3 }), 0);
    }
}

/// A memory that is right of the ring, in tables that no such union leaves: the run sealed, no shared slot freed, a slot that is free.
#[test]
fn tables_that_no_union_leaves() {
    let joined = after(&p3(), Call::Union(key(4, 1), key(1, 1)));
    let mut sealed = joined.clone();
    sealed.shared[MARK] = 1;
    assert_eq!(number(&sealed, Call::Undo), 2);
    sealed.head[9..].fill(0);
    assert_eq!(number(&sealed, Call::Check), 0);

    // a ring of two that grew by an insert: its shared table has no free slot, full or not
    for shared in [1, 2] {
        let mut host = Host::fresh(3, shared);
        done(&mut host, new_run(1, 10, 0));
        done(&mut host, Call::Insert(key(1, 1), 2, 0));
        host.head[9..].copy_from_slice(&[1, 2, 1, 7]);
        assert_eq!(number(&host, Call::Undo), 2);
    }

    // the frame of the other key is gone
    let mut host = after(&joined, Call::RemoveElement(key(4, 1)));
    host.head[9..].copy_from_slice(&[1, 4, 1, 200]);
    assert_eq!(number(&host, Call::Undo), 2);
    host.head[9..].copy_from_slice(&[4, 1, 1, 200]);
    assert_eq!(number(&host, Call::Undo), 2);
}

/// The sentence asks for a union that gives the present state, and not that it was made: such a memory is taken back too.
#[test]
fn a_union_that_could_have_been() {
    let mut host = Host::fresh(4, 3);
    for call in [new_run(1, 10, 5), new_run(2, 20, 6), Call::Insert(key(1, 1), 3, 7)] {
        done(&mut host, call);
    }
    done(&mut host, Call::RemoveElement(key(2, 1)));
    // ring 1, 3, and shared slot 2 is free
    host.head[9..].copy_from_slice(&[1, 3, 1, 77]);
    let present = host.clone();
    done(&mut host, Call::Undo);
    assert_eq!(host.shared[..2 * HEADER], [1, 10, 0, 0, 5, 1, 77, 0, 0, 7]);
    assert_eq!(host.head, head([4, 3, 2, 2, 3, 2, 0, 2, 2]));
    assert_eq!(done(&mut host, Call::Union(key(1, 1), key(3, 1))), [77, 1, 1, 1]);
    assert_eq!(host, present);
}

/// Any value may be remembered: it is what the header gets.
#[test]
fn the_value_is_what_comes_back() {
    let mut host = after(&p3(), Call::Union(key(4, 1), key(1, 1)));
    host.head[12] = 201;
    done(&mut host, Call::Undo);
    let mut wanted = p3();
    wanted.shared[HEADER + VALUE] = 201;
    assert_eq!(host, wanted);
}

/// After any accepted union of any grown state, and any reads, undo gives the state before it, with nothing to undo.
#[test]
fn undo_after_any_union() {
    let mut r = Random::new(7);
    let (mut host, mut undone, mut largest) = (begun(&mut r), 0, 0);
    for _ in 0..200_000 {
        let call = any_call(&host, &mut r);
        let lent = any_buffer(&host, &call, &mut r);
        host.call(call, &lent);
        let keys = host.keys();
        if keys.len() > 1 {
            let (mut before, j, k) = (host.clone(), r.of(&keys), r.of(&keys));
            let said = host.call(Call::Union(j, k), &[]);
            if said.number == 0 {
                for call in [Call::Check, Call::Get(j), Call::InSameSurject(j, k), Call::Union(k, j)] {
                    host.call(call, &[]);
                }
                done(&mut host, Call::Undo);
                before.head[9..].fill(0);
                assert_eq!(host, before);
                (undone, largest) = (undone + 1, largest.max(said.out[3]));
            }
        }
        if r.one_in(120) {
            host = begun(&mut r);
        }
    }
    assert!(undone > 20_000 && largest > 4, "{undone} {largest}");
}

/// 32,768 frames move, and come back; one frame more on the other side, too.
#[test]
fn the_largest_union() {
    let most = 65_536u64;
    for other in [most / 2, most / 2 - 1, 1] {
        let own = most - other;
        let mut host = Host::fresh(most, 2);
        host.head = head([most, most, 0, most, 2, 2, 0, 2, 1]);
        let mut put = |first: u64, count: u64, class: u64| {
            let slot = |i: u64| first + i % count;
            for i in 0..count {
                let row = [1, i, class, slot(i + count - 1), slot(i + 1), MOST_BYTES];
                host.elems[(slot(i) as usize - 1) * FRAME..][..FRAME].copy_from_slice(&row);
            }
            let header = [count, 10 * class, 0, 0, count * MOST_BYTES];
            host.shared[(class as usize - 1) * HEADER..][..HEADER].copy_from_slice(&header);
        };
        put(1, own, 1);
        put(own + 1, other, 2);
        let before = host.clone();
        let call = |host: &mut Host, call| host.call_with(check::sound, call, &[]);
        let (j, k): (Key, Key) = (key(own + 1, 1), key(9, 1));
        let said = call(&mut host, Call::Union(k, j));
        assert_eq!((said.number, said.out[3]), (0, other));
        assert_eq!(host.shared[..HEADER], [most, 10, 0, 0, most * MOST_BYTES]);
        assert_eq!(memory(&host), [9, own + 1, other, 20]);
        assert_eq!(call(&mut host, Call::Undo).number, 0);
        assert_eq!(host, before);
        assert!(host.elems.chunks(FRAME).all(|row| row[SIZE] == MOST_BYTES));
    }
}

/// `cargo run --release -p archive memories [CASES] [SEED]` makes more.
#[test]
fn memories_made_up() {
    for (what, [sound, unsound]) in memories::compare(100_000, 7) {
        assert!(sound > 0, "{what}: {sound} {unsound}");
        assert_eq!(what == "as it was", unsound == 0, "{what}: {sound} {unsound}");
    }
}
