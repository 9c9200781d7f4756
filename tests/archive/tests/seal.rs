//! Ticket 1 of document 02: the seal, what it refuses and what it leaves allowed, where the mark goes and where it is
//! dropped. Each call is also compared with the model's in every number.

use archive::{Host, key};
use model::door::Call;
use model::layout::MARK;
use model::{FRAME, HEADER, Key, RECORD, SEAL_PLACE};

/// Ring 1, 3, 2 under 100, and 4 under 200; both tables as document 01's worked numbers leave them.
fn two_runs() -> Host {
    let mut host = Host::fresh(4, 3);
    let new = |payload, value| Call::InsertSurject { payload, value, size: 0 };
    for call in [new(10, 100), Call::Insert(key(1, 1), 11, 0), Call::Insert(key(1, 1), 12, 0), new(20, 200)] {
        assert_eq!(host.call(call, &[]).number, 0);
    }
    host
}

/// The same with the run of this key sealed.
fn sealed(k: Key) -> Host {
    let mut host = two_runs();
    assert_eq!(host.call(Call::Seal(k), &[0; 3 * SEAL_PLACE]).number, 0);
    host
}

fn number(host: &Host, call: Call, lent: &[u64]) -> u64 {
    host.clone().call(call, lent).number
}

fn marks(host: &Host) -> Vec<u64> {
    host.shared.chunks(HEADER).map(|row| row[MARK]).collect()
}

/// Value and count are those of the header, places those of the ring from the key; only the mark changes.
#[test]
fn what_it_answers_and_writes() {
    for (k, out, places, marked) in [
        (key(1, 1), [100, 3], vec![1, 1, 10, 3, 1, 12, 2, 1, 11], 0),
        (key(2, 1), [100, 3], vec![2, 1, 11, 1, 1, 10, 3, 1, 12], 0),
        (key(4, 1), [200, 1], vec![4, 1, 20], 1),
    ] {
        let mut host = two_runs();
        let said = host.call(Call::Seal(k), &[77; 12]);
        assert_eq!((said.number, &said.out[..2]), (0, &out[..]));
        assert_eq!(said.lent[..places.len()], places);
        assert!(said.lent[places.len()..].iter().all(|&n| n == 77));
        let mut wanted = two_runs();
        wanted.shared[marked * HEADER + MARK] = 1;
        assert_eq!(host, wanted);
    }
}

#[test]
fn insert_union_and_a_second_seal_are_refused_12() {
    let host = sealed(key(2, 1));
    for slot in 1..=3 {
        assert_eq!(number(&host, Call::Insert(key(slot, 1), 13, 0), &[]), 12);
        assert_eq!(number(&host, Call::InsertInPlace(key(slot, 1), 13, 0), &[]), 12);
        assert_eq!(number(&host, Call::Union(key(slot, 1), key(4, 1)), &[]), 12);
        assert_eq!(number(&host, Call::Union(key(4, 1), key(slot, 1)), &[]), 12);
        assert_eq!(number(&host, Call::Seal(key(slot, 1)), &[0; 9]), 12);
    }
    // the smaller run sealed, and both
    for mut host in [sealed(key(4, 1)), host] {
        assert_eq!(number(&host, Call::Union(key(1, 1), key(4, 1)), &[]), 12);
        assert_eq!(number(&host, Call::Union(key(4, 1), key(1, 1)), &[]), 12);
        host.call(Call::Seal(key(1, 1)), &[0; 9]);
        host.call(Call::Seal(key(4, 1)), &[0; 3]);
        assert_eq!(marks(&host), [1, 1, 0]);
        assert_eq!(number(&host, Call::Union(key(1, 1), key(4, 1)), &[]), 12);
    }
}

#[test]
fn refusals_3_and_4_come_before_12() {
    let host = sealed(key(1, 1));
    for dead in [key(1, 2), key(5, 1), key(0, 1)] {
        assert_eq!(number(&host, Call::Insert(dead, 13, 0), &[]), 3);
        assert_eq!(number(&host, Call::Union(key(1, 1), dead), &[]), 3);
        assert_eq!(number(&host, Call::Union(dead, key(1, 1)), &[]), 3);
        assert_eq!(number(&host, Call::Seal(dead), &[]), 3);
    }
    assert_eq!(number(&host, Call::Union(key(1, 1), key(1, 1)), &[]), 4);
    assert_eq!(number(&host, Call::Union(key(1, 1), key(3, 1)), &[]), 4);
}

#[test]
fn refusal_12_comes_before_5_and_7() {
    let host = sealed(key(1, 1));
    // no element slot is free: at the other run it is 5
    assert_eq!(number(&host, Call::Insert(key(1, 1), 13, 0), &[]), 12);
    assert_eq!(number(&host, Call::Insert(key(4, 1), 13, 0), &[]), 5);
    assert_eq!(number(&host, Call::Seal(key(1, 1)), &[]), 12);
    assert_eq!(number(&host, Call::Seal(key(4, 1)), &[]), 7);
}

/// Every length short of the ring is refused with no place written and no mark set; the run can then still grow.
#[test]
fn a_short_buffer_seals_nothing() {
    for length in 0..3 * SEAL_PLACE {
        let mut host = two_runs();
        let said = host.call(Call::Seal(key(2, 1)), &vec![77; length]);
        assert_eq!((said.number, said.lent), (7, vec![77; length]));
        assert_eq!(host, two_runs());
        assert_eq!(number(&host, Call::Union(key(1, 1), key(4, 1)), &[]), 0);
    }
}

#[test]
fn reads_sets_removals_and_drains_go_on() {
    let host = sealed(key(1, 1));
    for call in [
        Call::Check,
        Call::LenSurject(key(1, 1)),
        Call::InSameSurject(key(1, 1), key(4, 1)),
        Call::Get(key(2, 1)),
        Call::GetShared(key(2, 1)),
        Call::List(key(2, 1)),
        Call::Set(key(2, 1), 5),
        Call::SetShared(key(2, 1), 6),
        Call::RemoveElement(key(2, 1)),
        Call::RemoveInPlace(key(2, 1)),
        Call::RemoveElement(key(4, 1)),
    ] {
        let mut host = host.clone();
        assert_eq!(host.call(call, &[0; 24]).number, 0, "{call:?}");
        assert_eq!(marks(&host), [1, 0, 0], "{call:?}");
    }
    for call in [Call::RemoveShared(key(3, 1)), Call::Drain(key(3, 1)), Call::DrainAll, Call::Clear] {
        let mut host = host.clone();
        assert_eq!(host.call(call, &[0; 4 * RECORD]).number, 0, "{call:?}");
        assert_eq!(marks(&host), [0, 0, 0], "{call:?}");
    }
    let mut fresh = host.clone();
    assert_eq!(fresh.call(Call::Fresh { elems: 4, shared: 3 }, &[]).number, 0);
    assert_eq!(fresh, Host::fresh(4, 3));
}

/// A run that loses frames one by one stays sealed to the last, and the next run in its slot is not sealed.
#[test]
fn the_mark_goes_with_the_last_frame() {
    let mut host = sealed(key(1, 1));
    for (slot, left) in [(2, 2), (1, 1)] {
        assert_eq!(host.call(Call::RemoveElement(key(slot, 1)), &[]).number, 0);
        assert_eq!(host.shared[..HEADER], [left, 100, 0, 1, 0]);
        assert_eq!(number(&host, Call::Insert(key(3, 1), 13, 0), &[]), 12);
    }
    assert_eq!(host.call(Call::RemoveElement(key(3, 1)), &[]).out, [12, 1, 100, 0]);
    assert_eq!(host.shared[..HEADER], [0; HEADER]);
    let new = host.call(Call::InsertSurject { payload: 30, value: 300, size: 0 }, &[]);
    assert_eq!(new.out[..2], [3, 4]);
    assert_eq!(host.shared[..HEADER], [1, 300, 0, 0, 0]);
    assert_eq!(number(&host, Call::Insert(key(3, 4), 31, 0), &[]), 0);
}

/// A header goes to another shared slot, its mark with it; frames are then refused under their new keys.
#[test]
fn compression_carries_the_mark() {
    for (reset, generation) in [(0, 4), (1, 1)] {
        let mut host = sealed(key(4, 1));
        // the sealed run's is then the only frame, and its header moves from shared slot 2 to 1
        for slot in [1, 3] {
            assert_eq!(host.call(Call::RemoveElement(key(slot, 1)), &[]).number, 0);
        }
        let mut both = host.clone();
        assert_eq!(host.call(Call::RemoveShared(key(2, 1)), &[]).number, 0);
        let lent = [9; 4 * FRAME];
        assert_eq!(host.call(Call::CompressCanonical { reset }, &lent).number, 0);
        assert_eq!(host.shared[..HEADER], [1, 200, 0, 1, 0]);
        assert_eq!(marks(&host), [1, 0, 0]);
        // two runs, which keep their order: the mark stays with its run
        assert_eq!(both.call(Call::CompressCanonical { reset }, &lent).number, 0);
        assert_eq!(marks(&both), [0, 1, 0]);
        assert_eq!(number(&both, Call::Insert(key(1, generation), 13, 0), &[]), 0);
        assert_eq!(number(&both, Call::Insert(key(2, generation), 13, 0), &[]), 12);
    }
}

/// Soundness: a mark is 0 or 1 on a live slot, and 0 on a free one and past the extent.
#[test]
fn marks_that_are_unsound() {
    let mut host = two_runs();
    assert_eq!(host.call(Call::RemoveElement(key(4, 1)), &[]).number, 0);
    for (c, mark, said) in [(0, 1, 0), (0, 2, 2), (0, u64::MAX, 2), (1, 1, 2), (1, 2, 2), (2, 1, 2)] {
        let mut host = host.clone();
        host.shared[c * HEADER + MARK] = mark;
        assert_eq!(number(&host, Call::Check, &[]), said, "{mark} in shared slot {}", c + 1);
        assert_eq!(number(&host, Call::Seal(key(1, 1)), &[0; 9]), if said == 0 { 12 } else { 2 });
    }
}
