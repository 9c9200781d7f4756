//! Each entry through an accepted and a refused call, with the numbers that document 01 gives.

use archive::{Host, UNTOUCHED, head, key};
use model::door::Call;
use model::{FRAME, HEAD, HEADER, PAIR, SEAL_PLACE};

/// Makes the call (which compares every number with the model's), and answers result and `out`.
fn said(host: &mut Host, call: Call) -> (u64, Vec<u64>) {
    let said = host.call(call, &[]);
    let count = if said.number == 0 { call.name().1 } else { 0 };
    assert!(said.out[count..].iter().all(|&n| n == UNTOUCHED), "{call:?} writes past its out");
    (said.number, said.out[..count].to_vec())
}

fn new_run(payload: u64, value: u64) -> Call {
    Call::InsertSurject { payload, value, size: 0 }
}

/// P1 and P2: ring 1, 3, 2 under 100, and 4 under 200.
fn two_runs() -> Host {
    let mut host = Host::fresh(4, 3);
    assert_eq!(said(&mut host, new_run(10, 100)), (0, vec![1, 1]));
    assert_eq!(said(&mut host, Call::Insert(key(1, 1), 11, 0)), (0, vec![2, 1]));
    assert_eq!(said(&mut host, Call::Insert(key(1, 1), 12, 0)), (0, vec![3, 1]));
    assert_eq!(said(&mut host, new_run(20, 200)), (0, vec![4, 1]));
    host
}

#[test]
fn fresh() {
    let mut host = Host { head: [99; HEAD], elems: vec![98; 4 * FRAME], shared: vec![97; 3 * HEADER] };
    assert_eq!(said(&mut host, Call::Fresh { elems: 4, shared: 4 }), (1, vec![]));
    assert_eq!(host.head, [99; HEAD]);
    assert_eq!(said(&mut host, Call::Fresh { elems: 4, shared: 3 }), (0, vec![]));
    assert_eq!(host, Host::fresh(4, 3));
}

#[test]
fn check() {
    let mut host = two_runs();
    assert_eq!(said(&mut host, Call::Check), (0, vec![]));
    host.head[3] += 1;
    assert_eq!(said(&mut host, Call::Check), (2, vec![]));
}

#[test]
fn reads() {
    let mut host = two_runs();
    let (live, dead) = (key(3, 1), key(3, 2));
    assert_eq!(said(&mut host, Call::LenSurject(live)), (0, vec![3]));
    assert_eq!(said(&mut host, Call::LenSurject(dead)), (3, vec![]));
    assert_eq!(said(&mut host, Call::InSameSurject(live, key(1, 1))), (0, vec![1]));
    assert_eq!(said(&mut host, Call::InSameSurject(live, key(4, 1))), (0, vec![0]));
    assert_eq!(said(&mut host, Call::InSameSurject(live, dead)), (3, vec![]));
    assert_eq!(said(&mut host, Call::Get(live)), (0, vec![12]));
    assert_eq!(said(&mut host, Call::Get(dead)), (3, vec![]));
    assert_eq!(said(&mut host, Call::GetShared(live)), (0, vec![100]));
    assert_eq!(said(&mut host, Call::GetShared(dead)), (3, vec![]));
    for call in [Call::GetSize, Call::GetTotal] {
        assert_eq!(said(&mut host, call(live)), (0, vec![0]));
        assert_eq!(said(&mut host, call(dead)), (3, vec![]));
    }
}

#[test]
fn sets() {
    let mut host = two_runs();
    let (live, dead) = (key(3, 1), key(0, 1));
    assert_eq!(said(&mut host, Call::Set(live, 13)), (0, vec![12]));
    assert_eq!(said(&mut host, Call::Set(dead, 14)), (3, vec![]));
    assert_eq!(said(&mut host, Call::Get(live)), (0, vec![13]));
    assert_eq!(said(&mut host, Call::SetShared(live, 101)), (0, vec![100]));
    assert_eq!(said(&mut host, Call::SetShared(dead, 102)), (3, vec![]));
    assert_eq!(said(&mut host, Call::GetShared(key(1, 1))), (0, vec![101]));
}

#[test]
fn exchange_shared4() {
    let mut host = Host::fresh(5, 4);
    for n in 1..5 {
        assert_eq!(said(&mut host, new_run(n, 100 * n)), (0, vec![n, 1]));
    }
    let keys = [key(3, 1), key(1, 1), key(4, 1), key(2, 1)];
    assert_eq!(said(&mut host, Call::ExchangeShared4(keys, [1, 2, 3, 4])), (0, vec![300, 100, 400, 200]));
    assert_eq!(said(&mut host, Call::GetShared(key(1, 1))), (0, vec![2]));
    assert_eq!(said(&mut host, Call::Insert(key(1, 1), 9, 0)), (0, vec![5, 1]));
    let twice = [key(3, 1), key(1, 1), key(5, 1), key(2, 1)];
    assert_eq!(said(&mut host, Call::ExchangeShared4(twice, [1, 2, 3, 4])), (4, vec![]));
    let dead = [key(1, 1), key(1, 1), key(5, 1), key(6, 1)];
    assert_eq!(said(&mut host, Call::ExchangeShared4(dead, [1, 2, 3, 4])), (3, vec![]));
}

#[test]
fn insert_surject_and_insert() {
    let mut host = two_runs();
    assert_eq!(said(&mut host, new_run(30, 300)), (5, vec![]));
    assert_eq!(said(&mut host, Call::Insert(key(4, 1), 30, 0)), (5, vec![]));
    assert_eq!(said(&mut host, Call::Insert(key(4, 7), 30, 0)), (3, vec![]));
    let mut full = Host::fresh(1, 1);
    assert_eq!(said(&mut full, new_run(1, 2)), (0, vec![1, 1]));
    // both tables are full: the shared slot is tested first
    assert_eq!(said(&mut full, new_run(3, 4)), (6, vec![]));
}

#[test]
fn union() {
    let mut host = two_runs();
    assert_eq!(said(&mut host, Call::Union(key(4, 1), key(1, 1))), (0, vec![200, 1, 1, 1]));
    assert_eq!(said(&mut host, Call::Union(key(4, 1), key(4, 1))), (4, vec![]));
    assert_eq!(said(&mut host, Call::Union(key(5, 1), key(1, 1))), (3, vec![]));
    let list = host.call(Call::List(key(1, 1)), &[0; 8]);
    assert_eq!((list.out[0], list.lent), (4, vec![1, 1, 4, 1, 3, 1, 2, 1]));
}

#[test]
fn remove_element() {
    let mut host = two_runs();
    assert_eq!(said(&mut host, Call::RemoveElement(key(1, 1))), (0, vec![10, 0, 0, 0]));
    assert_eq!(said(&mut host, Call::RemoveElement(key(1, 1))), (3, vec![]));
    host.head[8] = 4_294_967_295;
    assert_eq!(said(&mut host, Call::RemoveElement(key(4, 1))), (0, vec![20, 1, 200, 1]));
    assert_eq!(host.head[8], 1);
}

/// The writer's two calls, with the head lent in place.
#[test]
fn in_place() {
    let mut host = two_runs();
    assert_eq!(said(&mut host, Call::RemoveInPlace(key(2, 1))), (0, vec![11, 0, 0, 0]));
    assert_eq!(said(&mut host, Call::RemoveInPlace(key(2, 1))), (3, vec![]));
    assert_eq!(said(&mut host, Call::InsertInPlace(key(4, 1), 21, 0)), (0, vec![2, 2]));
    assert_eq!(said(&mut host, Call::InsertInPlace(key(4, 1), 22, 0)), (5, vec![]));
    assert_eq!((host.head[2], host.head[3], host.head[8]), (0, 4, 2));
}

#[test]
fn remove_shared() {
    let mut host = two_runs();
    assert_eq!(said(&mut host, Call::RemoveShared(key(2, 1))), (0, vec![100, 0]));
    assert_eq!(said(&mut host, Call::RemoveShared(key(1, 1))), (3, vec![]));
    assert_eq!((host.head[3], host.head[8]), (1, 2));
}

#[test]
fn list() {
    let mut host = two_runs();
    let list = host.call(Call::List(key(3, 1)), &[77; 7]);
    assert_eq!((list.number, list.out[0], list.lent), (0, 3, vec![3, 1, 2, 1, 1, 1, 77]));
    assert_eq!(host.call(Call::List(key(3, 1)), &[77; 5]).number, 7);
    assert_eq!(host.call(Call::List(key(3, 9)), &[77; 5]).number, 3);
}

#[test]
fn seal() {
    let mut host = two_runs();
    assert_eq!(host.call(Call::Seal(key(3, 9)), &[77; 3 * SEAL_PLACE]).number, 3);
    assert_eq!(host.call(Call::Seal(key(3, 1)), &[77; 3 * SEAL_PLACE - 1]).number, 7);
    let seal = host.call(Call::Seal(key(3, 1)), &[77; 3 * SEAL_PLACE + 1]);
    assert_eq!((seal.number, seal.out), (0, [100, 3, UNTOUCHED, UNTOUCHED]));
    assert_eq!(seal.lent, [3, 1, 12, 2, 1, 11, 1, 1, 10, 77]);
    assert_eq!(host.call(Call::Seal(key(1, 1)), &[77; 3 * SEAL_PLACE]).number, 12);
    assert_eq!(said(&mut host, Call::Union(key(4, 1), key(1, 1))), (12, vec![]));
    assert_eq!(said(&mut host, Call::Insert(key(1, 1), 13, 0)), (12, vec![]));
}

#[test]
fn drain() {
    let mut host = two_runs();
    assert_eq!(host.call(Call::Drain(key(3, 1)), &[77; 17]).number, 7);
    let drain = host.call(Call::Drain(key(3, 1)), &[77; 19]);
    assert_eq!((drain.number, drain.out[0]), (0, 3));
    assert_eq!(drain.lent, [3, 1, 12, 0, 0, 0, 2, 1, 11, 0, 0, 0, 1, 1, 10, 1, 100, 0, 77]);
    assert_eq!(host.head[8], 4);
    assert_eq!(host.call(Call::Drain(key(3, 1)), &[77; 19]).number, 3);
}

#[test]
fn drain_all() {
    let mut host = two_runs();
    assert_eq!(host.call(Call::DrainAll, &[77; 23]).number, 7);
    let drain = host.call(Call::DrainAll, &[77; 24]);
    assert_eq!((drain.number, drain.out[0]), (0, 4));
    assert_eq!(drain.lent, [1, 1, 10, 0, 0, 0, 3, 1, 12, 0, 0, 0, 2, 1, 11, 1, 100, 0, 4, 1, 20, 1, 200, 0]);
    assert_eq!(host.head, head([4, 0, 0, 0, 3, 0, 0, 0, 6]));
}

#[test]
fn clear() {
    let mut host = two_runs();
    assert_eq!(said(&mut host, Call::Clear), (0, vec![0]));
    host.head[8] = 4_294_967_295;
    assert_eq!(said(&mut host, Call::Clear), (0, vec![1]));
    assert_eq!(host, Host::fresh(4, 3));
    host.head[5] = 4;
    assert_eq!(said(&mut host, Call::Clear), (2, vec![]));
}

/// What P11 has before its compression: slots 1 and 2 in a ring under 200, the first shared slot free.
fn p11() -> Host {
    let mut host = Host::fresh(4, 3);
    said(&mut host, new_run(10, 100));
    said(&mut host, new_run(20, 200));
    said(&mut host, Call::RemoveElement(key(1, 1)));
    assert_eq!(said(&mut host, Call::Insert(key(2, 1), 21, 0)), (0, vec![1, 2]));
    host
}

/// P11, and with reset.
#[test]
fn compress_canonical() {
    let mut host = p11();
    assert_eq!(host.call(Call::CompressCanonical { reset: 0 }, &[8; 4 * FRAME - 1]).number, 7);
    let compress = host.call(Call::CompressCanonical { reset: 0 }, &[8; 4 * FRAME + 1]);
    assert_eq!((compress.number, compress.out[0]), (0, 0));
    assert_eq!(compress.lent, [vec![0; 4 * FRAME], vec![8]].concat());
    assert_eq!(host.elems[..2 * FRAME], [3, 21, 1, 2, 2, 0, 3, 20, 1, 1, 1, 0]);
    assert_eq!(host.shared, [[2, 200, 0, 0, 0], [0; HEADER], [0; HEADER]].concat());
    assert_eq!(host.head, head([4, 2, 0, 2, 3, 1, 0, 1, 3]));
    host.head[8] = 4_294_967_295;
    // any number but 0 asks for a reset
    assert_eq!(host.call(Call::CompressCanonical { reset: 1 << 40 }, &[8; 4 * FRAME]).out[0], 0);
    assert_eq!((host.head[8], host.elems[0]), (1, 1));
}

/// P11's state, where both compressions leave the same tables; and with reset.
#[test]
fn compress_with() {
    let mut host = p11();
    assert_eq!(host.call(Call::CompressWith { reset: 0 }, &[8; 2 * PAIR - 1]).number, 7);
    let compress = host.call(Call::CompressWith { reset: 0 }, &[8; 2 * PAIR + 1]);
    assert_eq!((compress.number, compress.out), (0, [2, 0, UNTOUCHED, UNTOUCHED]));
    assert_eq!(compress.lent, [1, 2, 1, 3, 2, 1, 2, 3, 8]);
    let mut canonical = p11();
    assert_eq!(canonical.call(Call::CompressCanonical { reset: 0 }, &[8; 4 * FRAME]).number, 0);
    assert_eq!(host, canonical);
    host.head[8] = 4_294_967_295;
    // any number but 0 asks for a reset
    let compress = host.call(Call::CompressWith { reset: 1 << 40 }, &[8; 2 * PAIR]);
    assert_eq!((compress.out[..2].to_vec(), compress.lent), (vec![2, 0], vec![1, 3, 1, 1, 2, 3, 2, 1]));
    assert_eq!((host.head[8], host.elems[0]), (1, 1));
}
