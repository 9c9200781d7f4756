//! Ticket 5 of document 02: why a key is dead. Each cause in each call that takes keys, which of several keys it is told of,
//! and the corners. Each call is also compared with the model's in every number.

use archive::{Host, UNTOUCHED, every_call, key};
use model::door::Call;
use model::{FRAME, Key};

const NO_SLOT: u64 = 1;
const FREE_SLOT: u64 = 2;
const OTHER_GENERATION: u64 = 3;

/// Four runs: frames in slots 1, 2, 3 and 5; slot 4 is free, slot 5 was taken again, slot 6 is past the extent.
fn grown() -> Host {
    let mut host = Host::fresh(6, 5);
    let new = |payload| Call::InsertSurject { payload, value: 10 * payload, size: 0 };
    let remove = |slot| Call::RemoveElement(key(slot, 1));
    for call in [new(1), new(2), new(3), new(4), new(5), remove(4), remove(5), new(6)] {
        assert_eq!(host.call(call, &[]).number, 0);
    }
    assert_eq!(host.keys(), [key(1, 1), key(2, 1), key(3, 1), key(5, 3)]);
    host
}

const LIVE: [Key; 4] = [
    Key { slot: 1, generation: 1 },
    Key { slot: 2, generation: 1 },
    Key { slot: 3, generation: 1 },
    Key { slot: 5, generation: 3 },
];

/// Dead keys of the state above, with their causes. Where two sentences hold of a key, the lower number is told.
fn dead() -> Vec<(Key, u64)> {
    let mut dead = vec![];
    for generation in [0, 1, 2, 3, 4_294_967_295, 1 << 32, (1 << 32) + 1, (1 << 32) + 3, u64::MAX] {
        for slot in [0, 6, 7, 65_536, 65_537, 1 << 32, (1 << 32) + 1, u64::MAX - 1, u64::MAX] {
            dead.push((key(slot, generation), NO_SLOT));
        }
        dead.push((key(4, generation), FREE_SLOT));
        for live in LIVE.iter().filter(|live| live.generation != generation) {
            dead.push((key(live.slot, generation), OTHER_GENERATION));
        }
    }
    dead
}

/// Number and cause, of a call that is also held to leave everything as it was where it is refused.
fn said(host: &Host, call: Call) -> (u64, u64) {
    let said = host.clone().call(call, &[77; 30]);
    if said.number != 0 {
        assert_eq!((said.out, said.lent), ([UNTOUCHED; 4], vec![77; 30]));
    }
    (said.number, said.cause)
}

/// The calls that take one key.
fn with_key(k: Key) -> Vec<Call> {
    let two = |call: &Call| matches!(call, Call::InSameSurject(..) | Call::Union(..) | Call::ExchangeShared4(..));
    let other = key(k.slot, k.generation.wrapping_add(1));
    // what changes with the key takes it
    let pairs = every_call(k, k).into_iter().zip(every_call(k, other));
    pairs.filter(|(call, changed)| call != changed && !two(call)).map(|(call, _)| call).collect()
}

#[test]
fn each_cause_in_each_call_with_one_key() {
    let host = grown();
    assert_eq!(with_key(LIVE[0]).len(), 16);
    for (k, cause) in dead() {
        for call in with_key(k) {
            assert_eq!(said(&host, call), (3, cause), "{call:?}");
        }
    }
    for k in LIVE {
        for call in with_key(k) {
            assert_eq!(said(&host, call), (0, 0), "{call:?}");
        }
    }
}

/// Every pair of a live or dead key with another: the first one that is dead.
#[test]
fn the_first_dead_key_of_two() {
    let host = grown();
    let all: Vec<(Key, u64)> = LIVE.map(|k| (k, 0)).into_iter().chain(dead()).collect();
    for &(j, first) in &all {
        for &(k, second) in &all {
            let cause = if first != 0 { first } else { second };
            // each live key is of a run of its own
            let joined = if j == k { (4, 0) } else { (0, 0) };
            for (call, live) in [(Call::InSameSurject(j, k), (0, 0)), (Call::Union(j, k), joined)] {
                assert_eq!(said(&host, call), if cause == 0 { live } else { (3, cause) }, "{call:?}");
            }
        }
    }
}

/// One key of each kind at each of the four places: live, and of the three causes.
#[test]
fn the_first_dead_key_of_four() {
    let host = grown();
    let kinds = [None, Some((key(9, 1), NO_SLOT)), Some((key(4, 1), FREE_SLOT)), Some((key(5, 1), OTHER_GENERATION))];
    for choice in 0..4usize.pow(4) {
        let kind = |place: usize| kinds[choice / 4usize.pow(place as u32) % 4];
        let keys = [0, 1, 2, 3].map(|place| kind(place).map_or(LIVE[place], |(k, _)| k));
        let wanted = (0..4).find_map(kind).map_or((0, 0), |(_, cause)| (3, cause));
        let call = Call::ExchangeShared4(keys, [1, 2, 3, 4]);
        assert_eq!(said(&host, call), wanted, "{call:?}");
    }
    // a dead key comes before two of one run, wherever it stands
    let [a, b, ..] = LIVE;
    assert_eq!(said(&host, Call::ExchangeShared4([a, a, b, key(4, 0)], [0; 4])), (3, FREE_SLOT));
    assert_eq!(said(&host, Call::ExchangeShared4([a, a, b, b], [0; 4])), (4, 0));
}

/// Extent 0: every key has cause 1, in fresh tables, in cleared and drained ones and after a compression of none.
#[test]
fn empty_tables() {
    let fresh = Host::fresh(6, 5);
    let emptied = |call| {
        let mut host = grown();
        assert_eq!(host.call(call, &[0; 30]).number, 0);
        host
    };
    let mut compressed = fresh.clone();
    assert_eq!(compressed.call(Call::CompressCanonical { reset: 0 }, &[0; 6 * FRAME]).number, 0);
    for host in [fresh, emptied(Call::Clear), emptied(Call::DrainAll), compressed] {
        for (k, _) in LIVE.map(|k| (k, 0)).into_iter().chain(dead()) {
            for call in with_key(k).into_iter().chain([Call::InSameSurject(k, k), Call::Union(k, k)]) {
                assert_eq!(said(&host, call), (3, NO_SLOT), "{call:?}");
            }
        }
    }
}

/// All frames removed one by one: the extent stays, and every slot is free. No key is live there, that of generation 0 neither.
#[test]
fn free_slots_only() {
    let mut host = grown();
    for k in LIVE {
        assert_eq!(host.call(Call::RemoveElement(k), &[]).number, 0);
    }
    for slot in 1..=5 {
        for generation in [0, 1, 3, 7, u64::MAX] {
            for call in with_key(key(slot, generation)) {
                assert_eq!(said(&host, call), (3, FREE_SLOT), "{call:?}");
            }
        }
    }
    assert_eq!(said(&host, Call::Lookup(key(6, 0))), (3, NO_SLOT));
}

/// Tables full to their capacities: the extent is the capacity, and the next slot has cause 1.
#[test]
fn full_tables() {
    let mut host = Host::fresh(1, 1);
    assert_eq!(host.call(Call::InsertSurject { payload: 1, value: 2, size: 0 }, &[]).number, 0);
    assert_eq!(said(&host, Call::Lookup(key(1, 1))), (0, 0));
    assert_eq!(said(&host, Call::Lookup(key(2, 1))), (3, NO_SLOT));
    assert_eq!(said(&host, Call::Lookup(key(1, 2))), (3, OTHER_GENERATION));
}

/// A key's causes as its frame goes, its slot is taken again, and the tables are compressed and cleared.
#[test]
fn what_becomes_of_a_key() {
    let mut host = grown();
    let k = key(3, 1);
    let mut then = |call, cause| {
        assert_eq!(host.call(call, &[0; 30]).number, 0, "{call:?}");
        assert_eq!(said(&host, Call::Lookup(k)), if cause == 0 { (0, 0) } else { (3, cause) }, "after {call:?}");
    };
    then(Call::Set(k, 9), 0);
    then(Call::RemoveElement(k), FREE_SLOT);
    then(Call::Insert(key(1, 1), 8, 0), OTHER_GENERATION);
    then(Call::RemoveShared(key(1, 1)), FREE_SLOT);
    // two frames are left
    then(Call::CompressWith { reset: 0 }, NO_SLOT);
    then(Call::InsertSurject { payload: 1, value: 2, size: 0 }, OTHER_GENERATION);
    then(Call::Clear, NO_SLOT);
}

/// Refusals 1 and 2 come before 3, and say no cause; 12, 5 and 7 come after it.
#[test]
fn the_order_of_refusals() {
    let (mut unsound, mut short) = (grown(), grown());
    unsound.head[8] = 0;
    short.elems.pop();
    for k in [LIVE[0], key(0, 1), key(4, 1), key(5, 1)] {
        for call in with_key(k) {
            assert_eq!(said(&unsound, call), (2, 0));
            assert_eq!(said(&short, call), (1, 0));
        }
    }
    let mut host = grown();
    assert_eq!(host.call(Call::Seal(LIVE[0]), &[0; 3]).number, 0);
    for _ in 0..2 {
        assert_eq!(host.call(Call::Insert(LIVE[1], 7, 0), &[]).number, 0);
    }
    // no element slot is free now
    assert_eq!(said(&host, Call::Insert(LIVE[1], 8, 0)), (5, 0));
    assert_eq!(said(&host, Call::Insert(key(5, 1), 8, 0)), (3, OTHER_GENERATION));
    assert_eq!(said(&host, Call::Union(LIVE[0], LIVE[1])), (12, 0));
    assert_eq!(said(&host, Call::Union(LIVE[0], key(7, 1))), (3, NO_SLOT));
    for call in [Call::List(key(5, 1)), Call::Seal(key(5, 1)), Call::Drain(key(5, 1))] {
        assert_eq!((host.call(call, &[]).number, host.call(call, &[]).cause), (3, OTHER_GENERATION));
    }
}

/// Lookup changes nothing, also where it accepts, and has no `out`.
#[test]
fn lookup_is_a_read() {
    let mut host = grown();
    for (k, result) in LIVE.map(|k| (k, 0)).into_iter().chain(dead().into_iter().map(|(k, cause)| (k, 3 + 256 * cause)))
    {
        let said = host.call(Call::Lookup(k), &[77; 4]);
        assert_eq!((said.result(), said.out, said.lent), (result, [UNTOUCHED; 4], vec![77; 4]));
    }
    assert_eq!(host, grown());
}
