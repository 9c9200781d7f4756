//! Ticket 8: a removed frame's key stays dead. Random runs in which every key whose frame went is kept, and looked up after
//! every call, until a call ends the premise; and what brings a key back, once for each of the provisos.

use archive::random::Random;
use archive::{Host, Said, key};
use model::door::Call;
use model::{FRAME, Key, PAIR, RECORD};
use std::collections::BTreeSet;

const LAST: u64 = 4_294_967_295;
/// Where the head has its generation.
const GENERATION: usize = 8;

fn numbers(keys: &[Key]) -> BTreeSet<(u64, u64)> {
    keys.iter().map(|k| (k.slot, k.generation)).collect()
}

fn overflowed(records: &[u64]) -> bool {
    records.chunks(RECORD).any(|record| record[RECORD - 1] == 1)
}

/// Whether the accepted call ended the premise, as a host can tell from what it asked for and what was answered.
fn ends(host: &Host, call: &Call, said: &Said) -> bool {
    let records = || overflowed(&said.lent[..said.out[0] as usize * RECORD]);
    match call {
        Call::Fresh { .. } => true,
        Call::RemoveElement(_) | Call::RemoveInPlace(_) => said.out[3] == 1,
        Call::RemoveShared(_) => said.out[1] == 1,
        Call::Clear => said.out[0] == 1,
        Call::CompressCanonical { reset } => *reset != 0 || said.out[0] == 1,
        Call::CompressWith { reset } => *reset != 0 || said.out[1] == 1,
        Call::Drain(_) => records(),
        // the closing clear's overflow is not answered: the head shows it
        Call::DrainAll => records() || host.head[GENERATION] == 1,
        _ => false,
    }
}

fn next_call(host: &Host, r: &mut Random) -> Call {
    let keys = host.keys();
    let any = |r: &mut Random| if keys.is_empty() { key(1, 1) } else { r.of(&keys) };
    let (j, k) = (any(r), any(r));
    match r.below(24) {
        0..6 => Call::InsertSurject { payload: r.number(), value: r.number(), size: r.size() },
        6..11 => Call::Insert(k, r.number(), r.size()),
        11..13 => Call::Union(j, k),
        13..16 => Call::RemoveElement(k),
        16 => Call::RemoveInPlace(k),
        17 => Call::RemoveShared(k),
        18 => Call::Drain(k),
        19 => Call::CompressWith { reset: r.of(&[0, 0, 0, 1]) },
        20 => Call::CompressCanonical { reset: r.of(&[0, 0, 0, 1]) },
        21 if r.one_in(3) => Call::DrainAll,
        22 if r.one_in(3) => Call::Clear,
        23 if r.one_in(12) => Call::Fresh { elems: host.head[0], shared: host.head[4] },
        _ => Call::Seal(k),
    }
}

/// The study goes to other tables, which is a clear of these; or one of other tables comes here, which is a fresh call. Answers whether
/// that ended the premise.
fn moved(host: &mut Host, r: &mut Random) -> bool {
    let mut other = Host::fresh(host.head[0], host.head[4]);
    let generation = 1 + r.below(3) as u32;
    if r.one_in(4) {
        assert_eq!(other.call(new_run(), &[]).number, 0);
        assert_eq!(host.transfer_from(generation, &mut other), Ok(false));
        return true;
    }
    other.transfer_from(generation, host).unwrap()
}

/// A run of calls; answers how many lookups of gone keys were made, and how often the premise ended.
fn run(host: &mut Host, calls: u64, r: &mut Random) -> (u64, u64) {
    let (mut gone, mut looked, mut ended) = (BTreeSet::new(), 0, 0);
    let lent = vec![0; host.elems.len().max(host.elems.len() / FRAME * RECORD.max(PAIR))];
    for _ in 0..calls {
        let before = numbers(&host.keys());
        let call = next_call(host, r);
        let is_end = if r.one_in(16) {
            moved(host, r)
        } else {
            let said = host.call(call, &lent);
            said.number == 0 && ends(host, &call, &said)
        };
        let now = numbers(&host.keys());
        if is_end {
            gone.clear();
            ended += 1;
        } else {
            gone.extend(before.difference(&now));
        }
        assert!(gone.is_disjoint(&now), "{call:?} or a move brought a key back: {:?}", gone.intersection(&now));
        for &(slot, generation) in gone.iter().rev().take(4) {
            assert_eq!(host.call(Call::Lookup(key(slot, generation)), &[]).number, 3, "after {call:?}");
            looked += 1;
        }
    }
    (looked, ended)
}

#[test]
fn gone_keys_stay_dead() {
    let mut r = Random::new(8);
    let (mut looked, mut ended) = (0, 0);
    for _ in 0..150 {
        let mut host = Host::fresh(1 + r.below(24), 1 + r.below(12));
        // sometimes so many removals later that overflows come
        if r.one_in(3) {
            host.head[GENERATION] = LAST - r.below(40);
        }
        let (more, ends) = run(&mut host, 120, &mut r);
        (looked, ended) = (looked + more, ended + ends);
    }
    assert!(looked > 10_000 && ended > 300, "{looked} lookups, {ended} ends");
}

fn new_run() -> Call {
    Call::InsertSurject { payload: 10, value: 100, size: 0 }
}

/// A new run gets (1,1), and its frame goes by a clear; then the generation is `generation`.
fn gone(generation: u64) -> Host {
    let mut host = Host::fresh(4, 3);
    assert_eq!(host.call(new_run(), &[]).out[..2], [1, 1]);
    assert_eq!(host.call(Call::Clear, &[]).out[0], 0);
    host.head[GENERATION] = generation;
    assert_eq!(host.call(Call::Lookup(key(1, 1)), &[]).result(), 0x103);
    host
}

/// Without any one of the provisos the next new run gets (1,1) again.
#[test]
fn each_proviso_is_needed() {
    let ends = [
        (Call::CompressCanonical { reset: 1 }, 2),
        (Call::CompressWith { reset: 1 }, 2),
        (Call::Fresh { elems: 4, shared: 3 }, 2),
        (Call::Clear, LAST),
        (Call::DrainAll, LAST),
    ];
    for (call, generation) in ends {
        let mut host = gone(generation);
        assert_eq!(host.call(call, &[0; 4 * FRAME]).number, 0);
        assert_eq!(host.call(new_run(), &[]).out[..2], [1, 1], "{call:?}");
        assert_eq!(host.call(Call::Lookup(key(1, 1)), &[]).number, 0);
    }
    // a move to these tables, and from them where the last generation is passed
    let mut host = gone(2);
    assert_eq!(host.transfer_from(1, &mut Host::fresh(1, 1)), Ok(false));
    assert_eq!(host.call(new_run(), &[]).out[..2], [1, 1]);
    let mut host = gone(LAST);
    assert_eq!(host.call(new_run(), &[]).out[..2], [1, LAST]);
    assert_eq!(Host::fresh(1, 1).transfer_from(9, &mut host), Ok(true));
    assert_eq!(host.call(new_run(), &[]).out[..2], [1, 1]);
}
