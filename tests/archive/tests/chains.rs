//! Ticket 4 of document 02: every free slot up to the extent is on its chain. Each call is also compared with the model's
//! in every number.

use archive::{Host, chains, every_call, head, key};
use model::door::Call;

/// A run of one in slot 2, shared slot 2; slot 1 of each table is free, with these roots. Extents have reached capacities.
fn restored(root: u64, shared_root: u64) -> Host {
    Host {
        head: head([2, 2, root, 1, 2, 2, shared_root, 1, 2]),
        elems: vec![0, 0, 0, 0, 0, 0, 1, 20, 2, 2, 2, 9],
        shared: vec![0, 0, 0, 0, 0, 1, 200, 0, 0, 9],
    }
}

/// What was complained of: there is room, and insert gave 5. Now the state is refused, by every call.
#[test]
fn a_free_slot_off_its_chain_is_refused_2() {
    for host in [restored(0, 1), restored(1, 0), restored(0, 0)] {
        for call in every_call(key(2, 1), key(2, 1)) {
            assert_eq!(host.clone().call(call, &[0; 12]).number, 2, "{call:?}");
        }
    }
    // the smallest: one slot of each table, used once and on no chain
    let mut smallest = Host::fresh(1, 1);
    (smallest.head[1], smallest.head[5]) = (1, 1);
    assert_eq!(smallest.call(Call::InsertSurject { payload: 1, value: 2, size: 0 }, &[]).number, 2);
}

/// With the slot on its chain the same state is accepted, and gives the slot.
#[test]
fn the_same_slot_chained_is_given() {
    let mut host = restored(1, 1);
    assert_eq!(host.call(Call::Check, &[]).number, 0);
    let said = host.clone().call(Call::Insert(key(2, 1), 21, 0), &[]);
    assert_eq!((said.number, &said.out[..2]), (0, &[1, 2][..]));
    let said = host.call(Call::InsertSurject { payload: 40, value: 400, size: 0 }, &[]);
    assert_eq!((said.number, &said.out[..2]), (0, &[1, 2][..]));
    // and then no slot up to the capacities is free
    assert_eq!(host.clone().call(Call::InsertSurject { payload: 41, value: 410, size: 0 }, &[]).number, 6);
    assert_eq!(host.call(Call::Insert(key(2, 1), 22, 0), &[]).number, 5);
}

/// Two free slots and a chain of one.
#[test]
fn a_chain_one_short_is_refused_2() {
    let mut host = Host::fresh(3, 3);
    for payload in 1..=3 {
        assert_eq!(host.call(Call::InsertSurject { payload, value: payload, size: 0 }, &[]).number, 0);
    }
    for slot in 1..=2 {
        assert_eq!(host.call(Call::RemoveElement(key(slot, 1)), &[]).number, 0);
    }
    assert_eq!((host.head[2], host.head[6]), (2, 2));
    for place in [2, 6] {
        let mut short = host.clone();
        short.head[place] = 1;
        assert_eq!(short.call(Call::Check, &[]).number, 2);
    }
    assert_eq!(host.call(Call::Check, &[]).number, 0);
}

/// `cargo run --release -p archive chains [CASES] [SEED]` makes more.
#[test]
fn chains_cut_and_joined() {
    let tally = chains::compare(300_000, 4);
    for (what, [sound, unsound]) in tally {
        let stays = ["another order", "as it was", "extent one higher, the slot joined"].contains(&what);
        let breaks = ["a slot left out", "cut", "extent one higher", "live number one off"].contains(&what);
        assert!(if stays { unsound == 0 && sound > 0 } else { unsound > 0 }, "{what}: {sound} {unsound}");
        assert!(!breaks || sound == 0, "{what}: {sound} {unsound}");
    }
}
