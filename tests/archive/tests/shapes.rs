//! Refusals 1 and 2 at every entry: capacities at their limits, tables one number short and long, damaged states. And the
//! seeded run.

use archive::random::compare;
use archive::{Host, every_call, head, key};
use model::door::Call;
use model::layout::{CLASS, COUNT, MARK, MOST_BYTES, NEXT, NEXT_FREE, PAYLOAD, PREVIOUS, SIZE, TOTAL, VALUE};
use model::{FRAME, HEADER, PAIR, PLACE, RECORD, SEAL_PLACE, check};

fn numbers(host: &Host) -> Vec<u64> {
    every_call(key(1, 1), key(2, 1)).into_iter().map(|call| host.clone().call(call, &[0; 40]).number).collect()
}

/// Two runs, of slots 1 and 3 and of slot 2.
fn two_runs() -> Host {
    let mut host = Host::fresh(4, 3);
    for call in [
        Call::InsertSurject { payload: 1, value: 2, size: 100 },
        Call::InsertSurject { payload: 3, value: 4, size: 300 },
        Call::Insert(key(1, 1), 5, 500),
    ] {
        assert_eq!(host.call(call, &[]).number, 0);
    }
    host
}

#[test]
fn tables_one_number_short_or_long() {
    let host = two_runs();
    // of the calls, only the four-key one with keys twice and the undo of nothing are not accepted
    assert_eq!(numbers(&host).iter().filter(|&&n| n != 0).collect::<Vec<_>>(), [&4, &10]);
    let mut damaged = vec![host.clone(), host.clone(), host.clone(), host.clone(), host.clone(), host.clone()];
    damaged[0].elems.pop();
    damaged[1].elems.push(0);
    damaged[2].shared.pop();
    damaged[3].shared.push(0);
    damaged[4].elems.clear();
    damaged[5].shared.clear();
    for host in &damaged {
        assert!(numbers(host).iter().all(|&n| n == 1), "{host:?}");
        assert_eq!(host.clone().call(Call::Fresh { elems: 4, shared: 3 }, &[]).number, 1);
    }
}

#[test]
fn capacities_at_their_limits() {
    for (elems, shared, number) in [
        (0, 1, 1),
        (1, 0, 1),
        (1, 1, 0),
        (1, 65_536, 0),
        (65_536, 1, 0),
        (65_536, 65_536, 0),
        (65_537, 1, 1),
        (1, 65_537, 1),
        (1 << 63, 1, 1),
        (u64::MAX, u64::MAX, 1),
    ] {
        // tables as long as the capacity asks, where that can be had
        let (e, s) = (elems.min(65_537), shared.min(65_537));
        let mut host = Host::fresh(e, s);
        (host.head[0], host.head[4]) = (elems, shared);
        assert_eq!(host.call_with(check::sound, Call::Check, &[]).number, number, "{elems} {shared}");
        assert_eq!(host.call_with(check::sound, Call::Fresh { elems, shared }, &[]).number, number);
        let new = host.call_with(check::sound, Call::InsertSurject { payload: 1, value: 2, size: 0 }, &[]).number;
        assert_eq!(new, number);
    }
}

/// A capacity that times its width gives the table's length only modulo 2 to the 64th is refused.
#[test]
fn lengths_do_not_wrap() {
    let (mut wide, mut high) = (two_runs(), two_runs());
    wide.head[0] = wrapping(FRAME, &mut wide.elems);
    high.head[4] = wrapping(HEADER, &mut high.shared);
    for host in [wide, high] {
        assert!(numbers(&host).iter().all(|&n| n == 1));
        let fresh = Call::Fresh { elems: host.head[0], shared: host.head[4] };
        assert_eq!(host.clone().call(fresh, &[]).number, 1);
    }
    for capacity in [(1 << 32) + 4, (1 << 61) + 4, 65_540] {
        let mut host = two_runs();
        host.head[0] = capacity;
        assert!(numbers(&host).iter().all(|&n| n == 1));
        assert_eq!(host.call(Call::Fresh { elems: capacity, shared: 3 }, &[]).number, 1);
    }
}

/// Such a capacity; the table is made longer until there is one.
fn wrapping(width: usize, table: &mut Vec<u64>) -> u64 {
    let width = width as u128;
    loop {
        let most = (1..width).map(|turns| (turns << 64) + table.len() as u128).find(|n| n.is_multiple_of(width));
        if let Some(numbers) = most {
            return (numbers / width) as u64;
        }
        table.push(0);
    }
}

/// 65,536 frames of the largest size in one ring, or in as many runs, or in rings of four: every call, every slot compared.
#[test]
fn full_tables() {
    let most = 65_536u64;
    for size in [1, 4, most] {
        let host = full(most, size);
        let (j, k) = (key(5, 1), key(most, 1));
        for call in every_call(j, k) {
            let needed = match call {
                Call::DrainAll | Call::Drain(_) => RECORD * most as usize,
                Call::List(_) => PLACE * most as usize,
                Call::Seal(_) => SEAL_PLACE * most as usize,
                Call::CompressCanonical { .. } => FRAME * most as usize,
                Call::CompressWith { .. } => PAIR * most as usize,
                _ => 0,
            };
            let number = host.clone().call_with(check::sound, call, &vec![3; needed]).number;
            match call {
                Call::ExchangeShared4(..) => assert_eq!(number, 4),
                Call::Undo => assert_eq!(number, 10),
                Call::InsertSurject { .. } => assert_eq!(number, if size == 1 { 6 } else { 5 }),
                Call::Insert(..) | Call::InsertInPlace(..) => assert_eq!(number, 5),
                Call::Union(..) => assert_eq!(number, if size == most { 4 } else { 0 }),
                _ => assert_eq!(number, 0, "{call:?}"),
            }
        }
    }
}

/// Rings of `size` frames, the frames of a ring far apart.
fn full(most: u64, size: u64) -> Host {
    let runs = most / size;
    let mut host = Host::fresh(most, most);
    host.head = head([most, most, 0, most, most, runs, 0, runs, 1]);
    for run in 0..runs {
        let slot = |i: u64| (i % size) * runs + run + 1;
        for i in 0..size {
            let row = [1, slot(i) * 3, run + 1, slot(i + size - 1), slot(i + 1), MOST_BYTES];
            host.elems[(slot(i) as usize - 1) * FRAME..][..FRAME].copy_from_slice(&row);
        }
        host.shared[run as usize * HEADER..][..HEADER].copy_from_slice(&[size, run, 0, 0, size * MOST_BYTES]);
    }
    host
}

/// Document 01's trap: two rings of two, each with one frame of class 1 and one of class 2.
#[test]
fn mixed_rings_are_refused_2() {
    let host = Host {
        head: head([4, 4, 0, 4, 3, 2, 0, 2, 1]),
        elems: [[1, 0, 1, 2, 2, 0], [1, 0, 2, 1, 1, 0], [1, 0, 1, 4, 4, 0], [1, 0, 2, 3, 3, 0]].concat(),
        shared: [[2, 0, 0, 0, 0], [2, 0, 0, 0, 0], [0; HEADER]].concat(),
    };
    assert!(numbers(&host).iter().all(|&n| n == 2));
    // with the classes sorted out it is sound
    let mut sorted = host.clone();
    (sorted.elems[FRAME + CLASS], sorted.elems[2 * FRAME + CLASS]) = (1, 2);
    assert_eq!(sorted.call(Call::Check, &[]).number, 0);
    // and fresh takes any tables that fit
    assert_eq!(host.clone().call(Call::Fresh { elems: 4, shared: 3 }, &[]).number, 0);
}

/// Each sentence of soundness broken alone.
#[test]
fn each_sentence_of_soundness() {
    let mut start = two_runs();
    // a free slot and a free header, so that chains are there too
    for call in [Call::InsertSurject { payload: 6, value: 7, size: 0 }, Call::RemoveElement(key(4, 1))] {
        assert_eq!(start.call(call, &[]).number, 0);
    }
    // the free slot and the free header
    const GONE: usize = 3 * FRAME;
    const FREE: usize = 2 * HEADER;
    let breaks: [(&str, fn(&mut Host)); 33] = [
        ("generation 0", |h| h.head[8] = 0),
        ("generation past the last", |h| h.head[8] = 4_294_967_296),
        ("element extent past its capacity", |h| h.head[1] = 5),
        ("shared extent past its capacity", |h| h.head[5] = 4),
        ("element live number", |h| h.head[3] = 2),
        ("shared live number", |h| h.head[7] = 3),
        ("a frame's generation past the last", |h| h.elems[0] = 4_294_967_296),
        ("element chain past the extent", |h| h.elems[GONE + NEXT] = 5),
        ("element chain at a live slot", |h| h.elems[GONE + NEXT] = 1),
        ("element chain without end", |h| h.elems[GONE + NEXT] = 4),
        ("free element slot off the chain", |h| h.head[2] = 0),
        ("shared chain past the extent", |h| h.shared[FREE + NEXT_FREE] = 4),
        ("shared chain at a live slot", |h| h.shared[FREE + NEXT_FREE] = 1),
        ("free shared slot off the chain", |h| h.head[6] = 0),
        ("shared chain without end", |h| h.shared[FREE + NEXT_FREE] = 3),
        ("payload in a free slot", |h| h.elems[GONE + PAYLOAD] = 1),
        ("class in a free slot", |h| h.elems[GONE + CLASS] = 1),
        ("previous in a free slot", |h| h.elems[GONE + PREVIOUS] = 1),
        ("size in a free slot", |h| h.elems[GONE + SIZE] = 1),
        ("value in a free header", |h| h.shared[FREE + VALUE] = 1),
        ("mark on a free header", |h| h.shared[FREE + MARK] = 1),
        ("total on a free header", |h| h.shared[FREE + TOTAL] = 1),
        ("next free in a live header", |h| h.shared[NEXT_FREE] = 3),
        ("mark that is neither 0 nor 1", |h| h.shared[MARK] = 2),
        ("next to a free slot", |h| h.elems[NEXT] = 4),
        ("previous that does not undo next", |h| h.elems[PREVIOUS] = 1),
        ("a class that is free", |h| h.elems[FRAME + CLASS] = 3),
        ("a count that is not the ring's", |h| h.shared[COUNT] = 3),
        ("a total one more than the ring's", |h| h.shared[TOTAL] += 1),
        ("a total one less", |h| h.shared[HEADER + TOTAL] -= 1),
        ("totals exchanged", |h| (h.shared[TOTAL], h.shared[HEADER + TOTAL]) = (300, 600)),
        ("another size", |h| h.elems[2 * FRAME + SIZE] = 501),
        ("a size past a u32, the total with it", |h| {
            (h.elems[FRAME + SIZE], h.shared[HEADER + TOTAL]) = (1 << 32, 1 << 32)
        }),
    ];
    assert_eq!(start.call(Call::Check, &[]).number, 0);
    for (what, damage) in breaks {
        let mut host = start.clone();
        damage(&mut host);
        assert_ne!(host, start, "{what}");
        assert!(numbers(&host).iter().all(|&n| n == 2), "{what}: {:?}", numbers(&host));
    }
}

/// A million random calls. `cargo run --release -p archive [CALLS] [SEED]` makes more.
#[test]
fn random_numbers() {
    let tally = compare(1_000_000, 20_261);
    for (name, counts) in tally.0 {
        let had = |result: u64| counts.contains_key(&result);
        assert!(had(0) && counts.len() > 1, "{name}: {counts:?}");
        let sealed = ["insert", "insert_in_place", "union", "seal"].contains(&name);
        assert_eq!(had(12), sealed, "{name}: {counts:?}");
        assert_eq!(had(10), name == "undo", "{name}: {counts:?}");
        assert_eq!(had(13), name == "transfer_canonical", "{name}: {counts:?}");
        assert_eq!([9, 11].map(had), [name == "read_file"; 2], "{name}: {counts:?}");
        assert_eq!(had(2), !["fresh", "read_file"].contains(&name), "{name}: {counts:?}");
        let room: &[u64] = match name {
            "clone_from" | "insert_surject" | "read_file" | "transfer_canonical" => &[5, 6],
            "insert" | "insert_in_place" => &[5],
            _ => &[],
        };
        assert_eq!([5, 6].map(had), [5, 6].map(|number| room.contains(&number)), "{name}: {counts:?}");
        // each entry with a key tells each cause, and no entry tells 3 without one
        let keyless = [
            "check",
            "clear",
            "clone_from",
            "compress_canonical",
            "compress_with",
            "drain_all",
            "fresh",
            "insert_surject",
            "read_file",
            "transfer_canonical",
            "undo",
            "write_file",
        ];
        let causes = [0, 1, 2, 3, 4].map(|cause| had(3 + 256 * cause));
        assert_eq!(
            causes,
            [false, true, true, true, false].map(|told| told && !keyless.contains(&name)),
            "{name}: {counts:?}"
        );
    }
}
