//! Ticket 12 of document 02: a study moved to other tables. Each move is also compared with the model's and with a reading of its own,
//! in every number of both studies, over memory with canaries around each part; a refusal must leave every number.

use archive::random::{Random, any_buffer, any_call, begun};
use archive::{Host, head, key};
use model::door::Call;
use model::layout::{COUNT, LAST_GENERATION, MARK, MOST_BYTES, TOTAL};
use model::{FRAME, HEADER, SEAL_PLACE, check};

fn new_run(payload: u64, value: u64, size: u32) -> Call {
    Call::InsertSurject { payload, value, size }
}

/// The call is accepted; its answer.
fn done(host: &mut Host, call: Call) -> [u64; 4] {
    let said = host.call(call, &[0; 64]);
    assert_eq!(said.number, 0, "{call:?} of {host:?}");
    said.out
}

fn number(host: &Host, call: Call) -> u64 {
    host.clone().call(call, &[0; 64]).number
}

/// A sound study of its own: three runs of one frame, the first two joined, which can be undone, the last one sealed before.
fn other_study(elems: u64, shared: u64, generation: u64) -> Host {
    let mut host = Host::fresh(elems, shared);
    host.head[8] = generation;
    for n in 1..=elems.min(shared).min(3) {
        done(&mut host, new_run(900 + n, 90 * n, 7));
    }
    if host.head[3] == 3 {
        done(&mut host, Call::Seal(key(3, generation)));
        done(&mut host, Call::Union(key(1, generation), key(2, generation)));
    }
    host
}

/// Runs that lie through each other: slots 2 and 5, slot 3, which is sealed, slots 4 and 6. Slot 1 and the first header are free.
fn through_each_other() -> Host {
    let mut host = Host::fresh(8, 5);
    for n in 1..=4 {
        done(&mut host, new_run(100 + n, 10 * n, n as u32));
    }
    for (at, payload) in [(2, 105), (4, 106)] {
        done(&mut host, Call::Insert(key(at, 1), payload, payload as u32));
    }
    done(&mut host, Call::Seal(key(3, 1)));
    host.head[8] = 5;
    done(&mut host, Call::RemoveElement(key(1, 1)));
    assert_eq!(host.head, head([8, 6, 1, 5, 5, 4, 1, 3, 6]));
    host
}

/// Runs by their lowest slots, each in ring order from there, to slots 1 and up; the source is as a clear leaves it.
#[test]
fn in_canonical_order() {
    let mut source = Host::fresh(8, 5);
    for n in 1..=4 {
        done(&mut source, new_run(100 + n, 10 * n, n as u32));
    }
    // rings 4, 6, 2 under the last header and 3, 5 under the one before; the first slot is taken once more
    done(&mut source, Call::Union(key(4, 1), key(2, 1)));
    done(&mut source, Call::Insert(key(3, 1), 105, 5));
    done(&mut source, Call::Seal(key(5, 1)));
    done(&mut source, Call::RemoveElement(key(1, 1)));
    done(&mut source, new_run(106, 60, 6));
    done(&mut source, Call::Insert(key(4, 1), 107, 7));
    done(&mut source, Call::Seal(key(1, 2)));
    done(&mut source, Call::RemoveElement(key(1, 2)));
    assert_eq!(source.head, head([8, 6, 1, 5, 5, 4, 1, 2, 3]));
    let mut target = other_study(6, 4, 9);
    assert_eq!(target.transfer_from(77, &mut source), Ok(false));
    // the lowest slot is 2: ring 2, 4, 6; then 3, 5
    assert_eq!(target.head, head([6, 5, 0, 5, 4, 2, 0, 2, 77]));
    let rows = [
        [77, 102, 1, 3, 2, 2],
        [77, 104, 1, 1, 3, 4],
        [77, 107, 1, 2, 1, 7],
        [77, 103, 2, 5, 5, 3],
        [77, 105, 2, 4, 4, 5],
        [0; FRAME],
    ];
    assert_eq!(target.elems, rows.concat());
    let headers = [[3, 40, 0, 0, 13], [2, 30, 0, 1, 8], [0; HEADER], [0; HEADER]];
    assert_eq!(target.shared, headers.concat());
    assert_eq!(number(&target, Call::Check), 0);
    let mut cleared = Host::fresh(8, 5);
    cleared.head[8] = 4;
    assert_eq!(source, cleared);
}

/// The head of a ring is its lowest slot, wherever it was begun and whichever frame was put in first.
#[test]
fn from_the_lowest_slot() {
    let mut source = Host::fresh(5, 5);
    for n in 1..=4 {
        done(&mut source, new_run(n, 10 * n, 0));
    }
    // ring 4, 3, 2 and a free slot 1, into which the last frame of the ring comes
    for (j, k) in [(4, 3), (3, 2)] {
        done(&mut source, Call::Union(key(j, 1), key(k, 1)));
    }
    done(&mut source, Call::RemoveElement(key(1, 1)));
    assert_eq!(done(&mut source, Call::Insert(key(3, 1), 5, 0))[..2], [1, 2]);
    let mut target = Host::fresh(4, 1);
    assert_eq!(target.transfer_from(1, &mut source), Ok(false));
    let payloads: Vec<u64> = target.elems.chunks(FRAME).map(|row| row[1]).collect();
    assert_eq!(payloads, [5, 2, 4, 3]);
}

/// It is as canonical compression in place would number the frames, in tables of the same capacities and by the same generation.
#[test]
fn as_a_compression_numbers_them() {
    let mut r = Random::new(1_212);
    let mut moved = 0;
    for _ in 0..4_000 {
        let mut source = grown(&mut r);
        let mut wanted = source.clone();
        let lent = vec![0; wanted.elems.len()];
        assert_eq!(wanted.call(Call::CompressCanonical { reset: 0 }, &lent).number, 0);
        let mut target = Host::fresh(source.head[0], source.head[4]);
        let said = target.transfer_from(wanted.head[8] as u32, &mut source);
        assert_eq!(target, wanted);
        // the source's generation rises by one in both
        assert_eq!(source.head[8] == wanted.head[8], !wanted.keys().is_empty());
        assert_eq!(said, Ok(wanted.head[8] == 1 && !wanted.keys().is_empty()));
        moved += wanted.keys().len();
    }
    assert!(moved > 10_000, "{moved} moved");
}

/// 5 and 6 go by live numbers: not by the last live slots, not by extents, and not by what the target holds. 5 comes before 6.
#[test]
fn by_live_numbers() {
    let source = through_each_other();
    for (elems, shared) in (1..=9).flat_map(|e| (1..=6).map(move |s| (e, s))) {
        let wanted = if elems < 5 { Err(5) } else { [Ok(false), Err(6)][usize::from(shared < 3)] };
        for mut target in [Host::fresh(elems, shared), other_study(elems, shared, 3)] {
            assert_eq!(target.transfer_from(2, &mut source.clone()), wanted, "{elems} {shared}");
        }
    }
    // exact room, though slots 6 and header 4 are in use; one short on either side
    assert_eq!(Host::fresh(5, 3).transfer_from(2, &mut source.clone()), Ok(false));
    assert_eq!(Host::fresh(4, 3).transfer_from(2, &mut source.clone()), Err(5));
    assert_eq!(Host::fresh(5, 2).transfer_from(2, &mut source.clone()), Err(6));
    assert_eq!(Host::fresh(4, 2).transfer_from(2, &mut source.clone()), Err(5));
}

/// An empty source is not touched: extents, chains and generation stay, the last generation too. The target is empty then, with the
/// given generation.
#[test]
fn an_empty_source() {
    let mut emptied = Host::fresh(5, 4);
    for n in 1..=3 {
        done(&mut emptied, new_run(n, n, 9));
    }
    for n in [2, 1, 3] {
        done(&mut emptied, Call::RemoveElement(key(n, 1)));
    }
    assert_eq!(emptied.head, head([5, 3, 3, 0, 4, 3, 3, 0, 4]));
    let mut last = emptied.clone();
    last.head[8] = LAST_GENERATION;
    for source in [emptied, last, Host::fresh(1, 1)] {
        for (mut target, generation) in
            [(other_study(4, 3, 5), 5), (other_study(3, 3, LAST_GENERATION), 1), (Host::fresh(1, 1), u32::MAX)]
        {
            let mut left = source.clone();
            let mut wanted = Host::fresh(target.head[0], target.head[4]);
            wanted.head[8] = generation.into();
            assert_eq!(target.transfer_from(generation, &mut left), Ok(false));
            assert_eq!((target, &left), (wanted, &source));
        }
    }
}

/// The source's last generation goes to 1, which is told; the target's and the given one are not told of.
#[test]
fn the_last_generation() {
    for (from, to, given, told) in [
        (LAST_GENERATION, 1, 1, true),
        (LAST_GENERATION, LAST_GENERATION, u32::MAX, true),
        (LAST_GENERATION - 1, LAST_GENERATION, u32::MAX, false),
        (1, LAST_GENERATION, 1, false),
        (7, 8, u32::MAX, false),
    ] {
        let (mut source, mut target) = (other_study(4, 4, from), other_study(3, 3, to));
        assert_eq!(target.transfer_from(given, &mut source), Ok(told), "{from} {to} {given}");
        assert_eq!(source.head, head([4, 0, 0, 0, 4, 0, 0, 0, from % LAST_GENERATION + 1]));
        assert_eq!(target.head, head([3, 3, 0, 3, 3, 2, 0, 2, given.into()]));
        assert!(target.keys().iter().all(|k| k.generation == u64::from(given)));
        // the next frame has the given generation too
        done(&mut target, Call::RemoveElement(key(1, given.into())));
        assert_eq!(done(&mut target, new_run(1, 1, 0))[1], u64::from(given) % LAST_GENERATION + 1);
    }
}

/// Marks, sizes and totals come along, the largest too: a sealed run lets no frame in.
#[test]
fn sealed_and_sized_runs() {
    let most = MOST_BYTES as u32;
    let mut source = Host::fresh(6, 4);
    for call in [new_run(1, 10, most), new_run(2, 20, 5), Call::Insert(key(1, 1), 3, most), new_run(4, 30, 0)] {
        done(&mut source, call);
    }
    done(&mut source, Call::Seal(key(1, 1)));
    let mut target = other_study(4, 3, 2);
    assert_eq!(target.transfer_from(9, &mut source), Ok(false));
    let header = |c: usize| [COUNT, MARK, TOTAL].map(|field| target.shared[(c - 1) * HEADER + field]);
    assert_eq!([1, 2, 3].map(header), [[2, 1, 2 * MOST_BYTES], [1, 0, 5], [1, 0, 0]]);
    assert_eq!(number(&target, Call::Insert(key(2, 9), 5, 0)), 12);
    assert_eq!(number(&target, Call::Union(key(4, 9), key(1, 9))), 12);
    assert_eq!(number(&target, Call::Seal(key(2, 9))), 12);
    assert_eq!(number(&target, Call::Seal(key(3, 9))), 0);
    assert_eq!(done(&mut target, Call::GetSize(key(2, 9)))[0], MOST_BYTES);
}

/// Neither side has a union to undo afterwards, and a refused move leaves what there was.
#[test]
fn nothing_to_undo() {
    let (source, target) = (other_study(4, 4, 1), other_study(5, 5, 1));
    assert_eq!([&source, &target].map(|host| number(host, Call::Undo)), [0, 0]);
    let (mut from, mut to) = (source.clone(), target.clone());
    assert_eq!(to.transfer_from(1, &mut from), Ok(false));
    assert_eq!([&from, &to].map(|host| number(host, Call::Undo)), [10, 10]);
    // an empty source takes the target's away
    assert_eq!(to.transfer_from(1, &mut Host::fresh(1, 1)), Ok(false));
    assert_eq!(number(&to, Call::Undo), 10);
    let (mut from, mut to) = (source.clone(), other_study(3, 3, 1));
    from.head[8] = 3;
    done(&mut from, new_run(5, 5, 5));
    done(&mut from, Call::Union(key(4, 3), key(1, 1)));
    assert_eq!(to.transfer_from(1, &mut from), Err(5));
    assert_eq!([&from, &to].map(|host| number(host, Call::Undo)), [0, 0]);
}

fn broken(host: &Host) -> Host {
    let mut host = host.clone();
    host.head[3] += 1;
    host
}

fn misshapen(host: &Host) -> [Host; 4] {
    [0, 1, 2, 3].map(|way| {
        let mut host = host.clone();
        match way {
            0 => drop(host.elems.pop()),
            1 => host.shared.push(0),
            2 => host.head[0] = 0,
            _ => host.head[4] = 65_537,
        }
        host
    })
}

/// Each refusal, and each before those that come after it: 1 of the source, 1 of the target, 2 of the source, 2 of the target, 13, 5, 6.
#[test]
fn the_order_of_refusals() {
    let source = through_each_other();
    let said = |to: &Host, given: u32, from: &Host| to.clone().transfer_from(given, &mut from.clone());
    let targets = [((5, 3), Ok(false)), ((4, 3), Err(5)), ((5, 2), Err(6)), ((4, 2), Err(5))];
    for ((elems, shared), room) in targets {
        for to in [Host::fresh(elems, shared), other_study(elems, shared, 4)] {
            // 5 before 6; 13 before both
            assert_eq!(said(&to, 1, &source), room);
            assert_eq!(said(&to, 0, &source), Err(13));
            for given in [0, 1, u32::MAX] {
                // 2 before 13, of either
                assert_eq!(said(&to, given, &broken(&source)), Err(2));
                assert_eq!(said(&broken(&to), given, &source), Err(2));
                assert_eq!(said(&broken(&to), given, &broken(&source)), Err(2));
                // 1 before 2: of the source, and of the target before 2 of the source
                for from in misshapen(&source) {
                    assert_eq!(said(&to, given, &from), Err(1));
                    assert_eq!(said(&broken(&to), given, &from), Err(1));
                    assert_eq!(said(&to, given, &broken(&from)), Err(1));
                }
                for misshapen in misshapen(&to) {
                    assert_eq!(said(&misshapen, given, &source), Err(1));
                    assert_eq!(said(&misshapen, given, &broken(&source)), Err(1));
                }
            }
        }
    }
    // an empty source: 13 all the same, and the target must be sound
    let none = Host::fresh(2, 2);
    assert_eq!(said(&Host::fresh(1, 1), 0, &none), Err(13));
    assert_eq!(said(&broken(&Host::fresh(1, 1)), 1, &none), Err(2));
}

/// A source and a target are refused 2 for each line of soundness, what the head remembers included.
#[test]
fn unsound_states() {
    let breaks: [fn(&mut Host); 12] = [
        |host| host.head[8] = LAST_GENERATION + 1,
        |host| host.head[1] = 9,
        |host| host.head[3] += 1,
        |host| host.head[7] -= 1,
        |host| host.head[2] = 0,
        |host| host.head[6] = 3,
        |host| host.elems[FRAME] = 0,
        |host| host.elems[3 * FRAME + 2] = 1,
        |host| host.elems[7 * FRAME + 1] = 1,
        |host| host.shared[HEADER + TOTAL] += 1,
        |host| host.shared[HEADER + MARK] = 2,
        |host| host.head[12] = 1,
    ];
    for damage in breaks {
        let mut bad = through_each_other();
        damage(&mut bad);
        for good in [Host::fresh(8, 5), other_study(3, 3, 1), through_each_other()] {
            assert_eq!(good.clone().transfer_from(1, &mut bad.clone()), Err(2), "{bad:?}");
            assert_eq!(bad.clone().transfer_from(1, &mut good.clone()), Err(2), "{bad:?}");
        }
    }
}

/// Capacities at their limits, of either side; lengths that only fit modulo 2 to the 64th.
#[test]
fn limits_of_capacities() {
    let most = 65_536;
    for (elems, shared, number) in [(most, 3, 0), (5, most, 0), (most, most, 0), (most + 1, 3, 1), (5, most + 1, 1)] {
        let wanted = if number == 0 { Ok(false) } else { Err(number) };
        let mut wide = Host::fresh(elems, shared);
        assert_eq!(wide.transfer_from_with(check::sound, 3, &mut through_each_other()), wanted);
        let mut wide = Host::fresh(elems, shared);
        assert_eq!(Host::fresh(8, 7).transfer_from_with(check::sound, 3, &mut wide), wanted);
    }
    let mut wide = Host::fresh(4, 4);
    // 4 slots of 6 numbers: so has this capacity, modulo 2 to the 64th
    wide.head[0] = 4 + (1 << 63);
    assert_eq!(wide.clone().transfer_from(1, &mut through_each_other()), Err(1));
    assert_eq!(Host::fresh(8, 5).transfer_from(1, &mut wide), Err(1));
}

/// A full study of the largest capacities: one ring through all slots, rings of four that lie far apart, rings of one with their headers
/// in another order.
#[test]
fn the_largest_studies() {
    let most = 65_536u64;
    let slot = |k: u64| (k * 40_503) % most + 1;
    for size in [most, 4, 1] {
        let runs = most / size;
        let mut source = Host::fresh(most, most);
        source.head = head([most, most, 0, most, most, runs, 0, runs, LAST_GENERATION]);
        for (run, at) in (0..runs).flat_map(|run| (0..size).map(move |at| (run, at))) {
            let place = |at: u64| slot(run * size + at % size);
            // the header of a run in another slot than its place
            let class = (run * 40_503) % runs + 1;
            let row = [1 + at % 9, run + 3 * at, class, place(at + size - 1), place(at + 1), MOST_BYTES];
            source.elems[(place(at) as usize - 1) * FRAME..][..FRAME].copy_from_slice(&row);
            let header = [size, run, 0, run % 2, size * MOST_BYTES];
            source.shared[(class as usize - 1) * HEADER..][..HEADER].copy_from_slice(&header);
        }
        assert_eq!(Host::fresh(most - 1, most).transfer_from_with(check::sound, 8, &mut source.clone()), Err(5));
        if runs > 1 {
            assert_eq!(Host::fresh(most, runs - 1).transfer_from_with(check::sound, 8, &mut source.clone()), Err(6));
        }
        let mut target = Host::fresh(most, runs);
        assert_eq!(target.transfer_from_with(check::sound, 8, &mut source), Ok(true));
        assert_eq!(target.call_with(check::sound, Call::Check, &[]).number, 0);
        assert_eq!((target.head[8], source.head[8], source.head[3]), (8, 1, 0));
    }
}

/// A state that random calls have grown.
fn grown(r: &mut Random) -> Host {
    let mut host = begun(r);
    for _ in 0..r.below(60) {
        let keys = host.keys();
        let call = match r.below(6) {
            0 | 1 => new_run(r.number(), r.number(), r.size()),
            2 if !keys.is_empty() => Call::Insert(r.of(&keys), r.number(), r.size()),
            3 if !keys.is_empty() => Call::RemoveElement(r.of(&keys)),
            _ => any_call(&host, r),
        };
        let lent = any_buffer(&host, &call, r);
        host.call(call, &lent);
    }
    host
}

/// The runs: shared value, mark, and payload and size of each frame, each ring from its lowest slot, in the order of these.
fn runs(host: &Host) -> Vec<(u64, u64, Vec<[u64; 2]>)> {
    let row = |slot: u64| &host.elems[(slot as usize - 1) * FRAME..][..FRAME];
    let (mut runs, mut met) = (vec![], vec![]);
    for first in host.keys().iter().map(|k| k.slot) {
        if met.contains(&first) {
            continue;
        }
        let (mut ring, mut slot) = (vec![], first);
        while !met.contains(&slot) {
            met.push(slot);
            ring.push([row(slot)[1], row(slot)[5]]);
            slot = row(slot)[4];
        }
        let header = &host.shared[(row(first)[2] as usize - 1) * HEADER..][..HEADER];
        runs.push((header[1], header[MARK], ring));
    }
    runs
}

/// Runs, rings, values, marks, sizes and payloads are the same; the frames of both sides together fall by the target's old number.
#[test]
fn the_same_runs() {
    let mut r = Random::new(26);
    let (mut moved, mut refused, mut over) = (0, [0; 14], 0);
    for _ in 0..20_000 {
        let (mut source, mut target) = (grown(&mut r), grown(&mut r));
        if r.one_in(3) {
            // a target about as large as needed
            let capacity =
                |live: u64, r: &mut Random| (live + r.of(&[0, 0, 1, 2])).saturating_sub(r.of(&[0, 0, 0, 1])).max(1);
            let (elems, shared) = (capacity(source.head[3], &mut r), capacity(source.head[7], &mut r));
            target = other_study(elems, shared, 1 + r.below(9));
        }
        let (before, frames, old) = (runs(&source), source.head[3] + target.head[3], target.head[3]);
        let given = r.of(&[0, 1, 2, 3, 1_000, u32::MAX - 1, u32::MAX]);
        match target.transfer_from(given, &mut source) {
            Ok(overflow) => {
                assert_eq!(runs(&target), before);
                assert_eq!(source.head[3] + target.head[3], frames - old);
                assert_eq!([number(&source, Call::Check), number(&target, Call::Check)], [0, 0]);
                assert!(target.keys().iter().zip(1..).all(|(k, slot)| *k == key(slot, given.into())));
                (moved, over) = (moved + before.len(), over + u64::from(overflow));
            }
            Err(number) => refused[number as usize] += 1,
        }
    }
    assert!(moved > 20_000 && over > 100 && [5, 6, 13].iter().all(|n| refused[*n] > 200), "{moved} {over} {refused:?}");
}

/// Both go on by themselves, each as the model says; and the study comes back.
#[test]
fn both_go_on() {
    let mut r = Random::new(2_612);
    let mut back = 0;
    for _ in 0..1_500 {
        let (mut source, mut target) = (grown(&mut r), grown(&mut r));
        let given = 1 + r.below(5) as u32;
        if target.transfer_from(given, &mut source).is_err() {
            continue;
        }
        for _ in 0..20 {
            let one = if r.one_in(2) { &mut source } else { &mut target };
            let call = any_call(one, &mut r);
            let lent = any_buffer(one, &call, &mut r);
            one.call(call, &lent);
        }
        let before = runs(&target);
        if source.transfer_from(given, &mut target).is_ok() {
            assert_eq!(runs(&source), before);
            back += 1;
        }
    }
    assert!(back > 200, "{back} came back");
}

/// A key of the target from before a move can be live after it and mean another frame, as after a fresh call. The source's keys are
/// dead there, as after a clear.
#[test]
fn keys_from_before() {
    let (mut source, mut target) = (Host::fresh(3, 3), Host::fresh(3, 3));
    assert_eq!(done(&mut target, new_run(1, 10, 0))[..2], [1, 1]);
    done(&mut target, Call::RemoveElement(key(1, 1)));
    assert_eq!(number(&target, Call::Lookup(key(1, 1))), 3);
    let keys = [2, 3]
        .map(|n| {
            let k = done(&mut source, new_run(n, 20, 0));
            key(k[0], k[1])
        })
        .to_vec();
    assert_eq!(target.transfer_from(1, &mut source), Ok(false));
    assert_eq!(done(&mut target, Call::Get(key(1, 1)))[0], 2);
    let lookup = |host: &Host, k| host.clone().call(Call::Lookup(k), &[]).result();
    assert!(keys.iter().all(|k| lookup(&source, *k) == 3 + 256));
    for n in [4, 5] {
        done(&mut source, new_run(n, 40, 0));
    }
    assert!(keys.iter().all(|k| lookup(&source, *k) == 3 + 256 * 3));
    // and what is sealed in the target stays sealed where it goes next
    let said = target.call(Call::Seal(key(2, 1)), &[0; SEAL_PLACE]);
    assert_eq!((said.number, target.transfer_from(3, &mut Host::fresh(1, 1))), (0, Ok(false)));
}
