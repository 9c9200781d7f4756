//! Adversarial cases.

use crate::calls::{Call, Case, Name};
use crate::generate::{Random, bytes, number};

fn new_runs(count: usize) -> Vec<Call> {
    (0..count).map(|i| Call::InsertSurject(i, number(2 * i), number(2 * i + 1), bytes(i))).collect()
}

/// Runs of one joined two by two, then four by four, and so on: the most rewriting that there is.
fn balanced(n: usize, r: &mut Random) -> Vec<Call> {
    let mut calls = new_runs(n);
    let mut gap = 1;
    while gap < n {
        for start in (0..n - gap).step_by(2 * gap) {
            let (j, k) = (start + r.below(gap), start + gap + r.below(gap.min(n - start - gap)));
            calls.push(if r.below(2) == 0 { Call::Union(j, k) } else { Call::Union(k, j) });
        }
        gap *= 2;
    }
    calls.extend([Call::List(r.below(n)), Call::Compress(false), Call::List(r.below(n)), Call::DrainAll]);
    calls
}

/// The same, where each union is taken back and made again, often with the keys the other way round, or with other frames of the two
/// runs; and now and then a read or a set comes between.
fn taken_back(n: usize, r: &mut Random) -> Vec<Call> {
    let mut calls = new_runs(n);
    let mut gap = 1;
    while gap < n {
        for start in (0..n - gap).step_by(2 * gap) {
            let (j, k) = (start + r.below(gap), start + gap + r.below(gap.min(n - start - gap)));
            let mut both = [Call::Union(j, k), Call::Union(k, j), Call::Union(start, start + gap)];
            both.rotate_left(r.below(3));
            let between = r.of(&[Call::Check, Call::List(j), Call::Undo, Call::Set(k, number(2 * k))]);
            calls.extend([both[0], between, Call::Undo, both[1]]);
        }
        gap *= 2;
    }
    calls.extend([Call::Undo, Call::Compress(false), Call::Undo, Call::DrainAll]);
    calls
}

/// One ring, grown at random places, with single frames joined to it from either side, then taken apart.
fn one_ring(n: usize, r: &mut Random) -> Vec<Call> {
    let mut calls = new_runs(1);
    for i in 1..n {
        let payload = number(2 * i);
        if i % 3 == 0 {
            calls.push(Call::InsertSurject(i, payload, payload + 1, bytes(i)));
            let at = r.below(i);
            calls.push(if i % 2 == 0 { Call::Union(i, at) } else { Call::Union(at, i) });
        } else {
            calls.push(Call::Insert(r.below(i), i, payload, bytes(i)));
        }
    }
    calls.extend((0..n).step_by(3).map(Call::RemoveElement));
    calls.extend([Call::List(1), Call::Compress(true), Call::Drain(n - n % 3 - 1)]);
    calls
}

/// Filled, half of it taken out in some order, filled again, with unions between; compressed now and then.
fn churn(n: usize, rounds: usize, r: &mut Random) -> Vec<Call> {
    let mut calls = vec![];
    let (mut live, mut serial): (Vec<Name>, usize) = (vec![], 0);
    for round in 0..rounds {
        while live.len() < n {
            let payload = number(2 * serial);
            if live.is_empty() || r.below(3) == 0 {
                calls.push(Call::InsertSurject(serial, payload, payload + 1, bytes(serial)));
            } else {
                calls.push(Call::Insert(r.of(&live), serial, payload, bytes(serial)));
            }
            live.push(serial);
            serial += 1;
        }
        for _ in 0..n / 8 {
            calls.push(Call::Union(r.of(&live), r.of(&live)));
        }
        for _ in 0..n / 2 {
            let at = match round % 3 {
                0 => 0,
                1 => live.len() - 1,
                _ => r.below(live.len()),
            };
            calls.push(Call::RemoveElement(live.remove(at)));
        }
        if round % 4 == 3 {
            calls.push(Call::Compress(round % 8 == 7));
        }
    }
    calls.push(Call::DrainAll);
    calls
}

/// Headers far from where compression wants them: unions free shared slots, new runs take them in another order.
fn displaced(n: usize, r: &mut Random) -> Vec<Call> {
    let mut calls = new_runs(n);
    let mut left: Vec<Name> = (0..n).collect();
    let mut serial = n;
    for _ in 0..4 {
        for _ in 0..left.len() / 3 {
            let gone = left.swap_remove(r.below(left.len()));
            if r.below(2) == 0 {
                calls.push(Call::Union(r.of(&left), gone));
            } else {
                calls.push(Call::RemoveShared(gone));
            }
        }
        for _ in 0..n / 4 {
            calls.push(Call::InsertSurject(serial, number(2 * serial), number(2 * serial + 1), bytes(serial)));
            left.push(serial);
            serial += 1;
        }
        calls.extend([Call::Compress(false), Call::Check]);
    }
    calls
}

/// Rings of four, every other one sealed; frames and runs that come too late, from either side, before and after removals
/// and a compression; then sealed runs go whole, and new runs take their shared slots.
fn sealed(n: usize, r: &mut Random) -> Vec<Call> {
    let runs = n / 8;
    let mut calls = new_runs(runs);
    let ring = |run: usize| [0, 1, 2, 3].map(|i| i * runs + run);
    for (at, new) in (0..3 * runs).zip(runs..) {
        calls.push(Call::Insert(at, new, number(2 * new), bytes(new)));
    }
    let mut serial = 4 * runs;
    let mut late = |calls: &mut Vec<Call>, r: &mut Random| {
        for run in 0..runs {
            calls.push(Call::Insert(r.of(&ring(run)), serial, number(2 * serial), bytes(serial)));
            let (j, k) = (r.of(&ring(run)), r.of(&ring((run + 1) % runs)));
            calls.push(if r.below(2) == 0 { Call::Union(j, k) } else { Call::Union(k, j) });
            serial += 1;
        }
    };
    calls.extend((0..runs).step_by(2).map(|run| Call::Seal(ring(run)[run / 2 % 4])));
    late(&mut calls, r);
    calls.extend((0..runs).map(|run| Call::RemoveElement(ring(run)[run % 4])));
    late(&mut calls, r);
    calls.extend([Call::Compress(false), Call::Check]);
    late(&mut calls, r);
    let kept = |run: usize| ring(run)[(run + 1) % 4];
    calls.extend((0..runs).map(|run| Call::Seal(kept(run))));
    for run in (0..runs).step_by(3) {
        calls.push(if run % 2 == 0 { Call::RemoveShared(kept(run)) } else { Call::Drain(kept(run)) });
        calls.push(Call::InsertSurject(serial, number(2 * serial), number(2 * serial + 1), bytes(serial)));
        calls.push(Call::Insert(serial, serial + 1, number(2 * serial + 2), bytes(serial + 1)));
        serial += 2;
    }
    calls.extend([Call::Compress(true), Call::DrainAll]);
    calls
}

/// Runs that lie through each other, with holes on both sides, some of them sealed, headers in another order than their runs'
/// lowest frames: compressed in slot order again and again, and now and then in canonical order.
fn in_order(n: usize, r: &mut Random) -> Vec<Call> {
    let mut calls = vec![];
    let (mut live, mut serial): (Vec<Name>, usize) = (vec![], 0);
    for round in 0..8 {
        while live.len() < n {
            let payload = number(2 * serial);
            if live.is_empty() || r.below(4) == 0 {
                calls.push(Call::InsertSurject(serial, payload, payload + 1, bytes(serial)));
            } else {
                calls.push(Call::Insert(r.of(&live), serial, payload, bytes(serial)));
            }
            // an insert at a sealed run is refused; its name is then never given
            live.push(serial);
            serial += 1;
        }
        calls.extend((0..n / 16).map(|_| Call::Union(r.of(&live), r.of(&live))));
        calls.extend((0..n / 64).map(|_| Call::Seal(r.of(&live))));
        for _ in 0..n / 3 {
            calls.push(Call::RemoveElement(live.swap_remove(r.below(live.len()))));
        }
        calls.push(Call::RemoveShared(r.of(&live)));
        calls.extend([Call::CompressWith(round % 4 == 1), Call::List(r.of(&live))]);
        if round % 3 == 2 {
            calls.push(Call::Compress(false));
        }
    }
    calls.extend([Call::CompressWith(true), Call::DrainAll, Call::CompressWith(false)]);
    calls
}

/// Runs with holes on both sides, some of them sealed, copied to the other tables again and again; frames then come into the holes of
/// the copy, or of the source, whose order in the slots a compression shows.
fn copied(n: usize, r: &mut Random) -> Vec<Call> {
    let mut calls = vec![];
    let (mut live, mut serial): (Vec<Name>, usize) = (vec![], 0);
    for round in 0..8 {
        while live.len() < n {
            let payload = number(2 * serial);
            if live.is_empty() || r.below(4) == 0 {
                calls.push(Call::InsertSurject(serial, payload, payload + 1, bytes(serial)));
            } else {
                calls.push(Call::Insert(r.of(&live), serial, payload, bytes(serial)));
            }
            live.push(serial);
            serial += 1;
        }
        calls.extend((0..n / 16).map(|_| Call::Union(r.of(&live), r.of(&live))));
        calls.extend((0..n / 64).map(|_| Call::Seal(r.of(&live))));
        for _ in 0..n / 3 {
            calls.push(Call::RemoveElement(live.swap_remove(r.below(live.len()))));
        }
        calls.extend([Call::RemoveShared(r.of(&live)), Call::Union(r.of(&live), r.of(&live)), Call::CloneFrom]);
        // the source's undo is there after the copy, and the copy has none
        calls.extend([Call::Change, Call::Undo, Call::Change, Call::Undo]);
        if round % 3 != 2 {
            calls.push(Call::Change);
        }
        for _ in 0..n / 4 {
            calls.push(Call::Insert(r.of(&live), serial, number(2 * serial), bytes(serial)));
            live.push(serial);
            serial += 1;
        }
        calls.push(if round % 2 == 0 { Call::CompressWith(false) } else { Call::List(r.of(&live)) });
    }
    calls.extend([Call::CloneFrom, Call::DrainAll, Call::Change, Call::DrainAll, Call::CloneFrom]);
    calls
}

/// Studies that go to and fro between the two tables: runs that lie through each other, with holes on both sides, some of them sealed,
/// move over frames that are there already; more come in, on one side or the other, and their order in the slots shows by a compression.
fn moved(n: usize, r: &mut Random) -> Vec<Call> {
    let mut calls = vec![];
    let (mut live, mut serial): (Vec<Name>, usize) = (vec![], 0);
    for round in 0..8 {
        while live.len() < n {
            let payload = number(2 * serial);
            if live.is_empty() || r.below(4) == 0 {
                calls.push(Call::InsertSurject(serial, payload, payload + 1, bytes(serial)));
            } else {
                calls.push(Call::Insert(r.of(&live), serial, payload, bytes(serial)));
            }
            live.push(serial);
            serial += 1;
        }
        calls.extend((0..n / 16).map(|_| Call::Union(r.of(&live), r.of(&live))));
        calls.extend((0..n / 64).map(|_| Call::Seal(r.of(&live))));
        for _ in 0..n / 3 {
            calls.push(Call::RemoveElement(live.swap_remove(r.below(live.len()))));
        }
        calls.extend([Call::Union(r.of(&live), r.of(&live)), Call::Transfer(1 + r.below(9) as u32), Call::Undo]);
        // a run in the tables that were left, over which the study comes back
        calls.push(Call::InsertSurject(serial, number(2 * serial), number(2 * serial + 1), bytes(serial)));
        serial += 1;
        calls.extend([Call::Change, Call::Undo]);
        for _ in 0..n / 4 {
            calls.push(Call::Insert(r.of(&live), serial, number(2 * serial), bytes(serial)));
            live.push(serial);
            serial += 1;
        }
        calls.push(if round % 2 == 0 { Call::CompressWith(false) } else { Call::List(r.of(&live)) });
    }
    calls.extend([Call::Transfer(5), Call::Transfer(6), Call::Change, Call::DrainAll, Call::Change, Call::DrainAll]);
    calls
}

/// The adversarial cases, with their names.
pub fn adversarial(seed: u64, largest: usize) -> Vec<(&'static str, Case)> {
    let r = &mut Random::new(seed ^ 0xAD5E);
    let mut cases = vec![];
    let mut size = 16;
    while size <= largest {
        // a comparison takes as long as there are frames
        let stride = (size / 256).max(1);
        let mut add = |name, calls| {
            let others = [size, size];
            cases.push((name, Case { elems: size, shared: size, others, calls, stride }))
        };
        add("balanced unions", balanced(size, r));
        add("balanced unions", balanced(size - size / 5, r));
        add("unions taken back", taken_back(size, r));
        add("one big ring", one_ring(size, r));
        add("churn", churn(size, 12, r));
        add("displaced headers", displaced(size * 3 / 4, r));
        add("sealed runs", sealed(size, r));
        add("in slot order", in_order(size, r));
        add("copies", copied(size, r));
        add("moves", moved(size, r));
        add("files", crate::files::filed(size, r));
        size *= 4;
    }
    cases
}
