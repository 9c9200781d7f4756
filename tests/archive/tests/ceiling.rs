//! Ticket 9: the entry that answers the ceiling on union work, against the model at every number that it takes; and runs of
//! the archive whose answered rewrite counts, added up, are held against the entry's answer.

use archive::random::Random;
use archive::{Host, UNTOUCHED, key};
use doorsedge::sys::doorsedge_union_ceiling;
use model::door::Call;
use model::{Key, figures};

/// The entry's result, and `out` with the numbers beside it, which it may not touch.
fn said(n: u64) -> (u64, [u64; 3]) {
    let mut room = [UNTOUCHED; 3];
    let out: *mut [u64; 1] = room[1..].as_mut_ptr().cast();
    // Safety: `out` points to a number inside `room`
    let result = unsafe { doorsedge_union_ceiling(n, out) };
    (result, room)
}

/// The figure that the entry answers for this many frames.
fn ceiling(frames: u64) -> u64 {
    let (result, room) = said(frames);
    assert_eq!(result, 0, "{frames} frames");
    room[1]
}

/// As the model says, which halves the number, and refused without a number written.
fn compared(n: u64) {
    let (result, written) = match figures::union_ceiling(n) {
        Ok(figure) => (0, figure),
        Err(refusal) => (refusal.result(), UNTOUCHED),
    };
    assert_eq!(said(n), (result, [UNTOUCHED, written, UNTOUCHED]), "{n}");
}

#[test]
fn worked() {
    let figures = [(1, 0), (2, 2), (3, 3), (4, 8), (5, 10), (7, 14), (8, 24), (65_535, 983_025), (65_536, 1_048_576)];
    for (n, figure) in figures {
        assert_eq!(said(n), (0, [UNTOUCHED, figure, UNTOUCHED]), "{n}");
    }
    for n in [0, 65_537, u64::MAX] {
        assert_eq!(said(n), (13, [UNTOUCHED; 3]), "{n}");
    }
}

#[test]
fn every_number_and_beyond() {
    (0..=70_000).for_each(compared);
    let mut r = Random::new(9);
    (0..64).for_each(|bit| compared(1 << bit));
    (0..10_000).for_each(|_| compared(r.number()));
}

/// A new run, and its key.
fn begun(host: &mut Host, payload: u64) -> Key {
    let said = host.call(Call::InsertSurject { payload, value: payload, size: 0 }, &[]);
    assert_eq!(said.number, 0);
    key(said.out[0], said.out[1])
}

/// Joins the runs of the two keys, and answers the count.
fn joined(host: &mut Host, j: Key, k: Key) -> u64 {
    let said = host.call(Call::Union(j, k), &[]);
    assert_eq!(said.number, 0);
    said.out[3]
}

/// Runs of equal size are joined until one is left: half of the ceiling is rewritten, so it is no more than twice too high.
#[test]
fn half_is_reached_in_pairs() {
    for place in 1..=7 {
        let frames = 1 << place;
        let mut host = Host::fresh(frames, frames);
        let mut runs: Vec<Key> = (0..frames).map(|n| begun(&mut host, n)).collect();
        let mut rewritten = 0;
        while runs.len() > 1 {
            runs = runs.chunks(2).map(|pair| (rewritten += joined(&mut host, pair[0], pair[1]), pair[0]).1).collect();
        }
        assert_eq!(2 * rewritten, ceiling(frames), "{frames} frames");
    }
}

/// What a study of new runs, inserts and unions did: the frames put in, and all rewrites together.
struct Study {
    put: u64,
    rewritten: u64,
}

/// One call: more runs at first, more unions later; reads, sets, seals and refused calls come between.
fn next_call(host: &Host, r: &mut Random) -> Call {
    let keys = host.keys();
    let any = |r: &mut Random| if keys.is_empty() { key(1, 1) } else { r.of(&keys) };
    let (j, k) = (any(r), any(r));
    match r.below(20) {
        0..6 => Call::InsertSurject { payload: r.number(), value: r.number(), size: r.size() },
        6..9 => Call::Insert(k, r.number(), r.size()),
        9..16 => Call::Union(j, k),
        16 => Call::Set(k, r.number()),
        17 => Call::LenSurject(k),
        // of a key that never was: refused 3
        18 => Call::RemoveElement(key(k.slot, 7)),
        _ if r.one_in(8) => Call::Seal(k),
        _ => Call::Lookup(k),
    }
}

/// The sums after a random study, held against the entry's answer at every call.
fn study(capacity: u64, calls: u64, r: &mut Random) -> Study {
    let mut host = Host::fresh(capacity, capacity);
    let mut study = Study { put: 0, rewritten: 0 };
    for _ in 0..calls {
        let call = next_call(&host, r);
        let said = host.call(call, &vec![0; capacity as usize * 3]);
        match call {
            Call::InsertSurject { .. } | Call::Insert(..) if said.number == 0 => study.put += 1,
            Call::Union(..) if said.number == 0 => study.rewritten += said.out[3],
            Call::RemoveElement(_) => assert_ne!(said.number, 0),
            _ => {}
        }
        if study.put > 0 {
            assert!(study.rewritten <= ceiling(study.put), "{} after {} frames", study.rewritten, study.put);
        }
    }
    study
}

#[test]
fn random_studies_stay_below() {
    let mut r = Random::new(13);
    let (mut rewritten, mut most) = (0, 0);
    for round in 0..200 {
        let study = study(1 + r.below(64), 20 + r.below(150), &mut r);
        rewritten += study.rewritten;
        most += if study.put > 0 { ceiling(study.put) } else { 0 };
        assert!(study.put > 0, "round {round} put nothing in");
    }
    // the runs did rewrite, so that there was something to hold
    assert!(rewritten * 20 > most, "{rewritten} of {most}");
}
