//! Files of random studies, most of them changed in some way, read into tables of about their size that hold anything. Every read is
//! compared in every number; and of a study that was read, what the writer makes is compared in every byte.

use crate::Host;
use crate::files::{Desk, Run, VERSION, bytes_of, file_of, runs_of};
use crate::random::Random;
use std::collections::BTreeMap;

/// Cases by what was done to the file, and by the result of its read.
pub type Tally = BTreeMap<&'static str, BTreeMap<u64, u64>>;

/// Reads so many files, and panics at the first difference.
pub fn compare(cases: u64, seed: u64) -> Tally {
    let r = &mut Random::new(seed);
    let (mut tally, mut desk) = (Tally::new(), Desk::with_room(1 << 20));
    for _ in 0..cases {
        let runs = study(r);
        let (what, file) = changed(&runs, r);
        let mut target = about_as_large(&runs, r);
        let number = desk.read(&mut target, &file);
        *tally.entry(what).or_default().entry(number).or_default() += 1;
        if number == 0 && r.one_in(8) {
            // writing what was read gives the same bytes
            let room = file.len() + r.below(3) as usize;
            assert_eq!(desk.write(&target, &vec![0x5A; room]).lent[..file.len()], file);
        }
    }
    tally
}

/// Runs as a study may have them: few mostly, with numbers near edges.
pub fn study(r: &mut Random) -> Vec<Run> {
    let runs = r.of(&[0, 1, 1, 2, 2, 3, 5, 9]);
    let frame = |r: &mut Random| (r.odd(300), r.size());
    let run = |r: &mut Random| {
        let most = r.of(&[1, 2, 4, 8]);
        let count = 1 + r.below(most);
        Run { value: r.odd(300), frames: (0..count).map(|_| frame(r)).collect() }
    };
    (0..runs).map(|_| run(r)).collect()
}

/// Tables of any numbers, with room for these runs, or for about as many.
fn about_as_large(runs: &[Run], r: &mut Random) -> Host {
    let frames: u64 = runs.iter().map(|run| run.frames.len() as u64).sum();
    let mut capacity =
        |needed: u64| (needed + r.of(&[0, 0, 0, 1, 3])).saturating_sub(r.of(&[0, 0, 0, 0, 0, 1, 2])).max(1);
    let (elems, shared) = (capacity(frames), capacity(runs.len() as u64));
    let mut host = Host::fresh(elems, shared);
    let all = host.head.iter_mut().chain(&mut host.elems).chain(&mut host.shared);
    all.for_each(|number| *number = r.odd(elems + 2));
    (host.head[0], host.head[4]) = (elems, shared);
    if r.one_in(40) {
        match r.below(4) {
            0 => drop(host.elems.pop()),
            1 => host.shared.push(0),
            2 => host.head[0] = r.odd(5),
            _ => host.head[4] = r.odd(5),
        }
    }
    host
}

/// A number of a file: what it is, where it stands, how many bytes it has.
pub type Field = (&'static str, usize, usize);

/// All numbers of the file of these runs.
pub fn fields(runs: &[Run]) -> Vec<Field> {
    let mut fields = vec![("the version", 0, 4), ("the run count", 4, 4)];
    for k in 0..runs.len() {
        fields.extend([("an offset", 8 + 8 * k, 4), ("a length", 12 + 8 * k, 4)]);
    }
    let mut at = 8 + 8 * runs.len();
    for run in runs {
        fields.extend([("a value", at, 8), ("a total", at + 8, 8), ("a frame count", at + 16, 4)]);
        at += 20;
        for _ in &run.frames {
            fields.extend([("a payload", at, 8), ("a size", at + 8, 4)]);
            at += 12;
        }
    }
    fields
}

pub fn get(file: &[u8], (_, at, width): Field) -> u64 {
    file[at..at + width].iter().rev().fold(0, |number, byte| number << 8 | u64::from(*byte))
}

pub fn put(file: &mut [u8], (_, at, width): Field, number: u64) {
    file[at..at + width].copy_from_slice(&number.to_le_bytes()[..width]);
}

/// A file of these runs, changed in one way or not at all, and how.
fn changed(runs: &[Run], r: &mut Random) -> (&'static str, Vec<u8>) {
    let mut file = bytes_of(runs);
    match r.below(16) {
        0 | 1 => return ("as it is", file),
        2 => {
            file.truncate(r.below(file.len() as u64) as usize);
            return ("cut", file);
        }
        3 => {
            let any = r.number() as u8;
            let byte = r.of(&[0, 1, any]);
            file.extend(vec![byte; 1 + r.below(24) as usize]);
            return ("longer", file);
        }
        4 => {
            for _ in 0..=r.below(3) {
                let bit = r.below(8 * file.len() as u64);
                file[bit as usize / 8] ^= 1 << (bit % 8);
            }
            return ("bits flipped", file);
        }
        5..=9 => return (number_changed(&mut file, runs, r), file),
        10 => return ("noise", noise(r)),
        _ => (),
    }
    of_bodies(file, runs, r)
}

/// One number is another: one off, 0, near the end of its range, another number of the file, with its bytes the other way round, as large
/// as to come round to the same place, or anything.
fn number_changed(file: &mut [u8], runs: &[Run], r: &mut Random) -> &'static str {
    let fields = fields(runs);
    let field = r.of(&fields);
    let (old, other) = (get(file, field), get(file, r.of(&fields)));
    let number = match r.below(10) {
        0 => old.wrapping_add(1),
        1 => old.wrapping_sub(1),
        2 => 0,
        3 => u64::from(u32::MAX - r.below(40) as u32),
        4 => other,
        5 => old.swap_bytes() >> (64 - 8 * field.2),
        // eight bytes to a run come round at 2 to the 29th, twelve to a frame at 2 to the 30th
        6 => old.wrapping_add(r.of(&[1 << 29, 1 << 30, 3 << 29, 1 << 31, 1 << 32])),
        7 => old.wrapping_add(r.of(&[2, 8, 12, 20, 28])),
        8 => r.odd(file.len() as u64),
        _ => r.number(),
    };
    put(file, field, number);
    field.0
}

/// Bytes at random, which begin as a file does, mostly.
fn noise(r: &mut Random) -> Vec<u8> {
    let mut file: Vec<u8> = (0..r.below(120)).map(|_| r.odd(4) as u8).collect();
    if file.len() >= 8 && !r.one_in(8) {
        put(&mut file, ("", 0, 4), VERSION.into());
        put(&mut file, ("", 4, 4), r.odd(4));
    }
    file
}

/// Changes of whole places or bodies.
fn of_bodies(mut file: Vec<u8>, runs: &[Run], r: &mut Random) -> (&'static str, Vec<u8>) {
    let mut bodies: Vec<Vec<u8>> = runs.iter().map(Run::body).collect();
    let Some(last) = runs.len().checked_sub(1) else { return ("as it is", file) };
    let (j, k) = (r.below(last as u64 + 1) as usize, r.below(last as u64 + 1) as usize);
    match r.below(7) {
        0 => {
            let places: Vec<u8> = file[8 + 8 * j..][..8].to_vec();
            file.copy_within(8 + 8 * k..16 + 8 * k, 8 + 8 * j);
            file[8 + 8 * k..][..8].copy_from_slice(&places);
            ("two places exchanged", file)
        }
        1 => {
            // the contents are those of the runs as they were
            let contents = file[..8 + 8 * runs.len()].to_vec();
            bodies.swap(j, k);
            ("two bodies exchanged", [contents, bodies.concat()].concat())
        }
        2 => {
            // a run has the bytes of the gap before its body, and its place says where the body is
            let gap = 1 + r.below(12) as usize;
            let at = get(&file, ("", 8 + 8 * j, 4)) as usize;
            file.splice(at..at, vec![0; gap]);
            for run in j..runs.len() {
                let field = ("", 8 + 8 * run, 4);
                let offset = get(&file, field);
                put(&mut file, field, offset + gap as u64);
            }
            ("a gap", file)
        }
        3 => {
            // two places for one body, which is there once
            let twice = [file[..8].to_vec(), file[8..16 + 8 * j].to_vec(), file[8 + 8 * j..].to_vec()].concat();
            file = twice;
            put(&mut file, ("", 4, 4), runs.len() as u64 + 1);
            for run in 0..=runs.len() {
                let field = ("", 8 + 8 * run, 4);
                let offset = get(&file, field);
                put(&mut file, field, offset + 8);
            }
            ("an overlap", file)
        }
        4 => {
            // an empty run, with a place that is right
            let empty = Run { value: r.number(), frames: vec![] };
            bodies.insert(j, empty.body());
            ("an empty run", file_of(&bodies))
        }
        5 => {
            // as many bytes as the next body has fewer, with counts to match, but not the contents
            let mut moved = runs.to_vec();
            let frame = moved[j].frames.pop().unwrap();
            moved[k].frames.push(frame);
            let contents = file[..8 + 8 * runs.len()].to_vec();
            bodies = moved.iter().map(Run::body).collect();
            ("a frame of another run", [contents, bodies.concat()].concat())
        }
        _ => {
            // another size with its total: a file of another study
            let mut other = runs.to_vec();
            let at = r.below(other[j].frames.len() as u64) as usize;
            other[j].frames[at].1 = r.size();
            file = bytes_of(&other);
            assert!(runs_of(&file).is_ok());
            ("a size with its total", file)
        }
    }
}
