//! A fixed sample of the oracle's answers, for a program that has no Rust at hand.
//!
//! A record is 32 bytes, each a number: the call's place in [KINDS](crate::calls::KINDS); four frames (255: never given, or not
//! used); four numbers that go in; the refusal; how many answers; the answers, which are numbers or frames:
//!
//! | call | frames | go in | answers |
//! |---|---|---|---|
//! | 0 fresh, new tables of capacities 16 and 16: a sequence begins | | | |
//! | 1 check | | | |
//! | 2 len_surject, 4 get, 5 get_shared | key | | the number |
//! | 3 in_same_surject | key, key | | 1 or 0 |
//! | 6 set, 7 set_shared | key | the new number | the old one |
//! | 8 exchange_shared4 | four keys | four values | four old values |
//! | 9 insert_surject | the new frame | payload, value | |
//! | 10 insert | at, the new frame | payload | |
//! | 11 union | key, key | | removed value, kept frame, entries rewritten |
//! | 12 remove_element | key | | payload, 1 and the value or 0 and 0 |
//! | 13 remove_shared | key | | value |
//! | 14 list | key | | the ring, frame by frame |
//! | 15 drain | key | | the ring, frame by frame, then the value |
//! | 16 drain_all | | | how many frames there were |
//! | 17 clear | | | |
//! | 18 compress_canonical | | 1 for a reset, else 0 | |
//!
//! A frame's payload is its name whenever tables are compressed, so that keys can be learned again from payloads. Seals,
//! compressions in slot order, lookups, reads of sizes and totals, undos, copies and moves are not in a sample, and causes neither: the
//! program that replays it knows none. Every frame's size is 0, and stands in no record.

use crate::calls::{Call, Case, NEVER, Name};
use crate::generate::{Random, apart};
use crate::pair::{Fault, Pair};
use triple_arena::traits::*;

pub const RECORD: usize = 32;
const SLOTS: usize = 16;
/// A sequence ends when so many frames were put in.
const LENGTH: usize = 12;

/// Makes `sequences` sequences on both sides, and gives the oracle's answers. Both sides agree, or there is no sample.
pub fn sample(sequences: u64, seed: u64, ordered: bool) -> Result<Vec<u8>, String> {
    let r = &mut Random::new(seed);
    let mut bytes = vec![];
    for _ in 0..sequences {
        let case = Case { elems: SLOTS, shared: SLOTS, others: [1, 1], calls: vec![], stride: 1 };
        let mut pair = Pair::new(&case, ordered, Fault::None);
        let mut names = 0;
        push(&mut bytes, &Call::Fresh, 0, &[]);
        while names < LENGTH {
            for call in next(&pair, &mut names, r) {
                if pair.lacks_room(&call) {
                    continue;
                }
                let (refusal, mut answers) = answered(&pair, &call);
                pair.make(&call)?;
                pair.compare()?;
                if let (Call::Union(..), 0) = (call, refusal) {
                    answers = vec![pair.joined.0, pair.joined.1 as u64, pair.joined.2];
                }
                push(&mut bytes, &call, refusal, &answers);
            }
        }
    }
    Ok(bytes)
}

/// The next call; a payload that was set is set back, so that payloads are names.
fn next(pair: &Pair, names: &mut usize, r: &mut Random) -> Vec<Call> {
    let live: Vec<Name> = pair.live().collect();
    let mut name = || match r.below(12) {
        0 => NEVER,
        1 => r.below(pair.frames.len() + 1),
        _ => live.get(r.below(live.len().max(1))).copied().unwrap_or(NEVER),
    };
    let (j, k, mut four) = (name(), name(), [name(), name(), name(), name()]);
    if r.below(2) == 0 {
        apart(pair, &live, &mut four, r);
    }
    let value = 100 + r.below(100) as u64;
    if live.is_empty() || r.below(3) == 0 {
        *names += 1;
        let new = *names;
        return vec![match r.below(2) {
            0 if !live.is_empty() => Call::Insert(k, new, new as u64, 0),
            _ => Call::InsertSurject(new, new as u64, value, 0),
        }];
    }
    vec![match r.below(20) {
        0 => Call::Check,
        1 => Call::LenSurject(k),
        2 => Call::InSameSurject(j, k),
        3 => Call::Get(k),
        4 => Call::GetShared(k),
        5 if pair.is_live(k) => return vec![Call::Set(k, value), Call::Set(k, k as u64)],
        5 => Call::Set(k, value),
        6 => Call::SetShared(k, value),
        7 => Call::Exchange(four, [value, value + 1, value + 2, value + 3]),
        8..=10 => Call::Union(four[0], four[1]),
        11 => Call::Union(j, k),
        12 | 13 => Call::RemoveElement(k),
        14 => Call::RemoveShared(k),
        15 | 16 => Call::List(k),
        17 => Call::Drain(k),
        18 if r.below(4) == 0 => r_all(r),
        18 => Call::List(j),
        _ => Call::Compress(r.below(3) == 0),
    }]
}

fn r_all(r: &mut Random) -> Call {
    if r.below(2) == 0 { Call::Clear } else { Call::DrainAll }
}

/// What the oracle holds before the call is made, as its answer: the refusal's number by document 01, and the answers.
fn answered(pair: &Pair, call: &Call) -> (u64, Vec<u64>) {
    let a = &pair.oracle;
    let ptr = |name: Name| pair.keys(name).1;
    let dead = |names: &[Name]| names.iter().any(|name| !a.contains(ptr(*name)));
    let len = |name: Name| a.len_surject(ptr(name)).unwrap().get() as u64;
    let payload = |name: Name| a.get(ptr(name)).unwrap().0;
    let value = |name: Name| *a.get_shared(ptr(name)).unwrap();
    let ring = |name: Name| a.iter_surject(ptr(name)).unwrap().map(|(p, _, _)| pair.name_of_ptr(p) as u64).collect();
    let same = |j: Name, k: Name| a.in_same_surject(ptr(j), ptr(k)) == Some(true);
    if dead(&call.keys()) {
        return (3, vec![]);
    }
    let answers = match *call {
        Call::LenSurject(k) => vec![len(k)],
        Call::InSameSurject(j, k) => vec![same(j, k) as u64],
        Call::Get(k) | Call::Set(k, _) => vec![payload(k)],
        Call::GetShared(k) | Call::SetShared(k, _) | Call::RemoveShared(k) => vec![value(k)],
        Call::Exchange(keys, _) => {
            if (0..4).any(|i| (0..i).any(|j| same(keys[i], keys[j]))) {
                return (4, vec![]);
            }
            keys.map(value).to_vec()
        }
        Call::Union(j, k) => {
            if same(j, k) {
                return (4, vec![]);
            }
            // known when it is made
            vec![]
        }
        Call::RemoveElement(k) if len(k) == 1 => vec![payload(k), 1, value(k)],
        Call::RemoveElement(k) => vec![payload(k), 0, 0],
        Call::List(k) => ring(k),
        Call::Drain(k) => {
            let mut out: Vec<u64> = ring(k);
            out.push(value(k));
            out
        }
        Call::DrainAll => vec![a.len() as u64],
        _ => vec![],
    };
    (0, answers)
}

fn push(bytes: &mut Vec<u8>, call: &Call, refusal: u64, answers: &[u64]) {
    let mut record = [0; RECORD];
    record[1..5].fill(255);
    record[0] = call.kind() as u8;
    let (names, numbers): (&[Name], &[u64]) = match call {
        Call::InSameSurject(j, k) | Call::Union(j, k) => (&[*j, *k], &[]),
        Call::Exchange(keys, values) => (keys, values),
        Call::Set(k, n) | Call::SetShared(k, n) => (&[*k], &[*n]),
        Call::InsertSurject(new, payload, value, 0) => (&[*new], &[*payload, *value]),
        Call::Insert(at, new, payload, 0) => (&[*at, *new], &[*payload]),
        Call::InsertSurject(..) | Call::Insert(..) => unreachable!("sizes of a sample are 0"),
        Call::LenSurject(k) | Call::Get(k) | Call::GetShared(k) => (&[*k], &[]),
        Call::RemoveElement(k) | Call::RemoveShared(k) | Call::List(k) | Call::Drain(k) => (&[*k], &[]),
        Call::Compress(reset) => (&[], &[*reset as u64]),
        Call::Fresh | Call::Check | Call::DrainAll | Call::Clear => (&[], &[]),
        Call::Seal(_) | Call::CompressWith(_) | Call::Lookup(_) | Call::GetSize(_) | Call::GetTotal(_) => {
            unreachable!("a sample has no such call")
        }
        Call::Undo | Call::CloneFrom | Call::Transfer(_) | Call::Change | Call::WriteFile | Call::ReadFile => {
            unreachable!("a sample has no such call")
        }
    };
    for (byte, name) in record[1..5].iter_mut().zip(names) {
        *byte = u8::try_from(*name).unwrap_or(255);
    }
    let byte = |n: &u64| u8::try_from(*n).expect("numbers of a sample are bytes");
    record[5..9].iter_mut().zip(numbers).for_each(|(at, n)| *at = byte(n));
    record[9] = refusal as u8;
    record[10] = answers.len() as u8;
    assert!(answers.len() <= RECORD - 11);
    record[11..].iter_mut().zip(answers).for_each(|(at, n)| *at = byte(n));
    bytes.extend(record);
}
