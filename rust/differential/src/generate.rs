//! Cases: all short ones, and random ones of every length and mix.

use crate::calls::{Call, Case, KINDS, NEVER, Name};
use crate::pair::{Pair, Tally};
use crate::run::{Difference, Way};
use triple_arena::traits::ArenaTrait;

/// Numbers that look random: xorshift, by Marsaglia.
pub struct Random(u64);

impl Random {
    pub fn new(seed: u64) -> Random {
        Random(seed.wrapping_mul(0x9E37_79B9_7F4A_7C15) | 1)
    }

    pub fn below(&mut self, n: usize) -> usize {
        self.0 ^= self.0 << 13;
        self.0 ^= self.0 >> 7;
        self.0 ^= self.0 << 17;
        (self.0.wrapping_mul(0x2545_F491_4F6C_DD1D) >> 33) as usize % n
    }

    pub fn of<T: Copy>(&mut self, choice: &[T]) -> T {
        choice[self.below(choice.len())]
    }
}

/// What a payload or a shared value is: distinct for each call.
pub fn number(serial: usize) -> u64 {
    100 + serial as u64
}

/// A frame's size: none, the most, or any.
pub fn bytes(name: Name) -> u32 {
    match name % 5 {
        0 => 0,
        1 => u32::MAX,
        _ => (name as u32).wrapping_mul(2_654_435_761),
    }
}

/// Every call that can come next after these, at every live frame. Reads, and calls at dead keys, are made by the comparison. To the
/// other recorder's tables the calls go only when frames are there.
pub fn next_calls(live: &[Name], made: usize, is_other_empty: bool) -> Vec<Call> {
    let (payload, value) = (number(2 * made), number(2 * made + 1));
    let mut calls = vec![
        Call::InsertSurject(made, payload, value, bytes(made)),
        Call::Undo,
        Call::DrainAll,
        Call::Clear,
        Call::Compress(false),
        Call::Compress(true),
        Call::CompressWith(false),
        Call::CompressWith(true),
        Call::Fresh,
    ];
    for &k in live {
        calls.extend([
            Call::Insert(k, made, payload, bytes(made)),
            Call::Set(k, payload),
            Call::SetShared(k, value),
            Call::RemoveElement(k),
            Call::RemoveShared(k),
            Call::Drain(k),
            Call::Seal(k),
        ]);
        calls.extend(live.iter().map(|&j| Call::Union(j, k)));
    }
    if !is_other_empty || !live.is_empty() {
        calls.extend([Call::CloneFrom, Call::Transfer(7)]);
    }
    if !live.is_empty() {
        calls.push(Call::ReadFile);
    }
    if !is_other_empty {
        calls.push(Call::Change);
    }
    if let [a, b, c, .., d] = *live {
        let values = [payload, value, payload + 7, value + 7];
        calls.extend([Call::Exchange([d, b, c, a], values), Call::Exchange([a, b, a, d], values)]);
    }
    calls
}

/// All sequences of up to `length` calls that begin with these; `seen` is told of each.
pub fn every(
    way: &Way,
    case: &mut Case,
    length: usize,
    seen: &mut dyn FnMut(&Tally),
) -> Result<(), (Case, Difference)> {
    let (mut live, mut is_other_empty) = (vec![], true);
    let mut calls = case.calls.clone().into_iter();
    let mut made = Case { calls: vec![], ..case.clone() };
    let said = way.drive(&mut made, |pair| {
        let next = calls.next();
        if next.is_none() {
            (live, is_other_empty) = (pair.live().collect(), pair.is_other_empty());
        }
        next
    });
    seen(&said.map_err(|difference| (made, difference))?);
    if case.calls.len() == length {
        return Ok(());
    }
    for call in next_calls(&live, case.calls.len(), is_other_empty) {
        case.calls.push(call);
        every(way, case, length, seen)?;
        case.calls.pop();
    }
    Ok(())
}

/// How often each kind of call comes, drawn anew for each case.
struct Mix([usize; KINDS.len()]);

impl Mix {
    fn any(r: &mut Random) -> Mix {
        // fresh to get_shared; set, set_shared, exchange; new run, insert, union; removals; list, drains, clear, compress; seal;
        // compress_with; lookup; get_size, get_total; undo; clone_from, transfer_canonical, and to the other tables; write_file, read_file
        let usual = [1, 3, 3, 3, 3, 3, 4, 4, 6, 14, 20, 12, 10, 3, 4, 2, 1, 1, 3, 2, 3, 3, 3, 3, 4, 3, 2, 4, 3, 3];
        Mix(usual.map(|n| n * r.of(&[0, 1, 1, 1, 2, 6])))
    }

    fn kind(&self, r: &mut Random) -> usize {
        let sum = self.0.iter().sum::<usize>();
        let mut at = r.below(sum.max(1));
        self.0.iter().position(|n| at.checked_sub(*n).map(|left| at = left).is_none()).unwrap_or(9)
    }
}

/// A random case, run as it is made.
pub fn random(way: &Way, r: &mut Random) -> Result<Tally, (Case, Difference)> {
    let elems = 3 + r.of(&[0, 1, 2, 5, 5, 9, 40]);
    let shared = 1 + r.below(elems);
    let others = [elems, shared].map(|capacity| match r.below(4) {
        0 => 1 + r.below(capacity),
        1 => capacity + r.below(4),
        _ => capacity,
    });
    let length = 1 + r.of(&[5, 20, 60, 120, 240]) - r.below(5);
    let mix = Mix::any(r);
    let mut case = Case { elems, shared, others, calls: Vec::with_capacity(length), stride: 1 };
    let mut made = 0;
    let said = way.drive(&mut case, |pair| {
        if made == length {
            return None;
        }
        made += 1;
        Some(any_call(pair, mix.kind(r), made, r))
    });
    said.map_err(|difference| (case, difference))
}

fn any_call(pair: &Pair, kind: usize, serial: usize, r: &mut Random) -> Call {
    let live: Vec<Name> = pair.live().collect();
    let mut name = || match r.below(16) {
        0 => NEVER,
        1 => r.below(pair.frames.len() + 1),
        _ if live.is_empty() => NEVER,
        _ => r.of(&live),
    };
    let (j, k) = (name(), name());
    let mut four = [j, k, name(), name()];
    // frames of different runs, so that fewer unions and exchanges are refused
    if (kind == 8 || kind == 11) && r.below(4) > 0 {
        apart(pair, &live, &mut four, r);
    }
    let (payload, value) = (number(2 * serial), number(2 * serial + 1));
    // with no frames there is little to call but a new run
    if pair.oracle.is_empty() && r.below(4) > 0 {
        return Call::InsertSurject(serial, payload, value, bytes(serial));
    }
    // a union that can be undone is soon dropped by another call
    if pair.before.is_some() && r.below(5) == 0 {
        return Call::Undo;
    }
    match kind {
        0 => Call::Fresh,
        1 => Call::Check,
        2 => Call::LenSurject(k),
        3 => Call::InSameSurject(j, k),
        4 => Call::Get(k),
        5 => Call::GetShared(k),
        6 => Call::Set(k, payload),
        7 => Call::SetShared(k, value),
        8 => Call::Exchange(four, [payload, value, payload + 1, value + 1]),
        9 => Call::InsertSurject(serial, payload, value, bytes(serial)),
        10 => Call::Insert(k, serial, payload, bytes(serial)),
        11 => Call::Union(four[0], four[1]),
        12 => Call::RemoveElement(k),
        13 => Call::RemoveShared(k),
        14 => Call::List(k),
        15 => Call::Drain(k),
        16 => Call::DrainAll,
        17 => Call::Clear,
        18 => Call::Compress(r.below(3) == 0),
        19 => Call::Seal(k),
        20 => Call::CompressWith(r.below(3) == 0),
        21 => Call::Lookup(k),
        22 => Call::GetSize(k),
        23 => Call::GetTotal(k),
        24 => Call::Undo,
        25 => Call::CloneFrom,
        // the last generations are left out: no overflow comes in a run
        26 => Call::Transfer(r.of(&[0, 1, 1, 2, 3, 1_000, 4_000_000_000])),
        27 => Call::Change,
        28 => Call::WriteFile,
        _ => Call::ReadFile,
    }
}

/// Four frames of four runs, where there are so many.
pub fn apart(pair: &Pair, live: &[Name], four: &mut [Name; 4], r: &mut Random) {
    let first = r.below(live.len().max(1));
    let mut count = 0;
    for &name in live[first..].iter().chain(&live[..first]) {
        let same = |other: &Name| pair.oracle.in_same_surject(pair.keys(*other).1, pair.keys(name).1) == Some(true);
        if count < 4 && !four[..count].iter().any(same) {
            four[count] = name;
            count += 1;
        }
    }
}
