//! A seeded run of calls: on grown states, on states with some numbers changed, and on random numbers for tables, head and
//! keys. Every call is compared with the model in every number.

use crate::files::Desk;
use crate::memories::forged;
use crate::{Host, key};
use model::door::{Call, KINDS};
use model::file::file_len;
use model::layout::{CLASS, SIZE, TOTAL};
use model::{FRAME, HEAD, HEADER, Key, PAIR, PLACE, RECORD, SEAL_PLACE};
use std::collections::BTreeMap;
use std::fmt;

/// Numbers that look random: xorshift, by Marsaglia.
pub struct Random(u64);

impl Random {
    pub fn new(seed: u64) -> Random {
        Random(seed.wrapping_mul(0x9E37_79B9_7F4A_7C15) | 1)
    }

    pub fn number(&mut self) -> u64 {
        self.0 ^= self.0 << 13;
        self.0 ^= self.0 >> 7;
        self.0 ^= self.0 << 17;
        self.0.wrapping_mul(0x2545_F491_4F6C_DD1D)
    }

    pub fn below(&mut self, n: u64) -> u64 {
        (self.number() >> 32) % n
    }

    pub fn one_in(&mut self, n: u64) -> bool {
        self.below(n) == 0
    }

    pub fn of<T: Copy>(&mut self, choice: &[T]) -> T {
        choice[self.below(choice.len() as u64) as usize]
    }

    /// Small, or near an edge, or anything.
    pub(crate) fn odd(&mut self, small: u64) -> u64 {
        match self.below(8) {
            0 => self.number(),
            1 => self.of(&[65_535, 65_536, 65_537, 4_294_967_294, 4_294_967_295, 4_294_967_296, u64::MAX, 1 << 63]),
            _ => self.below(small),
        }
    }

    /// A frame's bytes: few, near the most that there can be, or anything.
    pub fn size(&mut self) -> u32 {
        match self.below(4) {
            0 => self.of(&[0, 1, 65_535, 65_536, u32::MAX - 1, u32::MAX]),
            1 => self.number() as u32,
            _ => self.below(1_000) as u32,
        }
    }
}

/// Calls by entry and by what it returned.
#[derive(Default)]
pub struct Tally(pub BTreeMap<&'static str, BTreeMap<u64, u64>>);

/// What an entry can return but 0, in its columns: number and cause.
pub const GIVEN: [(u64, u64); 14] = [
    (1, 0),
    (2, 0),
    (9, 0),
    (10, 0),
    (11, 0),
    (13, 0),
    (3, 1),
    (3, 2),
    (3, 3),
    (4, 0),
    (12, 0),
    (6, 0),
    (5, 0),
    (7, 0),
];

impl Tally {
    fn add(&mut self, entry: &'static str, result: u64) {
        *self.0.entry(entry).or_default().entry(result).or_insert(0) += 1;
    }
}

impl fmt::Display for Tally {
    fn fmt(&self, f: &mut fmt::Formatter<'_>) -> fmt::Result {
        write!(f, "{:<19}{:>9}", "entry", "accepted")?;
        for (number, cause) in GIVEN {
            let name = if cause == 0 { format!("ref. {number}") } else { format!("3 by {cause}") };
            write!(f, "{name:>9}")?;
        }
        for (name, counts) in &self.0 {
            let count = |result| counts.get(&result).unwrap_or(&0);
            write!(f, "\n{name:<19}{:>9}", count(0))?;
            GIVEN.iter().try_for_each(|(number, cause)| write!(f, "{:>9}", count(number + 256 * cause)))?;
        }
        Ok(())
    }
}

/// Makes the calls, and panics at the first difference.
pub fn compare(calls: u64, seed: u64) -> Tally {
    let mut r = Random::new(seed);
    let mut tally = Tally::default();
    let (mut grown, mut review) = (Host::fresh(4, 3), Host::fresh(4, 3));
    let mut desk = Desk::with_room(1 << 16);
    for _ in 0..calls {
        if r.one_in(32) {
            let [written, read] = filed(&mut desk, &mut grown, &mut r);
            tally.add("write_file", written);
            tally.add("read_file", read);
            continue;
        }
        if r.one_in(24) {
            let result = copied(&mut grown, &mut review, &mut r);
            tally.add("clone_from", result);
            continue;
        }
        if r.one_in(24) {
            let result = moved(&mut grown, &mut review, &mut r);
            tally.add("transfer_canonical", result);
            continue;
        }
        let way = r.below(8);
        let mut host = match way {
            0 => noise(&mut r),
            1 | 2 => damaged(&grown, &mut r),
            _ => std::mem::replace(&mut grown, Host::fresh(1, 1)),
        };
        let call = any_call(&host, &mut r);
        let lent = any_buffer(&host, &call, &mut r);
        let said = host.call(call, &lent);
        tally.add(call.name().0, said.result());
        // a changed state that is sound all the same is grown from there
        if way > 2 || way > 0 && said.number == 0 {
            grown = host;
        }
        if r.one_in(80) {
            grown = begun(&mut r);
        }
    }
    tally
}

/// A study moved to other tables: from the grown state, a changed one or noise; to the state of another study, a changed one, noise, or a
/// state grown in tables about as large as the source needs. Both go on, in turn, whether or not it was accepted.
fn moved(grown: &mut Host, review: &mut Host, r: &mut Random) -> u64 {
    let mut source = match r.below(8) {
        0 => noise(r),
        1 | 2 => damaged(grown, r),
        _ => grown.clone(),
    };
    let mut target = match r.below(8) {
        0 => noise(r),
        1 => damaged(review, r),
        2..=4 => review.clone(),
        _ => {
            let mut host = Host::fresh(close(source.head[3], r), close(source.head[7], r));
            let many = r.below(9);
            (0..many).for_each(|_| drop(host.call(any_call(&host, r), &[])));
            host
        }
    };
    let given = r.of(&[0, 1, 1, 2, 3, 7, 1_000_000, u32::MAX - 1, u32::MAX]);
    match target.transfer_from(given, &mut source) {
        Ok(_) => {
            (*grown, *review) = if r.one_in(4) { (source, target) } else { (target, source) };
            0
        }
        Err(number) => number,
    }
}

/// A capacity as large as this live number, or up to three slots more or less.
fn close(live: u64, r: &mut Random) -> u64 {
    let live = live.min(90);
    (live + r.of(&[0, 0, 0, 1, 3])).saturating_sub(r.of(&[0, 0, 0, 1, 1, 3])).max(1)
}

/// A study copied to other tables: from the grown state, a changed one or noise; to the state of another study, a changed one, or
/// noise in tables about as large as the source needs. An accepted copy and its source both go on, in turn.
fn copied(grown: &mut Host, review: &mut Host, r: &mut Random) -> u64 {
    let source = match r.below(8) {
        0 => noise(r),
        1 | 2 => damaged(grown, r),
        _ => grown.clone(),
    };
    let mut target = match r.below(8) {
        0 => noise(r),
        1 => damaged(review, r),
        2 | 3 => review.clone(),
        _ => about_as_large(&source, r),
    };
    let result = target.copy_from(&source);
    if result == 0 {
        (*grown, *review) = if r.one_in(4) { (target, source) } else { (source, target) };
    }
    result
}

/// A study written, in about as many bytes as it needs, and the bytes read, sometimes with one of them changed, into tables of another
/// state, a changed one or noise. What was read goes on.
fn filed(desk: &mut Desk, grown: &mut Host, r: &mut Random) -> [u64; 2] {
    let source = match r.below(8) {
        0 => noise(r),
        1 | 2 => damaged(grown, r),
        _ => grown.clone(),
    };
    let needed = file_len(source.head[7].min(100) as usize, source.head[3].min(100) as usize);
    let room = (needed + r.of(&[0, 0, 0, 1, 9])).saturating_sub(r.of(&[0, 0, 0, 0, 1, 30]));
    let written = desk.write(&source, &vec![0x5A; room]);
    let mut file = written.lent;
    file.truncate(if written.number == 0 { written.out as usize } else { room });
    if !file.is_empty() && r.one_in(6) {
        let at = r.below(file.len() as u64) as usize;
        file[at] ^= 1 << r.below(8);
    }
    let mut target = match r.below(8) {
        0 => noise(r),
        1 => damaged(grown, r),
        2 | 3 => grown.clone(),
        _ => about_as_large(&source, r),
    };
    let read = desk.read(&mut target, &file);
    if read == 0 && r.one_in(2) {
        *grown = target;
    }
    [written.number, read]
}

/// Tables of any numbers, each as large as the source's last live slot, or up to three slots more or less.
fn about_as_large(source: &Host, r: &mut Random) -> Host {
    let mut capacity = |table: &[u64], width: usize| {
        let last = table.chunks(width).rposition(|row| row[0] != 0).map_or(0, |at| at as u64 + 1);
        (last + r.of(&[0, 0, 0, 1, 3])).saturating_sub(r.of(&[0, 0, 0, 1, 1, 3])).clamp(1, 100)
    };
    let (elems, shared) = (capacity(&source.elems, FRAME), capacity(&source.shared, HEADER));
    let mut host = Host::fresh(elems, shared);
    let all = host.head.iter_mut().chain(&mut host.elems).chain(&mut host.shared);
    all.for_each(|number| *number = r.odd(elems + 2));
    (host.head[0], host.head[4]) = (elems, shared);
    host
}

/// A new state, sometimes shortly before the generation's last number.
pub fn begun(r: &mut Random) -> Host {
    let most = r.of(&[1, 4, 6, 8, 12, 16, 16, 80]);
    let mut host = Host::fresh(1 + r.below(most), 1 + r.below(most));
    if r.one_in(4) {
        host.head[8] = 4_294_967_295 - r.below(6);
    }
    host
}

/// One to three numbers changed, or a size and its total, or what the head remembers, or a table one number short or long, or a
/// capacity that does not fit it.
fn damaged(grown: &Host, r: &mut Random) -> Host {
    let mut host = grown.clone();
    let small = host.head[0] + 3;
    if r.one_in(6) {
        match r.below(6) {
            0 => drop(host.elems.pop()),
            1 => drop(host.shared.pop()),
            2 => host.elems.push(0),
            3 => host.shared.push(0),
            4 => host.head[0] = r.odd(small),
            _ => host.head[4] = r.odd(small),
        }
        return host;
    }
    match r.below(4) {
        0 => {
            resized(&mut host, r);
            return host;
        }
        1 => {
            forged(&mut host, r);
            return host;
        }
        _ => (),
    }
    for _ in 0..=r.below(3) {
        let value = r.odd(small);
        match r.below(4) {
            0 => host.head[r.of(&[1, 2, 3, 5, 6, 7, 8])] = value,
            1 => host.head[r.of(&[1, 5])] = value % small,
            2 => *pick(&mut host.elems, r) = value,
            _ => *pick(&mut host.shared, r) = value,
        }
    }
    host
}

/// A frame's size changed, and its run's total by as much, which is sound while the size is a u32; or one of the two alone.
fn resized(host: &mut Host, r: &mut Random) {
    let keys = host.keys();
    if keys.is_empty() {
        return;
    }
    let row = (r.of(&keys).slot as usize - 1) * FRAME;
    let header = (host.elems[row + CLASS] as usize - 1) * HEADER;
    let (new, way) = (r.odd(1_000), r.below(4));
    let old = host.elems[row + SIZE];
    let total = &mut host.shared[header + TOTAL];
    match way {
        0 => *total = total.wrapping_add(r.of(&[1, u64::MAX])),
        1 => host.elems[row + SIZE] = new,
        _ => {
            host.elems[row + SIZE] = new;
            *total = total.wrapping_sub(old).wrapping_add(new);
        }
    }
}

fn pick<'a>(table: &'a mut [u64], r: &mut Random) -> &'a mut u64 {
    let at = r.below(table.len() as u64) as usize;
    &mut table[at]
}

/// Random numbers throughout, of fitting shape half the time.
fn noise(r: &mut Random) -> Host {
    let (elems, shared) = (r.below(6), r.below(5));
    let small = elems + 2;
    let mut host = Host { head: [0; HEAD], elems: vec![], shared: vec![] };
    for number in &mut host.head {
        *number = r.odd(small);
    }
    if r.one_in(2) {
        (host.head[0], host.head[4]) = (elems, shared);
    }
    if r.one_in(2) {
        host.head[HEAD - 4..].fill(0);
    }
    host.elems = (0..elems as usize * FRAME).map(|_| r.odd(small)).collect();
    host.shared = (0..shared as usize * HEADER).map(|_| r.odd(small)).collect();
    host
}

fn any_key(keys: &[Key], r: &mut Random) -> Key {
    if keys.is_empty() || r.one_in(8) {
        return match r.below(3) {
            0 => key(r.odd(6), r.odd(4)),
            1 => key(r.below(6), 0),
            _ => key(keys.first().map_or(1, |k| k.slot), r.odd(4)),
        };
    }
    r.of(keys)
}

pub fn any_call(host: &Host, r: &mut Random) -> Call {
    let keys = host.keys();
    let (j, k) = (any_key(&keys, r), any_key(&keys, r));
    let (a, b, size, elems, shared) = (r.odd(50), r.odd(50), r.size(), r.below(7), r.below(7));
    // an undo has something to take back mostly right after a union, where only reads may come between
    if host.head[9] != 0 && r.one_in(3) {
        return Call::Undo;
    }
    if host.head[7] > 1 && r.one_in(10) {
        return Call::Union(j, k);
    }
    // what fills the tables comes more often than what empties them
    match r.below(KINDS as u64 + 14) {
        0 => Call::Fresh { elems: r.of(&[host.head[0], elems]), shared: r.of(&[host.head[4], shared]) },
        1 => Call::Check,
        2 => Call::LenSurject(k),
        3 => Call::InSameSurject(j, k),
        4 => Call::Get(k),
        5 => Call::GetShared(k),
        6 => Call::Set(k, a),
        7 => Call::SetShared(k, a),
        8 | 9 => Call::ExchangeShared4([j, k, any_key(&keys, r), any_key(&keys, r)], [a, b, r.odd(9), r.odd(9)]),
        10 | 11 => Call::Union(j, k),
        12 => Call::RemoveElement(k),
        13 => Call::RemoveShared(k),
        14 => Call::List(k),
        15 => Call::Drain(k),
        16 if r.one_in(3) => Call::DrainAll,
        17 if r.one_in(3) => Call::Clear,
        18 => Call::CompressCanonical { reset: r.of(&[0, 0, 1, a]) },
        19 => Call::InsertInPlace(k, a, size),
        20 => Call::RemoveInPlace(k),
        21 => Call::Seal(k),
        22 => Call::CompressWith { reset: r.of(&[0, 0, 1, a]) },
        23 => Call::Lookup(k),
        24 => Call::GetSize(k),
        25 => Call::GetTotal(k),
        26 => Call::Undo,
        n if n < 34 => Call::InsertSurject { payload: a, value: b, size },
        _ => Call::Insert(k, a, size),
    }
}

/// A buffer about as long as needed, with numbers in it.
pub fn any_buffer(host: &Host, call: &Call, r: &mut Random) -> Vec<u64> {
    let frames = host.keys().len();
    let most = match call {
        Call::List(_) => frames * PLACE,
        Call::Seal(_) => frames * SEAL_PLACE,
        Call::Drain(_) | Call::DrainAll => frames * RECORD,
        Call::CompressCanonical { .. } => host.elems.len(),
        Call::CompressWith { .. } => frames * PAIR,
        _ => 0,
    };
    let length = match r.below(6) {
        0 => r.below(most as u64 + 1) as usize,
        1 => most.saturating_sub(1),
        2 => most + r.below(4) as usize,
        _ => most,
    };
    (0..length).map(|_| r.odd(100)).collect()
}
