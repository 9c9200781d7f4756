//! The run file: document 02, ticket 11. The contents first, then the bodies back to back, and nothing after. All its numbers are
//! little-endian.

use crate::{copy::is_shaped, door::Sound, layout::*};

/// The version that is written, and the only one that is read.
pub const VERSION: u32 = 1;
/// Bytes before the contents: the version and the run count, a u32 each.
pub const PREFACE: usize = 8;
/// Bytes to a run in the contents: its body's offset from the file's start and its length, a u32 each.
pub const ENTRY: usize = 8;
/// Bytes to a body before its frames: the header value and the byte total, a u64 each, and the frame count, a u32.
pub const BODY: usize = 20;
/// Bytes to a frame: the payload, a u64, and the size, a u32.
pub const SHOT: usize = 12;

/// How many bytes the file of so many runs and frames has.
pub const fn file_len(runs: usize, frames: usize) -> usize {
    PREFACE + runs * (ENTRY + BODY) + frames * SHOT
}

/// The writer: 1, 2, then 7 where the whole file does not fit. Answers how many bytes were written; those past them stay.
pub fn write(sound: Sound, head: &[u64; HEAD], elems: &[u64], shared: &[u64], file: &mut [u8]) -> Result<u64, Refusal> {
    let head = Head::of(head);
    if !is_shaped(&head, elems, shared) {
        return Err(Refusal::Shape);
    }
    if !sound(&head, elems, shared) {
        return Err(Refusal::Unsound);
    }
    let length = file_len(head.shared.live as usize, head.elems.live as usize);
    let file = file.get_mut(..length).ok_or(Refusal::Short)?;
    encode(&head, elems, shared, file);
    Ok(length as u64)
}

/// The file of a sound state, which fills the bytes given: each run's place in the contents with its body, in one scan.
pub fn encode(head: &Head, elems: &[u64], shared: &[u64], file: &mut [u8]) {
    let runs = head.shared.live as usize;
    let mut offset = PREFACE + runs * ENTRY;
    let (mut contents, mut bodies) = file.split_at_mut(offset);
    put(&mut contents, VERSION.to_le_bytes());
    put(&mut contents, (runs as u32).to_le_bytes());
    let mut met = vec![0u64; head.shared.extent as usize / 64 + 1];
    for lowest in elems.chunks_exact(FRAME).take(head.elems.extent as usize) {
        let class = lowest[CLASS] as usize;
        let (word, bit) = (&mut met[class / 64], class % 64);
        if lowest[GENERATION] == 0 || *word >> bit & 1 == 1 {
            continue;
        }
        *word |= 1 << bit;
        let header = &shared[(class - 1) * HEADER..][..HEADER];
        let length = BODY + header[COUNT] as usize * SHOT;
        put(&mut contents, (offset as u32).to_le_bytes());
        put(&mut contents, (length as u32).to_le_bytes());
        put(&mut bodies, header[VALUE].to_le_bytes());
        put(&mut bodies, header[TOTAL].to_le_bytes());
        put(&mut bodies, (header[COUNT] as u32).to_le_bytes());
        let mut frame = lowest;
        for _ in 0..header[COUNT] {
            put(&mut bodies, frame[PAYLOAD].to_le_bytes());
            put(&mut bodies, (frame[SIZE] as u32).to_le_bytes());
            frame = &elems[(frame[NEXT] as usize - 1) * FRAME..][..FRAME];
        }
        offset += length;
    }
}

fn put<const N: usize>(rest: &mut &mut [u8], bytes: [u8; N]) {
    let (here, after) = std::mem::take(rest).split_first_chunk_mut().unwrap();
    *here = bytes;
    *rest = after;
}

/// The reader: 1; 9 where there are fewer than eight bytes; 11; 9 for any other departure; then 6 and 5. Of the target's numbers
/// only the capacities are read.
pub fn read(head: &mut [u64; HEAD], elems: &mut [u64], shared: &mut [u64], file: &[u8]) -> Result<(), Refusal> {
    let target = Head::of(head);
    if !is_shaped(&target, elems, shared) {
        return Err(Refusal::Shape);
    }
    let (runs, frames) = test(file)?;
    if runs > target.shared.capacity {
        return Err(Refusal::NoShared);
    }
    if frames > target.elems.capacity {
        return Err(Refusal::NoElement);
    }
    decode(runs as usize, frames as usize, elems, shared, file);
    let mut next = Head::fresh(target.elems.capacity, target.shared.capacity);
    (next.elems.live, next.shared.live) = (frames, runs);
    next.pack();
    *head = next.numbers();
    Ok(())
}

/// The runs and frames of a file, or what it is refused for. The contents and the bodies are walked together.
pub fn test(file: &[u8]) -> Result<(u64, u64), Refusal> {
    let mut contents = file;
    let version = get(&mut contents).map(u32::from_le_bytes);
    let runs = get(&mut contents).map(u32::from_le_bytes);
    let (Some(version), Some(runs)) = (version, runs) else { return Err(Refusal::NoFile) };
    if version != VERSION {
        return Err(Refusal::OtherVersion);
    }
    let first = PREFACE + runs as usize * ENTRY;
    let mut frames = 0;
    let mut bodies = file.get(first..).ok_or(Refusal::NoFile)?;
    for _ in 0..runs {
        let at = file.len() - bodies.len();
        let before = bodies.len();
        let offset = get(&mut contents).map(u32::from_le_bytes);
        let length = get(&mut contents).map(u32::from_le_bytes);
        frames += test_body(&mut bodies).ok_or(Refusal::NoFile)?;
        let is_there = offset.is_some_and(|offset| offset as usize == at);
        if !is_there || length.is_none_or(|length| length as usize != before - bodies.len()) {
            return Err(Refusal::NoFile);
        }
    }
    if bodies.is_empty() { Ok((u64::from(runs), frames)) } else { Err(Refusal::NoFile) }
}

/// The frames of a body that is not empty and whose total is the sum.
fn test_body(bodies: &mut &[u8]) -> Option<u64> {
    get::<8>(bodies)?;
    let total = u64::from_le_bytes(get(bodies)?);
    let count = u32::from_le_bytes(get(bodies)?);
    let (shots, rest) = bodies.split_at_checked(count as usize * SHOT)?;
    let size = |shot: &[u8]| u64::from(u32::from_le_bytes(shot[8..].try_into().unwrap()));
    let sum: u64 = shots.chunks_exact(SHOT).map(size).sum();
    *bodies = rest;
    (count != 0 && sum == total).then_some(count.into())
}

fn get<const N: usize>(rest: &mut &[u8]) -> Option<[u8; N]> {
    let (here, after) = rest.split_first_chunk()?;
    *rest = after;
    Some(*here)
}

/// The tables of a file that was tested, as canonical compression numbers them: the frames in the file's order, run k under shared
/// slot k, generation 1; zeros past them.
fn decode(runs: usize, frames: usize, elems: &mut [u64], shared: &mut [u64], file: &[u8]) {
    let mut rest = &file[PREFACE + runs * ENTRY..];
    let (headers, past) = shared.split_at_mut(runs * HEADER);
    past.fill(0);
    elems[frames * FRAME..].fill(0);
    let mut slot = 0;
    for (header, class) in headers.chunks_exact_mut(HEADER).zip(1..) {
        let [value, total] = [(); 2].map(|()| u64::from_le_bytes(get(&mut rest).unwrap()));
        let count = u32::from_le_bytes(get(&mut rest).unwrap()).into();
        header.copy_from_slice(&[count, value, 0, 0, total]);
        let (first, last) = (slot + 1, slot + count);
        for row in elems[slot as usize * FRAME..][..count as usize * FRAME].chunks_exact_mut(FRAME) {
            slot += 1;
            let previous = if slot == first { last } else { slot - 1 };
            let next = if slot == last { first } else { slot + 1 };
            let payload = u64::from_le_bytes(get(&mut rest).unwrap());
            let size = u32::from_le_bytes(get(&mut rest).unwrap()).into();
            row.copy_from_slice(&[1, payload, class, previous, next, size]);
        }
    }
}
