//! Run files by the archive's two entries, compared with a writer and a reader that stand here alone, written from ticket 11 of document
//! 02 and sharing nothing with the model's: a file is the bytes of its runs, and bytes are read as those runs whose file they are.

use crate::fences::Fenced;
use crate::pages::Brink;
use crate::{Host, UNTOUCHED};
use doorsedge::sys::{ABSENT, doorsedge_read_file, doorsedge_write_file};
use model::door::Sound;
use model::layout::{COUNT, PAYLOAD, SIZE, VALUE, fits};
use model::{FRAME, HEADER, Head, Rows, sets};

/// The version that files have.
pub const VERSION: u32 = 1;

/// A run as a file has it: its header's value, and payload and size of each frame in ring order.
#[derive(Clone, PartialEq, Eq, Debug, Default)]
pub struct Run {
    pub value: u64,
    pub frames: Vec<(u64, u32)>,
}

impl Run {
    pub fn total(&self) -> u64 {
        self.frames.iter().map(|(_, size)| u64::from(*size)).sum()
    }

    pub fn body(&self) -> Vec<u8> {
        let mut body = [self.value.to_le_bytes(), self.total().to_le_bytes()].concat();
        body.extend((self.frames.len() as u32).to_le_bytes());
        for (payload, size) in &self.frames {
            body.extend(payload.to_le_bytes());
            body.extend(size.to_le_bytes());
        }
        body
    }
}

/// A file of bodies, which need not be those of runs: version, run count, contents, then the bodies.
pub fn file_of(bodies: &[Vec<u8>]) -> Vec<u8> {
    let mut file = [VERSION, bodies.len() as u32].map(u32::to_le_bytes).concat();
    let mut offset = file.len() + 8 * bodies.len();
    for body in bodies {
        file.extend([offset, body.len()].map(|number| (number as u32).to_le_bytes()).concat());
        offset += body.len();
    }
    file.extend(bodies.concat());
    file
}

/// The bytes of these runs.
pub fn bytes_of(runs: &[Run]) -> Vec<u8> {
    file_of(&runs.iter().map(Run::body).collect::<Vec<_>>())
}

/// The number of so many bytes at a place; what is past the end is 0.
fn number(file: &[u8], at: usize, width: usize) -> u64 {
    let bytes = file.iter().skip(at).take(width).rev();
    bytes.fold(0, |number, byte| number << 8 | u64::from(*byte))
}

/// The runs whose bytes these are, or the number of the refusal. Of the contents and the totals nothing is read: the runs are taken
/// from the counts as they come, written anew, and compared.
pub fn runs_of(file: &[u8]) -> Result<Vec<Run>, u64> {
    if file.len() < 8 {
        return Err(9);
    }
    if number(file, 0, 4) != u64::from(VERSION) {
        return Err(11);
    }
    let count = number(file, 4, 4) as usize;
    let (mut runs, mut at) = (vec![], 8 + 8 * count);
    for _ in 0..count {
        let frames = number(file, at + 16, 4) as usize;
        // no run is without frames, and none has more than the file has bytes
        if frames == 0 || frames > file.len() || at > file.len() {
            return Err(9);
        }
        let frame = |k: usize| (number(file, at + 20 + 12 * k, 8), number(file, at + 28 + 12 * k, 4) as u32);
        let run = Run { value: number(file, at, 8), frames: (0..frames).map(frame).collect() };
        at += 20 + 12 * frames;
        runs.push(run);
    }
    if bytes_of(&runs) == file { Ok(runs) } else { Err(9) }
}

fn is_shaped(host: &Host) -> bool {
    fits(host.head[0], FRAME, host.elems.len()) && fits(host.head[4], HEADER, host.shared.len())
}

/// The runs of a sound state in canonical order: what canonical compression leaves, from the first slot on.
pub fn runs_in(host: &Host) -> Vec<Run> {
    let (mut host, mut scratch) = (host.clone(), vec![0; host.elems.len()]);
    let mut head = Head::of(&host.head);
    let mut rows = Rows { head: &mut head, elems: &mut host.elems, shared: &mut host.shared };
    rows.compress_canonical(true, &mut scratch).unwrap();
    let mut frames = host.elems.chunks(FRAME).map(|row| (row[PAYLOAD], row[SIZE] as u32));
    let headers = host.shared.chunks(HEADER).take_while(|header| header[COUNT] != 0);
    headers
        .map(|header| Run { value: header[VALUE], frames: frames.by_ref().take(header[COUNT] as usize).collect() })
        .collect()
}

/// What the writer must answer and leave of the bytes lent: the number, how many were written, the bytes.
fn wanted_write(sound: Sound, host: &Host, lent: &[u8]) -> (u64, u64, Vec<u8>) {
    let refused = |number| (number, UNTOUCHED, lent.to_vec());
    if !is_shaped(host) {
        return refused(1);
    }
    if !sound(&Head::of(&host.head), &host.elems, &host.shared) {
        return refused(2);
    }
    let mut file = bytes_of(&runs_in(host));
    let length = file.len();
    if length > lent.len() {
        return refused(7);
    }
    file.extend(&lent[length..]);
    (0, length as u64, file)
}

/// What the reader must answer and leave: fresh tables of the same capacities, into which the frames are put by the model's calls,
/// each after the one before it.
pub fn wanted_read(host: &Host, file: &[u8]) -> (u64, Host) {
    let refused = |number| (number, host.clone());
    if !is_shaped(host) {
        return refused(1);
    }
    let runs = match runs_of(file) {
        Ok(runs) => runs,
        Err(number) => return refused(number),
    };
    let (elems, shared) = (host.head[0], host.head[4]);
    if runs.len() as u64 > shared {
        return refused(6);
    }
    if runs.iter().map(|run| run.frames.len() as u64).sum::<u64>() > elems {
        return refused(5);
    }
    let mut fresh = Host::fresh(elems, shared);
    let mut head = Head::of(&fresh.head);
    let mut rows = Rows { head: &mut head, elems: &mut fresh.elems, shared: &mut fresh.shared };
    for run in &runs {
        let mut frames = run.frames.iter();
        let (payload, size) = frames.next().unwrap();
        let mut last = rows.insert_surject(*payload, run.value, *size).unwrap();
        for (payload, size) in frames {
            last = rows.insert(last, *payload, *size).unwrap();
        }
    }
    fresh.head = head.numbers();
    (0, fresh)
}

/// What a writer answered and left.
#[derive(Clone, PartialEq, Eq, Debug)]
pub struct Written {
    pub number: u64,
    pub out: u64,
    /// What was lent, after the call.
    pub lent: Vec<u8>,
}

/// Where files lie for a call: bytes right before the end of memory.
pub struct Desk(Brink);

impl Desk {
    pub fn with_room(bytes: usize) -> Desk {
        Desk(Brink::with_room(bytes + 64))
    }

    /// Writes the study of the host on the archive, into bytes that are lent. Panics if answer, `out` or a byte differs from what is
    /// wanted, if head or tables changed, or a canary.
    pub fn write(&mut self, host: &Host, lent: &[u8]) -> Written {
        self.write_with(sets::sound, host, lent)
    }

    /// The same with another soundness test.
    pub fn write_with(&mut self, sound: Sound, host: &Host, lent: &[u8]) -> Written {
        let mut fenced = Fenced::of([&host.head[..], &host.elems, &host.shared]);
        let (at, state, mut out) = (self.0.lay(lent), fenced.lent(0), [UNTOUCHED; 3]);
        let (e, s) = (state.elems, state.shared);
        // Safety: head, tables, bytes and `out` lie apart from each other
        let result = unsafe {
            let place = out.as_mut_ptr().add(1).cast();
            doorsedge_write_file(state.head, e.cast(), e.len(), s.cast(), s.len(), at.cast(), lent.len(), place)
        };
        let (number, length, bytes) = wanted_write(sound, host, lent);
        let wanted = Written { number, out: length, lent: bytes };
        if result == ABSENT {
            return wanted;
        }
        let left = self.0.taken(lent.len()).expect("a canary before the file changed").to_vec();
        let said = Written { number: result, out: out[1], lent: left };
        let is_kept = fenced == Fenced::of([&host.head[..], &host.elems, &host.shared]);
        if said != wanted || !is_kept || (out[0], out[2]) != (UNTOUCHED, UNTOUCHED) {
            panic!(
                "a written file differs\nof      {host:?}\narchive {said:?}\nleft    {fenced:?}\nwanted  {wanted:?}"
            );
        }
        said
    }

    /// The study's file, which the archive writes into exactly as many bytes as it needs.
    pub fn file(&mut self, host: &Host) -> Vec<u8> {
        let room = bytes_of(&runs_in(host)).len();
        let written = self.write_with(model::check::sound, host, &vec![0x5A; room]);
        assert_eq!((written.number, written.out), (0, room as u64));
        written.lent
    }

    /// Makes the host's tables the study of a file on the archive. Panics if the result, any number or a canary differs from what is
    /// wanted, or if a refusal or a byte of the file changed. Answers the result.
    pub fn read(&mut self, host: &mut Host, file: &[u8]) -> u64 {
        let mut fenced = Fenced::of([&host.head[..], &host.elems, &host.shared]);
        let (at, state) = (self.0.lay(file), fenced.lent(0));
        let (e, s) = (state.elems, state.shared);
        // Safety: as above
        let result = unsafe {
            doorsedge_read_file(state.head, e.cast(), e.len(), s.cast(), s.len(), at.cast_const().cast(), file.len())
        };
        let (number, wanted) = wanted_read(host, file);
        let is_same = result == number && fenced == Fenced::of([&wanted.head[..], &wanted.elems, &wanted.shared]);
        if result != ABSENT && (!is_same || self.0.taken(file.len()) != Some(file)) {
            panic!(
                "a file is read otherwise\nfile    {file:?}\nto      {host:?}\narchive {result} {fenced:?}\nwanted  {number} {wanted:?}"
            );
        }
        *host = wanted;
        number
    }
}
