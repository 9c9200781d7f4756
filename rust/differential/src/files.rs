//! Run files, which the Rust has not. What the archive writes is compared with the runs that the oracle holds; and a study that was written
//! and read back stands beside the oracle after its canonical compression with reset, seals forgotten.

use crate::calls::{Call, Name};
use crate::generate::{Random, bytes, number};
use crate::pair::{Fault, Pair, Picture, same};
use crate::seal::MARK;
use doorsedge::{Arena, FILE_BODY, FILE_ENTRY, FILE_FRAME, FILE_PREFACE, FILE_VERSION, HEADER, Refusal};

/// A run: its ring's payloads and sizes, and its shared value.
type Run = (Vec<Picture>, u64);

/// The number of so many bytes at a place.
fn number_at(file: &[u8], at: usize, width: usize) -> u64 {
    file[at..at + width].iter().rev().fold(0, |number, byte| number << 8 | u64::from(*byte))
}

/// The runs of a file, in its order, and where each body begins; an error where its numbers do not fit each other.
fn runs_of(file: &[u8]) -> Result<(Vec<Run>, Vec<usize>), String> {
    same("the file's version", number_at(file, 0, 4), FILE_VERSION.into())?;
    let count = number_at(file, 4, 4) as usize;
    let (mut runs, mut starts, mut at) = (vec![], vec![], FILE_PREFACE + count * FILE_ENTRY);
    for run in 0..count {
        let place = FILE_PREFACE + run * FILE_ENTRY;
        let frames = number_at(file, at + 16, 4) as usize;
        let length = FILE_BODY + frames * FILE_FRAME;
        let said = (number_at(file, place, 4), number_at(file, place + 4, 4));
        same("a place in the contents", said, (at as u64, length as u64))?;
        let shots = file[at + FILE_BODY..at + length].chunks_exact(FILE_FRAME);
        let ring: Vec<Picture> = shots.map(|shot| (number_at(shot, 0, 8), number_at(shot, 8, 4) as u32)).collect();
        let total = ring.iter().map(|picture| u64::from(picture.1)).sum();
        same("a total in the file", number_at(file, at + 8, 8), total)?;
        runs.push((ring, number_at(file, at, 8)));
        starts.push(at);
        at += length;
    }
    same("the file's end", file.len(), at)?;
    Ok((runs, starts))
}

impl Pair {
    /// The runs of the file are the oracle's; nothing has changed, and a byte less is too short.
    pub fn write_file(&mut self) -> Result<Option<Refusal>, String> {
        self.written()?;
        Ok(None)
    }

    fn written(&mut self) -> Result<Vec<u8>, String> {
        let before = self.port.clone();
        let mut file = vec![0x5A; self.port.file_len() + 3];
        let short = self.port.write_file_into(&mut file[..before.file_len() - 1]);
        same("a file with a byte less", short, Err(Refusal::Short))?;
        same("a refused file", file.iter().all(|byte| *byte == 0x5A), true)?;
        same("the file's length", self.port.write_file_into(&mut file), Ok(before.file_len()))?;
        same("what is past the file", file.split_off(before.file_len()), vec![0x5A; 3])?;
        same("the study after a write", &self.port, &before)?;
        let (runs, _) = runs_of(&file)?;
        same("runs of the file", self.as_runs(runs), self.as_runs(self.runs_of_oracle()))?;
        Ok(file)
    }

    fn runs_of_oracle(&self) -> Vec<Run> {
        let (mut runs, mut met) = (vec![], vec![false; self.frames.len()]);
        for (first, _, value) in self.oracle.iter_combined() {
            if std::mem::replace(&mut met[self.name_of_ptr(first)], true) {
                continue;
            }
            let ring = self.oracle.iter_surject(first).unwrap();
            let ring = ring.map(|(ptr, picture, _)| {
                met[self.name_of_ptr(ptr)] = true;
                *picture
            });
            runs.push((ring.collect(), *value));
        }
        runs
    }

    /// Slot numbers, and so the order of runs and where each begins, may differ: each ring begun at its least payload, in the order of
    /// these. Payloads are distinct.
    fn as_runs(&self, mut runs: Vec<Run>) -> Vec<Run> {
        for (ring, _) in &mut runs {
            let least = (0..ring.len()).min_by_key(|at| ring[*at]).unwrap_or(0);
            ring.rotate_left(least);
            if !self.ordered {
                ring.sort_unstable();
            }
        }
        runs.sort_unstable();
        runs
    }

    /// The study written and read back into its own tables. The new tables are what the archive's own compression leaves, unsealed, and
    /// show what the oracle shows after its own. A cut file, and tables with a slot less, are refused.
    pub fn read_file(&mut self) -> Result<Option<Refusal>, String> {
        let mut file = self.written()?;
        let before = self.port.clone();
        same("a file that was cut", self.port.read_file(&file[..file.len() - 1]), Err(Refusal::NoFile))?;
        self.small_tables(&file)?;
        same("the study after a refused read", &self.port, &before)?;
        if self.fault == Fault::FramesExchanged {
            exchange(&mut file);
        }
        same("read", self.port.read_file(&file), Ok(()))?;
        if self.fault != Fault::FramesExchanged {
            self.is_compressed(before)?;
        }
        same("generation of what was read", self.port.generation(), 1)?;
        self.oracle.compress_canonical(true).allow();
        self.sealed.clear();
        self.relearn()?;
        Ok(None)
    }

    /// 6 by the live runs, then 5 by the live frames.
    fn small_tables(&self, file: &[u8]) -> Result<(), String> {
        let (frames, runs) = (self.port.len() as usize, self.port.len_shared() as usize);
        let mut tables = vec![(frames, runs, Ok(())), (frames - frames.min(1), runs, Err(Refusal::NoElement))];
        tables.push((frames, runs - runs.min(1), Err(Refusal::NoShared)));
        tables.push((frames - frames.min(1), runs - runs.min(1), Err(Refusal::NoShared)));
        for (elems, shared, wanted) in tables.into_iter().filter(|(elems, shared, _)| elems.min(shared) > &0) {
            let mut arena = Arena::fresh(elems, shared).unwrap();
            same("a file in small tables", arena.read_file(file), wanted)?;
        }
        Ok(())
    }

    fn is_compressed(&self, mut before: Arena) -> Result<(), String> {
        same("compression", before.compress_canonical(true), Ok(false))?;
        let mut shared = before.shared().to_vec();
        shared.chunks_mut(HEADER).for_each(|row| row[MARK] = 0);
        same("head of what was read", self.port.head(), before.head())?;
        same("frames of what was read", self.port.elems(), before.elems())?;
        same("headers of what was read", self.port.shared(), &shared)
    }
}

/// The fault [Fault::FramesExchanged]: it is a file still, of another study.
fn exchange(file: &mut [u8]) {
    let Ok((runs, starts)) = runs_of(file) else { return };
    if let Some(run) = runs.iter().position(|(ring, _)| ring.len() > 2) {
        let first = starts[run] + FILE_BODY;
        let (one, other) = file[first..first + 2 * FILE_FRAME].split_at_mut(FILE_FRAME);
        one.swap_with_slice(other);
    }
}

/// Runs with holes on both sides, some of them sealed, joined and taken back, written and read again and again; frames then come in, and
/// unions find the rings as they were.
pub fn filed(n: usize, r: &mut Random) -> Vec<Call> {
    let mut calls = vec![];
    let (mut live, mut serial): (Vec<Name>, usize) = (vec![], 0);
    for round in 0..8 {
        while live.len() < n {
            let payload = number(2 * serial);
            if live.is_empty() || r.below(4) == 0 {
                calls.push(Call::InsertSurject(serial, payload, payload + 1, bytes(serial)));
            } else {
                calls.push(Call::Insert(r.of(&live), serial, payload, bytes(serial)));
            }
            live.push(serial);
            serial += 1;
        }
        calls.extend((0..n / 64).map(|_| Call::Seal(r.of(&live))));
        for _ in 0..n / 3 {
            calls.push(Call::RemoveElement(live.swap_remove(r.below(live.len()))));
        }
        calls.extend((0..n / 16).map(|_| Call::Union(r.of(&live), r.of(&live))));
        // a write keeps what can be undone, a read leaves nothing
        calls.extend([Call::WriteFile, Call::Undo]);
        if round % 3 != 1 {
            calls.extend([Call::Union(r.of(&live), r.of(&live)), Call::ReadFile, Call::Undo, Call::List(r.of(&live))]);
        }
        calls.extend((0..n / 16).map(|_| Call::Union(r.of(&live), r.of(&live))));
    }
    calls.extend([Call::ReadFile, Call::ReadFile, Call::DrainAll, Call::ReadFile]);
    calls
}
