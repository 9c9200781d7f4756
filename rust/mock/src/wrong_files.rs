//! Archives whose run files are wrong in one thing, by name: what a test of them is worth shows by which of these it finds.

use model::file::{BODY, ENTRY, PREFACE, SHOT, VERSION, file_len, read, test, write};
use model::layout::{CLASS, COUNT, GENERATION, MARK, NEXT, PREVIOUS, SIZE, TOTAL, VALUE};
use model::{FRAME, HEAD, HEADER, Head, check};

type Numbers = [u64; HEAD];

/// A body as a file has it, right or wrong: value, total and payload and size of each frame.
type Body = (u64, u64, Vec<(u64, u32)>);

fn number(file: &[u8], at: usize, width: usize) -> u64 {
    file.iter().skip(at).take(width).rev().fold(0, |number, byte| number << 8 | u64::from(*byte))
}

fn put(file: &mut [u8], at: usize, width: usize, number: u64) {
    if let Some(bytes) = file.get_mut(at..at + width) {
        bytes.copy_from_slice(&number.to_le_bytes()[..width]);
    }
}

/// The bodies by their counts, whatever the contents and totals say, and where the last one ends; as far as the bytes go.
fn bodies(file: &[u8]) -> (Vec<Body>, usize) {
    let count = number(file, 4, 4) as usize;
    let (mut all, mut at) = (vec![], PREFACE + count.min(file.len()) * ENTRY);
    for _ in 0..count {
        let frames = number(file, at + 16, 4) as usize;
        if at + BODY + frames * SHOT > file.len() {
            break;
        }
        let shot = |k: usize| (number(file, at + BODY + k * SHOT, 8), number(file, at + BODY + k * SHOT + 8, 4) as u32);
        all.push((number(file, at, 8), number(file, at + 8, 8), (0..frames).map(shot).collect()));
        at += BODY + frames * SHOT;
    }
    (all, at)
}

/// A file of these bodies, with their totals as they stand.
fn file_of(all: &[Body]) -> Vec<u8> {
    let mut file = [VERSION.to_le_bytes(), (all.len() as u32).to_le_bytes()].concat();
    let mut at = PREFACE + all.len() * ENTRY;
    for (_, _, frames) in all {
        let length = BODY + frames.len() * SHOT;
        file.extend([at, length].map(|number| (number as u32).to_le_bytes()).concat());
        at += length;
    }
    for (value, total, frames) in all {
        file.extend([value.to_le_bytes(), total.to_le_bytes()].concat());
        file.extend((frames.len() as u32).to_le_bytes());
        for (payload, size) in frames {
            file.extend(payload.to_le_bytes());
            file.extend(size.to_le_bytes());
        }
    }
    file
}

pub fn write_wrong(
    name: &str,
    head: &mut Numbers,
    elems: &[u64],
    shared: &[u64],
    file: &mut [u8],
    out: &mut [u64; 1],
) -> u64 {
    let is_sound = check::sound;
    let sound = if name == "unsound_written" { |_: &Head, _: &[u64], _: &[u64]| true } else { is_sound };
    if name == "unsound_written" && head[3].max(head[7]) > 65_536 {
        return 2;
    }
    let mut right = vec![0; file_len(head[7].min(65_536) as usize, head[3].min(65_536) as usize)];
    let needed = match name {
        "exact_room_refused" => right.len() + 1,
        "room_by_capacities" => file_len(head[4].min(65_536) as usize, head[0].min(65_536) as usize),
        "one_byte_short_written" => right.len() - 1,
        _ => right.len(),
    };
    let said = std::panic::catch_unwind(std::panic::AssertUnwindSafe(|| write(sound, head, elems, shared, &mut right)));
    if let Err(refusal) = said.unwrap_or(Err(model::Refusal::Unsound)) {
        return refusal.number();
    }
    if file.len() < needed {
        match name {
            "short_writes_its_version" => put(file, 0, 4, VERSION.into()),
            "short_writes_out" => *out = [right.len() as u64],
            _ => (),
        }
        return 7;
    }
    let bytes = written(name, &right, elems);
    let length = bytes.len().min(file.len());
    file[..length].copy_from_slice(&bytes[..length]);
    match name {
        "past_the_file_touched" if file.len() > length => file[length] = 0,
        "rest_zeroed" => file[length..].fill(0),
        "undo_dropped" => head[9..].fill(0),
        _ => (),
    }
    *out = [if name == "out_is_the_room" { file.len() as u64 } else { length as u64 }];
    0
}

/// The bytes of a file, wrong.
fn written(name: &str, right: &[u8], elems: &[u64]) -> Vec<u8> {
    let (mut all, _) = bodies(right);
    let count = all.len();
    match name {
        "total_of_another_run" if count > 1 => {
            let totals: Vec<u64> = all.iter().map(|body| body.1).collect();
            (0..count).for_each(|k| all[k].1 = totals[(k + 1) % count]);
        }
        "totals_lost" => all.iter_mut().for_each(|body| body.1 = 0),
        "ring_from_another" => all.iter_mut().for_each(|body| body.2.rotate_left(1)),
        "ring_backwards" => all.iter_mut().for_each(|body| body.2[1..].reverse()),
        "runs_backwards" => all.reverse(),
        "size_for_payload" => all.iter_mut().flat_map(|body| &mut body.2).for_each(|shot| shot.0 = shot.1.into()),
        "sizes_of_16_bits" => all.iter_mut().flat_map(|body| &mut body.2).for_each(|shot| shot.1 &= 0xFFFF),
        "generation_for_payload" => {
            all.iter_mut().flat_map(|body| &mut body.2).for_each(|shot| shot.0 = elems[GENERATION])
        }
        "values_exchanged" if count > 1 => (all[0].0, all[1].0) = (all[1].0, all[0].0),
        _ => (),
    }
    let mut file = file_of(&all);
    let first = PREFACE + count * ENTRY;
    for k in 0..count {
        let at = PREFACE + k * ENTRY;
        let (offset, length) = (number(right, at, 4), number(right, at + 4, 4));
        match name {
            "offsets_one_run_late" => put(&mut file, at, 4, offset + length),
            "offsets_from_the_contents" => put(&mut file, at, 4, offset - first as u64),
            "lengths_of_the_frames" => put(&mut file, at + 4, 4, length - BODY as u64),
            _ => (),
        }
    }
    match name {
        "another_version" => put(&mut file, 0, 4, 2),
        "run_count_big_endian" => file[4..8].reverse(),
        "run_count_one_less" if count > 0 => put(&mut file, 4, 4, count as u64 - 1),
        "a_byte_after_the_last_body" => file.push(0),
        _ => (),
    }
    file
}

pub fn read_wrong(name: &str, head: &mut Numbers, elems: &mut [u64], shared: &mut [u64], file: &[u8]) -> u64 {
    let before = (*head, elems.to_vec(), shared.to_vec());
    let is_shaped =
        read(&mut head.clone(), &mut elems.to_vec(), &mut shared.to_vec(), &[]).err().map(|r| r.number()) != Some(1);
    if is_shaped && let Some(number) = refused_first(name, head, elems, shared, file) {
        return number;
    }
    let bytes = believed(name, file);
    if let Err(refusal) = read(head, elems, shared, &bytes) {
        match (name, refusal.number()) {
            ("refused_clears_the_elements", 5) | ("refused_by_departure_clears", 9) => elems.fill(0),
            ("refused_clears_the_headers", 6) => shared.fill(0),
            ("refused_drops_the_undo", 9 | 11) => head[9..].fill(0),
            ("refused_gives_generation_one", 5 | 6) => head[8] = 1,
            _ => (),
        }
        return refusal.number();
    }
    left(name, &before, head, elems, shared);
    0
}

/// A refusal that comes too early, or that there is none of.
fn refused_first(name: &str, head: &Numbers, elems: &[u64], shared: &[u64], file: &[u8]) -> Option<u64> {
    let (runs, frames) = test(file).unwrap_or((0, 0));
    let is_short = file.len() < PREFACE;
    let wrong = match name {
        "five_before_six" => (frames > head[0], 5),
        "six_before_nine" => (!is_short && number(file, 0, 4) == 1 && number(file, 4, 4) > head[4], 6),
        "six_before_eleven" => (!is_short && number(file, 4, 4) > head[4], 6),
        "eleven_before_nine" => (is_short && file.len() >= 4 && number(file, 0, 4) != 1, 11),
        "nine_before_eleven" => (!is_short && number(file, 0, 4) != 1 && bodies(file).1 != file.len(), 9),
        "exact_frames_refused" => (test(file).is_ok() && runs <= head[4] && frames >= head[0], 5),
        "exact_runs_refused" => (test(file).is_ok() && runs >= head[4], 6),
        "unsound_target_refused" => (!check::sound(&Head::of(head), elems, shared), 2),
        "no_runs_refused" => (test(file).is_ok() && runs == 0, 9),
        "nine_for_another_version" => (!is_short && number(file, 0, 4) != 1, 9),
        _ => (false, 0),
    };
    wrong.0.then_some(wrong.1)
}

/// The bytes that a careless reader takes these for.
fn believed(name: &str, file: &[u8]) -> Vec<u8> {
    let mut bytes = file.to_vec();
    if file.len() < PREFACE {
        return bytes;
    }
    let (mut all, end) = bodies(file);
    let count = number(file, 4, 4) as usize;
    let is_whole = all.len() == count;
    match name {
        "bytes_after_the_end_taken" if is_whole => bytes.truncate(end),
        "any_version_taken" => put(&mut bytes, 0, 4, 1),
        "version_two_taken" if number(file, 0, 4) == 2 => put(&mut bytes, 0, 4, 1),
        "version_of_one_byte" if file[0] == 1 => put(&mut bytes, 0, 4, 1),
        "runs_come_round" => put(&mut bytes, 4, 4, number(file, 4, 4) % (1 << 29)),
        "frames_come_round" => {
            let at = PREFACE + count.min(file.len()) * ENTRY + 16;
            put(&mut bytes, at, 4, number(file, at, 4) % (1 << 30));
        }
        "last_byte_made_up" if bodies(&[file, &[0]].concat()).1 == file.len() + 1 => bytes.push(0),
        _ => (),
    }
    if !is_whole {
        return bytes;
    }
    let right = || {
        let mut right = file.to_vec();
        let mut at = PREFACE + count * ENTRY;
        for (k, (_, _, frames)) in bodies(file).0.iter().enumerate() {
            let (place, length) = (PREFACE + k * ENTRY, BODY + frames.len() * SHOT);
            if name == "offsets_not_compared"
                || name == "offsets_before_not_compared" && number(file, place, 4) < at as u64
            {
                put(&mut right, place, 4, at as u64);
            }
            if name == "lengths_not_compared" || name == "last_length_not_compared" && k + 1 == count {
                put(&mut right, place + 4, 4, length as u64);
            }
            at += length;
        }
        right
    };
    let sum = |frames: &[(u64, u32)]| frames.iter().map(|shot| u64::from(shot.1)).sum::<u64>();
    match name {
        "offsets_not_compared"
        | "offsets_before_not_compared"
        | "lengths_not_compared"
        | "last_length_not_compared" => {
            bytes = right();
        }
        "empty_runs_left_out" => {
            all.retain(|body| !body.2.is_empty());
            if file_of(&bodies(file).0) == file {
                bytes = file_of(&all);
            }
        }
        "total_forgotten" | "total_of_32_bits" | "total_at_most" | "total_at_least" if file_of(&all) == file => {
            for (_, total, frames) in &mut all {
                let sum = sum(frames);
                let is_taken = match name {
                    "total_of_32_bits" => *total as u32 == sum as u32,
                    "total_at_most" => *total <= sum,
                    "total_at_least" => *total >= sum,
                    _ => true,
                };
                *total = if is_taken { sum } else { *total };
            }
            bytes = file_of(&all);
        }
        _ => (),
    }
    bytes
}

/// What an accepted read leaves, wrong.
fn left(
    name: &str,
    (old, old_elems, old_shared): &(Numbers, Vec<u64>, Vec<u64>),
    head: &mut Numbers,
    elems: &mut [u64],
    shared: &mut [u64],
) {
    let (frames, runs) = (head[3] as usize, head[7] as usize);
    match name {
        "generation_kept" => head[8] = old[8],
        "generation_raised" => head[8] = 2,
        "frames_of_generation_two" => elems[..frames * FRAME].chunks_mut(FRAME).for_each(|row| row[GENERATION] = 2),
        "undo_kept" => head[9..].copy_from_slice(&old[9..]),
        "extent_kept" => head[1] = head[1].max(old[1]),
        "root_kept" => head[2] = old[2],
        "header_root_kept" => head[6] = old[6],
        "capacity_of_the_file" => head[0] = frames as u64,
        "rest_of_the_elements_kept" => elems[frames * FRAME..].copy_from_slice(&old_elems[frames * FRAME..]),
        "rest_of_the_headers_kept" => shared[runs * HEADER..].copy_from_slice(&old_shared[runs * HEADER..]),
        "runs_sealed" => shared[..runs * HEADER].chunks_mut(HEADER).for_each(|header| header[MARK] = 1),
        "marks_kept" => (0..runs).for_each(|k| shared[k * HEADER + MARK] = old_shared[k * HEADER + MARK] & 1),
        "rings_backwards" => elems[..frames * FRAME].chunks_mut(FRAME).for_each(|row| row.swap(PREVIOUS, NEXT)),
        "sizes_left_out" => elems[..frames * FRAME].chunks_mut(FRAME).for_each(|row| row[SIZE] = 0),
        "totals_left_out" => shared[..runs * HEADER].chunks_mut(HEADER).for_each(|header| header[TOTAL] = 0),
        "count_for_value" => {
            shared[..runs * HEADER].chunks_mut(HEADER).for_each(|header| header[VALUE] = header[COUNT])
        }
        "headers_the_other_way_round" => {
            let last = runs as u64;
            elems[..frames * FRAME].chunks_mut(FRAME).for_each(|row| row[CLASS] = last + 1 - row[CLASS]);
            let rows: Vec<u64> = shared[..runs * HEADER].chunks(HEADER).rev().flatten().copied().collect();
            shared[..runs * HEADER].copy_from_slice(&rows);
        }
        _ => (),
    }
}
