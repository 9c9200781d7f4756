//! Archives whose move is wrong in one thing, by name: what a test of the move is worth shows by which of them it finds.

use model::layout::{
    CLASS, COUNT, GENERATION, LAST_GENERATION, MARK, NEXT, PAYLOAD, PREVIOUS, SIZE, TOTAL, VALUE, fits,
};
use model::{FRAME, HEAD, HEADER, Head, Study, check, transfer};

/// The mistake that the environment asks for.
pub fn name() -> Option<String> {
    std::env::var("DOORSEDGE_WRONG").ok()
}

#[derive(Clone)]
struct Numbers {
    head: [u64; HEAD],
    elems: Vec<u64>,
    shared: Vec<u64>,
}

impl Numbers {
    fn of(study: &Study) -> Numbers {
        Numbers { head: *study.head, elems: study.elems.to_vec(), shared: study.shared.to_vec() }
    }

    fn is_shaped(&self) -> bool {
        fits(self.head[0], FRAME, self.elems.len()) && fits(self.head[4], HEADER, self.shared.len())
    }

    /// Unsound, of tables that fit.
    fn is_broken(&self) -> bool {
        self.is_shaped() && !check::sound(&Head::of(&self.head), &self.elems, &self.shared)
    }

    fn put(self, study: &mut Study) {
        *study.head = self.head;
        study.elems.copy_from_slice(&self.elems);
        study.shared.copy_from_slice(&self.shared);
    }

    /// The runs by their lowest slots, each in ring order from there.
    fn runs(&self) -> Vec<Run> {
        let row = |slot: u64| &self.elems[(slot as usize - 1) * FRAME..][..FRAME];
        let (mut runs, mut met) = (vec![], vec![]);
        for lowest in (1..=self.head[1]).filter(|slot| row(*slot)[GENERATION] != 0) {
            if met.contains(&lowest) {
                continue;
            }
            let mut ring = vec![lowest];
            while row(ring[ring.len() - 1])[NEXT] != lowest {
                ring.push(row(ring[ring.len() - 1])[NEXT]);
            }
            met.extend(&ring);
            let class = row(lowest)[CLASS];
            let header = &self.shared[(class as usize - 1) * HEADER..][..HEADER];
            let frames = ring.iter().map(|slot| [GENERATION, PAYLOAD, SIZE].map(|field| row(*slot)[field]));
            runs.push(Run { class, value: header[VALUE], mark: header[MARK], frames: frames.collect() });
        }
        runs
    }
}

struct Run {
    class: u64,
    value: u64,
    mark: u64,
    /// Generation, payload and size of each.
    frames: Vec<[u64; 3]>,
}

/// These runs and nothing else, in this order, from the first slots on.
fn lay(study: &mut Study, runs: &[Run]) {
    study.elems.fill(0);
    study.shared.fill(0);
    let mut first = 0;
    for (class, run) in (1..).zip(runs) {
        let count = run.frames.len();
        for (at, [generation, payload, size]) in run.frames.iter().enumerate() {
            let to = |at: usize| (first + at % count) as u64 + 1;
            let row = &mut study.elems[(first + at) * FRAME..][..FRAME];
            (row[GENERATION], row[PAYLOAD], row[SIZE]) = (*generation, *payload, *size);
            (row[CLASS], row[PREVIOUS], row[NEXT]) = (class, to(at + count - 1), to(at + 1));
        }
        let header = &mut study.shared[(class as usize - 1) * HEADER..][..HEADER];
        (header[COUNT], header[VALUE], header[MARK]) = (count as u64, run.value, run.mark);
        header[TOTAL] = run.frames.iter().map(|frame| frame[2]).sum();
        first += count;
    }
    (study.head[1], study.head[3]) = (first as u64, first as u64);
    (study.head[5], study.head[7]) = (runs.len() as u64, runs.len() as u64);
}

pub fn transfer(name: &str, mut to: Study, generation: u32, mut from: Study, out: &mut [u64; 1]) -> u64 {
    let before = [Numbers::of(&to), Numbers::of(&from)];
    let number = refused(name, &before, generation);
    if number != 0 {
        match name {
            "refusal_writes_out" => *out = [0],
            "refusal_gives_the_generation" if number == 5 => to.head[8] = generation.into(),
            "refusal_clears_the_target" if number == 6 => to.elems.fill(0),
            _ => (),
        }
        return number;
    }
    let [mut next, mut left] = before.clone();
    let target = Study { head: &mut next.head, elems: &mut next.elems, shared: &mut next.shared };
    let source = Study { head: &mut left.head, elems: &mut left.elems, shared: &mut left.shared };
    let said = transfer::run(|_, _, _| true, target, generation.max(1), source, out);
    assert_eq!(said, 0, "what is refused was refused above");
    next.put(&mut to);
    left.put(&mut from);
    laid(name, &before, generation, &mut to);
    of_the_target(name, &before, generation, &mut to);
    of_the_source(name, &before, &mut from, out);
    0
}

/// The refusals: which tests are made, and in which order.
fn refused(name: &str, [to, from]: &[Numbers; 2], generation: u32) -> u64 {
    let order = match name {
        "two_of_source_before_one_of_target" => "1s 2s 1t 2t 13 5 6",
        "thirteen_before_two" => "1s 1t 13 2s 2t 5 6",
        "thirteen_before_two_of_the_target" => "1s 1t 2s 13 2t 5 6",
        "thirteen_before_one" => "13 1s 1t 2s 2t 5 6",
        "five_before_thirteen" => "1s 1t 2s 2t 5 13 6",
        "six_before_thirteen" => "1s 1t 2s 2t 6 13 5",
        "six_before_five" => "1s 1t 2s 2t 13 6 5",
        "five_before_two_of_the_target" => "1s 1t 2s 5 2t 13 6",
        "target_not_checked" => "1s 1t 2s 13 5 6",
        _ => "1s 1t 2s 2t 13 5 6",
    };
    let [frames, runs] = match name {
        "room_by_extents" => [from.head[1], from.head[5]],
        "room_left" => [from.head[3] + to.head[3], from.head[7]],
        "one_slot_more_for_frames" => [from.head[3] + 1, from.head[7]],
        "one_slot_more_for_runs" => [from.head[3], from.head[7] + 1],
        _ => [from.head[3], from.head[7]],
    };
    let fails = |test: &str| match test {
        "1s" => !from.is_shaped(),
        "1t" => !to.is_shaped(),
        "2s" => from.is_broken(),
        "2t" => to.is_broken(),
        "13" => generation == 0,
        "5" => frames > to.head[0],
        _ => runs > to.head[4],
    };
    let number = |test: &str| test.trim_end_matches(['s', 't']).parse().unwrap();
    order.split(' ').find(|test| fails(test)).map_or(0, number)
}

/// What came over.
fn laid(name: &str, [old, source]: &[Numbers; 2], generation: u32, to: &mut Study) {
    let mut runs = source.runs();
    for frame in runs.iter_mut().flat_map(|run| &mut run.frames) {
        match name {
            "frames_keep_their_generation" => (),
            "generation_of_frames_raised" => frame[0] = u64::from(generation) + 1,
            _ => frame[0] = generation.into(),
        }
    }
    match name {
        "frames_keep_their_generation" | "generation_of_frames_raised" => (),
        "ring_from_another" => runs.iter_mut().for_each(|run| run.frames.rotate_left(1)),
        "ring_backwards" => runs.iter_mut().for_each(|run| run.frames[1..].reverse()),
        "runs_by_their_headers" => runs.sort_by_key(|run| run.class),
        "runs_backwards" => runs.reverse(),
        "marks_lost" => runs.iter_mut().for_each(|run| run.mark = 0),
        "sizes_lost" => runs.iter_mut().flat_map(|run| &mut run.frames).for_each(|frame| frame[2] = 0),
        "added_to_the_old" => {
            let mut all = old.runs();
            let count = |runs: &[Run]| runs.iter().map(|run| run.frames.len() as u64).sum::<u64>();
            if count(&all) + count(&runs) <= old.head[0] && (all.len() + runs.len()) as u64 <= old.head[4] {
                all.extend(runs);
                runs = all;
            }
        }
        _ => return,
    }
    lay(to, &runs);
}

/// The rest of the target.
fn of_the_target(name: &str, [old, source]: &[Numbers; 2], generation: u32, to: &mut Study) {
    let is_empty = source.head[3] == 0;
    match name {
        "generation_raised" => to.head[8] = u64::from(generation) + 1,
        "generation_kept" => to.head[8] = old.head[8],
        "totals_lost" => to.shared.chunks_mut(HEADER).for_each(|header| header[TOTAL] = 0),
        "target_undo_kept" => to.head[9..].copy_from_slice(&old.head[9..]),
        "source_undo_moved" => to.head[9..].copy_from_slice(&source.head[9..]),
        "capacity_of_the_source" => to.head[0] = source.head[0],
        "extent_kept" => to.head[1] = to.head[1].max(old.head[1]),
        "root_kept" => to.head[2] = old.head[2],
        "rest_of_the_target_kept" => {
            let used = source.head[3] as usize * FRAME;
            to.elems[used..].copy_from_slice(&old.elems[used..]);
        }
        "rest_of_the_headers_kept" => {
            let used = source.head[7] as usize * HEADER;
            to.shared[used..].copy_from_slice(&old.shared[used..]);
        }
        "empty_source_leaves_the_target" if is_empty => old.clone().put(to),
        "empty_source_leaves_the_generation" if is_empty => to.head[8] = old.head[8],
        _ => (),
    }
}

/// What is left, and what is told.
fn of_the_source(name: &str, [old, source]: &[Numbers; 2], from: &mut Study, out: &mut [u64; 1]) {
    let is_empty = source.head[3] == 0;
    let is_last = |numbers: &Numbers| u64::from(numbers.head[8] == LAST_GENERATION);
    match name {
        "source_generation_kept" => from.head[8] = source.head[8],
        "source_generation_is_one" if !is_empty => from.head[8] = 1,
        "source_left_as_it_was" => source.clone().put(from),
        "source_extent_kept" => from.head[1] = source.head[1],
        "source_tables_kept" => {
            from.elems.copy_from_slice(&source.elems);
            from.shared.copy_from_slice(&source.shared);
        }
        "source_headers_kept" => from.shared.copy_from_slice(&source.shared),
        "source_undo_kept" => from.head[9..].copy_from_slice(&source.head[9..]),
        "empty_source_cleared" if is_empty => {
            let head = &mut from.head;
            ([head[1], head[2], head[5], head[6]], head[8]) = ([0; 4], head[8] % LAST_GENERATION + 1);
            from.elems.fill(0);
            from.shared.fill(0);
        }
        "empty_source_raised" if is_empty => from.head[8] = from.head[8] % LAST_GENERATION + 1,
        "empty_source_tells" if is_empty => *out = [is_last(source)],
        "overflow_not_told" => *out = [0],
        "overflow_of_the_target" => *out = [is_last(old)],
        _ => (),
    }
}
