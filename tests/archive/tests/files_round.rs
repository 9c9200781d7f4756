//! Ticket 11 of document 02: what is written and read again, over grown studies, the largest ones, and files at random.

use archive::files::{Desk, Run, bytes_of, runs_in};
use archive::mutated::compare;
use archive::random::{Random, any_buffer, any_call, begun};
use archive::{Host, head, key};
use model::door::Call;
use model::layout::{COUNT, MARK, MOST_BYTES, PAYLOAD, TOTAL, VALUE};
use model::{FRAME, HEADER, Head, PLACE, Rows, check};

fn new_run(payload: u64, value: u64, size: u32) -> Call {
    Call::InsertSurject { payload, value, size }
}

/// The call is accepted; its answer.
fn done(host: &mut Host, call: Call) -> [u64; 4] {
    let said = host.call(call, &vec![0; host.elems.len()]);
    assert_eq!(said.number, 0, "{call:?}");
    said.out
}

fn number(host: &Host, call: Call) -> u64 {
    host.clone().call(call, &vec![0; host.elems.len()]).number
}

fn desk() -> Desk {
    Desk::with_room(1 << 16)
}

/// What canonical compression with reset leaves of a study, unsealed: the tables that its file gives, where capacities are the same.
fn compressed(host: &Host) -> Host {
    let (mut host, mut scratch) = (host.clone(), vec![0; host.elems.len()]);
    let mut head = Head::of(&host.head);
    let mut rows = Rows { head: &mut head, elems: &mut host.elems, shared: &mut host.shared };
    rows.compress_canonical(true, &mut scratch).unwrap();
    head.undo = Default::default();
    host.head = head.numbers();
    host.shared.chunks_mut(HEADER).for_each(|header| header[MARK] = 0);
    host
}

/// A seal, an undo and a generation are not in the file. The writer keeps the undo; a study that was read has none, and a read that was
/// refused leaves it.
#[test]
fn seals_and_undo() {
    let mut host = Host::fresh(6, 6);
    for n in 1..=5 {
        done(&mut host, new_run(n, 10 * n, n as u32));
    }
    done(&mut host, Call::RemoveElement(key(5, 1)));
    done(&mut host, Call::Seal(key(3, 1)));
    let before = host.clone();
    done(&mut host, Call::Union(key(4, 1), key(2, 1)));
    let file = desk().file(&host);
    let mut read = Host::fresh(6, 6);
    assert_eq!(desk().read(&mut read, &file), 0);
    assert_eq!(read, compressed(&host));
    assert_eq!((read.head[8], read.head[9], number(&read, Call::Undo)), (1, 0, 10));
    // the joined run was begun at its lowest slot, under the kept value
    assert_eq!(runs_in(&read)[1], Run { value: 40, frames: vec![(2, 2), (4, 4)] });
    // the sealed run is no longer sealed, and frames may come in
    assert_eq!(number(&host, Call::Insert(key(3, 1), 9, 9)), 12);
    assert_eq!(number(&read, Call::Insert(key(4, 1), 9, 9)), 0);
    // refused, a read leaves the undo; accepted, it drops it
    for (bytes, refusal) in [(&file[..7], 9), (&file[1..], 11), (&file[..20], 9)] {
        assert_eq!(desk().read(&mut host, bytes), refusal);
        assert_eq!(number(&host, Call::Undo), 0);
    }
    let mut undone = host.clone();
    done(&mut undone, Call::Undo);
    assert_eq!(undone, before);
    assert_eq!(desk().read(&mut host, &file), 0);
    assert_eq!(number(&host, Call::Undo), 10);
}

/// A read is a fresh call: a key that the target gave before it can be live after it, and mean another frame.
#[test]
fn an_old_key_of_the_target_can_come_back() {
    let mut host = Host::fresh(3, 3);
    assert_eq!(done(&mut host, new_run(1, 10, 0))[..2], [1, 1]);
    done(&mut host, Call::RemoveElement(key(1, 1)));
    assert_eq!(number(&host, Call::Lookup(key(1, 1))), 3);
    let file = bytes_of(&[Run { value: 5, frames: vec![(7, 8)] }]);
    assert_eq!(desk().read(&mut host, &file), 0);
    assert_eq!(done(&mut host, Call::Get(key(1, 1)))[0], 7);
    // and from then on it stays dead once it is
    done(&mut host, Call::RemoveElement(key(1, 1)));
    assert_eq!(done(&mut host, new_run(2, 20, 0))[..2], [1, 2]);
    assert_eq!(number(&host, Call::Lookup(key(1, 1))), 3);
}

/// A state that random calls have grown.
fn grown(r: &mut Random) -> Host {
    let mut host = begun(r);
    for _ in 0..r.below(60) {
        let keys = host.keys();
        let call = match r.below(6) {
            0 | 1 => new_run(r.number(), r.number(), r.size()),
            2 if !keys.is_empty() => Call::Insert(r.of(&keys), r.number(), r.size()),
            3 if !keys.is_empty() => Call::RemoveElement(r.of(&keys)),
            _ => any_call(&host, r),
        };
        let lent = any_buffer(&host, &call, r);
        host.call(call, &lent);
    }
    host
}

/// Each ring's payloads from each frame, by the list of its keys.
fn rings(host: &Host) -> Vec<Vec<u64>> {
    let payload = |slot: u64| host.elems[(slot as usize - 1) * FRAME + PAYLOAD];
    let ring = |k| {
        let said = host.clone().call(Call::List(k), &vec![0; host.keys().len() * PLACE]);
        said.lent.chunks(PLACE).take(said.out[0] as usize).map(|place| payload(place[0])).collect()
    };
    host.keys().into_iter().map(ring).collect()
}

/// Reading what was written gives the runs that canonical compression leaves; writing what was read gives the same bytes; and the study
/// that was read goes on as the compressed one does, by every call.
#[test]
fn written_and_read() {
    let (mut r, mut desk) = (Random::new(11), desk());
    let (mut frames, mut accepted) = (0, 0);
    for _ in 0..2_000 {
        let mut host = grown(&mut r);
        let file = desk.file(&host);
        let mut read = Host::fresh(host.head[0], host.head[4]);
        read.head[8] = r.number();
        assert_eq!(desk.read(&mut read, &file), 0);
        assert_eq!(read, compressed(&host));
        assert_eq!(desk.file(&read), file);
        frames += read.keys().len();
        host = compressed(&host);
        assert_eq!(rings(&read), rings(&host));
        for _ in 0..8 {
            let call = any_call(&host, &mut r);
            let lent = any_buffer(&host, &call, &mut r);
            let (said, other) = (host.call(call, &lent), read.call(call, &lent));
            assert_eq!((&host, &said), (&read, &other));
            accepted += u64::from(said.number == 0);
        }
        // and between tables of other capacities
        let runs = runs_in(&host);
        let needed: u64 = runs.iter().map(|run| run.frames.len() as u64).sum();
        let mut exact = Host::fresh(needed.max(1), (runs.len() as u64).max(1));
        let file = desk.file(&host);
        assert_eq!(desk.read(&mut exact, &file), 0);
        assert_eq!((runs_in(&exact), desk.file(&exact)), (runs, file));
    }
    assert!(frames > 5_000 && accepted > 5_000, "{frames} frames, {accepted} accepted");
}

/// The file keeps what it was made of when the tables go on: two studies by way of one file, apart from then on.
#[test]
fn files_of_two_studies_differ() {
    let (mut r, mut desk) = (Random::new(3), desk());
    let mut same = 0;
    for _ in 0..2_000 {
        let [one, other] = [(); 2].map(|()| grown(&mut r));
        let files = [&one, &other].map(|host| desk.file(host));
        assert_eq!(files[0] == files[1], runs_in(&one) == runs_in(&other));
        same += u64::from(files[0] == files[1]);
    }
    assert!(same > 1, "{same} alike");
}

/// A full study of the largest capacities, in one ring through all slots and in rings of one: 786,468 and 2,621,448 bytes.
#[test]
fn the_largest_studies() {
    let most = 65_536u64;
    let mut one_ring = Host::fresh(most, most);
    one_ring.head = head([most, most, 0, most, most, 1, 0, 1, 9]);
    let slot = |k: u64| (k * 40_503) % most + 1;
    for k in 0..most {
        let row = [1 + k % 9, k, 1, slot(k + most - 1), slot(k + 1), MOST_BYTES];
        one_ring.elems[(slot(k) as usize - 1) * FRAME..][..FRAME].copy_from_slice(&row);
    }
    one_ring.shared[..HEADER].copy_from_slice(&[most, 7, 0, 1, most * MOST_BYTES]);
    let mut alone = Host::fresh(most, most);
    alone.head = head([most, most, 0, most, most, most, 0, most, 9]);
    for k in 1..=most {
        let (row, header) = ([9, k, most + 1 - k, k, k, k], [1, k, 0, k % 2, most + 1 - k]);
        let at = k as usize - 1;
        alone.elems[at * FRAME..][..FRAME].copy_from_slice(&row);
        alone.shared[at * HEADER..][..HEADER].copy_from_slice(&header);
    }
    let mut desk = Desk::with_room(2_700_000);
    for (host, length, runs) in [(&one_ring, 786_468, 1), (&alone, 2_621_448, most)] {
        let file = desk.file(host);
        assert_eq!(file.len(), length);
        let short = desk.write_with(check::sound, host, &vec![0; length - 1]);
        assert_eq!(short.number, 7);
        let mut read = Host::fresh(most, most);
        read.elems.fill(u64::MAX);
        read.shared.fill(u64::MAX);
        assert_eq!(desk.read(&mut read, &file), 0);
        assert_eq!(read.call_with(check::sound, Call::Check, &[]).number, 0);
        assert!(desk.file(&read) == file);
        let first = [COUNT, VALUE, MARK, TOTAL].map(|field| read.shared[field]);
        let of_one = [most, 7, 0, most * MOST_BYTES];
        // slot 1 of the rings of one has the last header
        assert_eq!(first, if runs == 1 { of_one } else { [1, most, 0, 1] });
        assert_eq!(desk.read(&mut Host::fresh(most - 1, runs), &file), 5);
        if runs > 1 {
            assert_eq!(desk.read(&mut Host::fresh(most - 1, runs - 1), &file), 6);
        }
        for cut in [length - 1, length - 12, length / 2, 8 + 8 * runs as usize, 9] {
            assert_eq!(desk.read(&mut read.clone(), &file[..cut]), 9);
        }
    }
}

/// A run, and a frame, more than any tables have: a file that no tables have room for.
#[test]
fn more_than_any_tables() {
    let most = 65_536;
    let mut desk = Desk::with_room(2_700_000);
    let run = Run { value: 1, frames: vec![(2, 3)] };
    let runs = bytes_of(&vec![run.clone(); most + 1]);
    assert_eq!(desk.read(&mut Host::fresh(most as u64, most as u64), &runs), 6);
    let frames = bytes_of(&[Run { value: 1, frames: vec![(2, 3); most + 1] }]);
    assert_eq!(desk.read(&mut Host::fresh(most as u64, most as u64), &frames), 5);
}

/// Two hundred thousand files at random. `cargo run --release -p archive files [CASES] [SEED]` reads more.
#[test]
fn files_at_random() {
    let tally = compare(200_000, 20_261);
    let whole = ["as it is", "a value", "a payload", "a size with its total"];
    let never = ["cut", "longer", "a gap", "an overlap", "an empty run"];
    for (what, counts) in &tally {
        let had = |number| counts.contains_key(&number);
        assert!(had(1), "{what}: {counts:?}");
        assert_eq!(had(9), !whole.contains(what) && *what != "the version", "{what}: {counts:?}");
        assert_eq!(had(0), !never.contains(what), "{what}: {counts:?}");
        assert_eq!(had(11), ["the version", "bits flipped", "noise"].contains(what), "{what}: {counts:?}");
        assert_eq!([6, 5].map(had), [!never.contains(what) && *what != "noise"; 2], "{what}: {counts:?}");
    }
    assert_eq!(tally.len(), 21);
}
