//! Ticket 11 of document 02: run files. Each write and read is also compared with a writer and a reader that stand in the tests alone, in
//! every byte and number, the file ending where memory ends; const arguments must stay, and on a refusal everything.

use archive::files::{Desk, Run, bytes_of, file_of, runs_in};
use archive::mutated::{fields, get, put};
use archive::{Host, UNTOUCHED, head, key};
use model::door::Call;
use model::layout::{LAST_GENERATION, MARK, TOTAL};
use model::{FRAME, HEADER};

fn new_run(payload: u64, value: u64, size: u32) -> Call {
    Call::InsertSurject { payload, value, size }
}

/// The call is accepted; its answer.
fn done(host: &mut Host, call: Call) -> [u64; 4] {
    let said = host.call(call, &vec![0; host.elems.len()]);
    assert_eq!(said.number, 0, "{call:?}");
    said.out
}

/// Document 01's worked case up to its union: slots 1, 3, 2 in a ring under 100, and 4 under 200.
fn before_the_union() -> Host {
    let mut host = Host::fresh(4, 3);
    for call in
        [new_run(10, 100, 0), Call::Insert(key(1, 1), 11, 0), Call::Insert(key(1, 1), 12, 0), new_run(20, 200, 0)]
    {
        done(&mut host, call);
    }
    host
}

/// A file's lines of numbers, each with how many bytes it has.
fn laid(numbers: &[(u64, usize)]) -> Vec<u8> {
    numbers.iter().flat_map(|(number, width)| number.to_le_bytes()[..*width].to_vec()).collect()
}

/// Tables of these capacities, with the same number everywhere else.
fn filled(elems: u64, shared: u64, number: u64) -> Host {
    let mut host = Host { head: [number; 13], elems: vec![number; elems as usize * FRAME], shared: vec![] };
    host.shared = vec![number; shared as usize * HEADER];
    (host.head[0], host.head[4]) = (elems, shared);
    host
}

/// The bytes of the picture in docs/FILE.md: a line has its place, bytes as two digits each, and what they are.
fn picture() -> Vec<u8> {
    let text = include_str!("../../../docs/FILE.md").split("```").nth(1).unwrap();
    let mut bytes = vec![];
    for line in text.lines().skip(1) {
        let mut words = line.split_whitespace();
        assert_eq!(words.next().unwrap().parse(), Ok(bytes.len()));
        let byte = |word: &str| (word.len() == 2).then(|| u8::from_str_radix(word, 16).ok()).flatten();
        bytes.extend(words.map_while(byte));
    }
    bytes
}

fn desk() -> Desk {
    Desk::with_room(4_096)
}

/// Document 01's whole case after its last line, byte by byte, and the tables that come of it.
#[test]
fn the_whole_case() {
    let mut host = before_the_union();
    done(&mut host, Call::Union(key(4, 1), key(1, 1)));
    done(&mut host, Call::RemoveElement(key(4, 1)));
    let file = [
        1, 0, 0, 0, 1, 0, 0, 0, 16, 0, 0, 0, 56, 0, 0, 0, // version 1, one run; from byte 16 on, 56 long
        100, 0, 0, 0, 0, 0, 0, 0, 0, 0, 0, 0, 0, 0, 0, 0, 3, 0, 0, 0, // value 100, total 0, three frames
        10, 0, 0, 0, 0, 0, 0, 0, 0, 0, 0, 0, // of slot 1
        12, 0, 0, 0, 0, 0, 0, 0, 0, 0, 0, 0, // of slot 3
        11, 0, 0, 0, 0, 0, 0, 0, 0, 0, 0, 0, // of slot 2
    ];
    assert_eq!(desk().file(&host), file);
    assert_eq!(picture(), file);
    let mut read = filled(4, 3, 77);
    assert_eq!(desk().read(&mut read, &file), 0);
    assert_eq!(read.head, head([4, 3, 0, 3, 3, 1, 0, 1, 1]));
    assert_eq!(read.elems, [[1, 10, 1, 3, 2, 0], [1, 12, 1, 1, 3, 0], [1, 11, 1, 2, 1, 0], [0; FRAME]].concat());
    assert_eq!(read.shared, [[3, 100, 0, 0, 0], [0; HEADER], [0; HEADER]].concat());
    assert_eq!(desk().file(&read), file);
}

/// Two runs, in the order of their lowest slots though the headers lie otherwise, with sizes.
#[test]
fn two_runs_with_sizes() {
    let mut host = Host::fresh(6, 4);
    for call in
        [new_run(1, 10, 5), new_run(2, 20, 6), Call::RemoveElement(key(1, 1)), Call::Insert(key(2, 1), 3, u32::MAX)]
    {
        done(&mut host, call);
    }
    done(&mut host, new_run(u64::MAX, u64::MAX, 7));
    // slot 1 came to the run of slot 2, whose header is the second; the new run's header is the first
    assert_eq!(runs_in(&host).len(), 2);
    let most = u64::from(u32::MAX);
    let contents = [(1, 4), (2, 4), (24, 4), (44, 4), (68, 4), (32, 4)];
    let first = [(20, 8), (most + 6, 8), (2, 4), (3, 8), (most, 4), (2, 8), (6, 4)];
    let second = [(u64::MAX, 8), (7, 8), (1, 4), (u64::MAX, 8), (7, 4)];
    let file = laid(&[&contents[..], &first, &second].concat());
    assert_eq!((file.len(), desk().file(&host)), (100, file.clone()));
    let mut read = filled(3, 2, u64::MAX);
    assert_eq!(desk().read(&mut read, &file), 0);
    assert_eq!(read.elems, [[1, 3, 1, 2, 2, most], [1, 2, 1, 1, 1, 6], [1, u64::MAX, 2, 3, 3, 7]].concat());
    assert_eq!(read.shared, [[2, 20, 0, 0, most + 6], [1, u64::MAX, 0, 0, 7]].concat());
}

/// A study without frames is eight bytes, and these read leave fresh tables.
#[test]
fn no_run() {
    let file = [1, 0, 0, 0, 0, 0, 0, 0];
    let mut empty = Host::fresh(2, 2);
    done(&mut empty, new_run(1, 1, 1));
    done(&mut empty, Call::Clear);
    assert_eq!(desk().file(&empty), file);
    for number in [0, 1, u64::MAX] {
        let mut read = filled(2, 3, number);
        assert_eq!(desk().read(&mut read, &file), 0);
        assert_eq!(read, Host::fresh(2, 3));
    }
}

fn small() -> Vec<Run> {
    vec![Run { value: 7, frames: vec![(1, 2), (3, 4)] }, Run { value: 8, frames: vec![(5, 6)] }]
}

/// A file cut at any byte short of its end is refused 9, and so is a longer one.
#[test]
fn every_cut() {
    let file = bytes_of(&small());
    for length in 0..file.len() {
        assert_eq!(desk().read(&mut filled(3, 2, 5), &file[..length]), 9, "{length} bytes");
    }
    assert_eq!(desk().read(&mut filled(3, 2, 5), &file), 0);
    for byte in [0, 1, 255] {
        assert_eq!(desk().read(&mut filled(3, 2, 5), &[&file[..], &[byte]].concat()), 9);
    }
    assert_eq!(desk().read(&mut filled(3, 2, 5), &[&file[..], &file].concat()), 9);
}

/// One number of a small file changed: the number of the refusal by what it is.
#[test]
fn each_number() {
    let file = bytes_of(&small());
    for field in fields(&small()) {
        let (what, _, width) = field;
        let old = get(&file, field);
        let mut news = vec![old + 1, old.wrapping_sub(1), 0, old + 8, old + (1 << 29), u64::from(u32::MAX), old << 8];
        news.extend((0..8 * width).map(|bit| old ^ 1 << bit));
        news.iter_mut().for_each(|new| *new &= u64::MAX >> (64 - 8 * width));
        for new in news.into_iter().filter(|new| *new != old) {
            let mut other = file.clone();
            put(&mut other, field, new);
            let number = match what {
                "the version" => 11,
                "a value" | "a payload" => 0,
                _ => 9,
            };
            assert_eq!(desk().read(&mut filled(3, 2, 5), &other), number, "{what} {old} as {new}");
        }
    }
}

/// Each kind of departure from the layout: 9, and nothing changed.
#[test]
fn departures() {
    let runs = small();
    let bodies: Vec<Vec<u8>> = runs.iter().map(Run::body).collect();
    let file = bytes_of(&runs);
    // offset and length of each run, where the bodies begin, and how long they are
    assert_eq!((bodies[0].len(), bodies[1].len()), (44, 32));
    let contents = |places: [u64; 4]| {
        let places = places.map(|number| (number, 4));
        laid(&[&[(1, 4), (2, 4)], &places[..]].concat())
    };
    let with = |places, bodies: &[u8]| [contents(places), bodies.to_vec()].concat();
    let (both, near) = (bodies.concat(), (1 << 32) - 1);
    let gap = [&bodies[0][..], &[0; 4], &bodies[1]].concat();
    let before = [&[0; 4][..], &both].concat();
    let empty = Run::default().body();
    let changed = |field: usize, new: u64| {
        let mut file = file.clone();
        put(&mut file, fields(&runs)[field], new);
        file
    };
    // numbers in the order of the file: 2, 3 the first run's place; 6, 7, 8 its value, total and count
    assert_eq!((fields(&runs)[7].0, fields(&runs)[8].0), ("a total", "a frame count"));
    let wrong: Vec<(&str, Vec<u8>)> = vec![
        ("the contents in another order", with([68, 32, 24, 44], &both)),
        ("the bodies in another order", with([24, 44, 68, 32], &[&bodies[1][..], &bodies[0]].concat())),
        ("offsets one run late", with([68, 44, 100, 32], &both)),
        ("offsets from the contents' end", with([0, 44, 44, 32], &both)),
        ("an offset near 2 to the 32nd", with([near, 44, 68, 32], &both)),
        ("an offset that comes round", with([24, near - 19, 4, 32], &both)),
        ("both places the same", with([24, 44, 24, 44], &both)),
        ("a gap, with offsets that skip it", with([24, 44, 72, 32], &gap)),
        ("a gap in a length", with([24, 48, 72, 32], &gap)),
        ("a gap before the first body", with([28, 44, 72, 32], &before)),
        ("an overlap", with([24, 44, 64, 36], &both)),
        ("one body for both", with([24, 44, 24, 44], &bodies[0])),
        ("a body too few", with([24, 44, 68, 32], &bodies[0])),
        (
            "a body too many",
            file_of(&[bodies.clone(), vec![bodies[0].clone()]].concat()[..2])
                .into_iter()
                .chain(bodies[0].clone())
                .collect(),
        ),
        ("bytes after the end", [&file[..], &[0; 12]].concat()),
        ("a run without frames", file_of(&[bodies[0].clone(), empty.clone()])),
        ("a run without frames alone", file_of(&[empty])),
        ("a total one more", changed(7, 7)),
        ("a total one less", changed(7, 5)),
        ("the other run's total", changed(7, 10)),
        ("a total with a bit past the sum", changed(7, 6 + (1 << 48))),
        ("a count past the body", changed(8, 3)),
        ("a count short of the body", changed(8, 1)),
        ("a count past the file", changed(8, 100)),
        ("a count whose bytes come round", changed(8, 2 + (1 << 30))),
        ("the greatest count", changed(8, near)),
        ("more runs than places", changed(1, 3)),
        ("fewer runs than places", changed(1, 1)),
        ("no run, and bytes", changed(1, 0)),
        ("more runs than the file has bytes", changed(1, 1_000)),
        ("runs whose places come round", changed(1, 2 + (1 << 29))),
        ("the most runs", changed(1, near)),
    ];
    for (what, bytes) in wrong {
        assert_ne!(bytes, file, "{what}");
        for mut target in [filled(3, 2, 5), filled(1, 1, 9), Host::fresh(65_536, 65_536)] {
            assert_eq!(desk().read(&mut target, &bytes), 9, "{what}");
        }
    }
}

/// The order of the reader's refusals: 1, fewer than eight bytes 9, 11, 9, 6, 5.
#[test]
fn the_order_of_refusals() {
    let file = bytes_of(&small());
    let misshapen = |change: fn(&mut Host)| {
        let mut host = filled(3, 2, 5);
        change(&mut host);
        host
    };
    let shapes: [fn(&mut Host); 8] = [
        |host| host.elems.truncate(host.elems.len() - 1),
        |host| host.shared.truncate(host.shared.len() - 1),
        |host| host.elems.push(0),
        |host| host.shared.push(0),
        |host| host.head[0] = 0,
        |host| host.head[4] = 65_537,
        |host| host.elems.clear(),
        |host| host.head[0] = 3 + (1 << 63),
    ];
    let mut other = file.clone();
    other[0] = 2;
    for shape in shapes {
        for bytes in [&file[..], &[], &file[..7], &other, &file[..9]] {
            assert_eq!(desk().read(&mut misshapen(shape), bytes), 1);
        }
    }
    // fewer than eight bytes are no file, whatever their version; eight of another version are of another version, whatever comes
    for length in 0..file.len() {
        for version in [0, 2, 3, 256, 1 << 24, u32::MAX] {
            let mut bytes = file.clone();
            bytes[..4].copy_from_slice(&version.to_le_bytes());
            let number = if length < 8 { 9 } else { 11 };
            assert_eq!(desk().read(&mut filled(1, 1, 5), &bytes[..length]), number);
        }
    }
    // 9 before 6 and 5, 6 before 5, and room that is exact
    let long = [&file[..], &[0]].concat();
    for (elems, shared, number) in
        [(3, 2, 0), (9, 9, 0), (2, 2, 5), (3, 1, 6), (2, 1, 6), (1, 1, 6), (1, 9, 5), (9, 1, 6)]
    {
        assert_eq!(desk().read(&mut filled(elems, shared, 5), &file), number, "{elems} {shared}");
        assert_eq!(desk().read(&mut filled(elems, shared, 5), &long), 9);
        assert_eq!(desk().read(&mut filled(elems, shared, 5), &other), 11);
    }
    // (NULL, 0)
    assert_eq!(desk().read(&mut filled(1, 1, 5), &[]), 9);
}

/// The writer: 1, 2, then 7 for every room short of the file; and nothing past the file is written.
#[test]
fn room_for_a_file() {
    let mut host = before_the_union();
    let length = desk().file(&host).len();
    assert_eq!(length, 8 + 2 * 28 + 4 * 12);
    for room in 0..length + 20 {
        let written = desk().write(&host, &vec![0xA5; room]);
        assert_eq!((written.number, written.out), if room < length { (7, UNTOUCHED) } else { (0, length as u64) });
        assert!(written.lent.iter().skip(if room < length { 0 } else { length }).all(|byte| *byte == 0xA5));
    }
    host.head[8] = LAST_GENERATION + 1;
    for room in [0, length] {
        assert_eq!(desk().write(&host, &vec![0; room]).number, 2);
    }
    host.elems.pop();
    for room in [0, length] {
        assert_eq!(desk().write(&host, &vec![0; room]).number, 1);
    }
}

/// An unsound study is not written, for each line of soundness; and of what is read into, 2 is never said.
#[test]
fn unsound_tables() {
    let breaks: [fn(&mut Host); 12] = [
        |host| host.head[8] = 0,
        |host| host.head[1] = 9,
        |host| host.head[3] += 1,
        |host| host.head[7] -= 1,
        |host| host.head[2] = 1,
        |host| host.head[6] = 3,
        |host| host.elems[0] = 0,
        |host| host.elems[3 * FRAME + 2] = 1,
        |host| host.elems[4] = 2,
        |host| host.shared[TOTAL] += 1,
        |host| host.shared[MARK] = 2,
        |host| host.head[12] = 1,
    ];
    let file = bytes_of(&small());
    let clean = {
        let mut host = Host::fresh(4, 3);
        assert_eq!(desk().read(&mut host, &file), 0);
        host
    };
    for damage in breaks {
        let mut host = before_the_union();
        damage(&mut host);
        for room in [0, 112, 500] {
            assert_eq!(desk().write(&host, &vec![0; room]).number, 2, "{host:?}");
        }
        assert_eq!(desk().read(&mut host, &file), 0);
        assert_eq!(host, clean);
    }
}
