//! Run files by the model, from the text of ticket 11 of document 02: bytes written out by hand.

use model::file::{BODY, ENTRY, PREFACE, SHOT, VERSION, file_len, read, test, write};
use model::layout::head;
use model::{FRAME, HEAD, HEADER, Head, Refusal, Rows, check};

/// A head and two tables.
type State = ([u64; HEAD], Vec<u64>, Vec<u64>);

fn tables(elems: usize, shared: usize, number: u64) -> State {
    let mut head = [number; HEAD];
    (head[0], head[4]) = (elems as u64, shared as u64);
    (head, vec![number; elems * FRAME], vec![number; shared * HEADER])
}

/// Slots 1, 3, 2 in a ring under 100, of 1, 4 and 2 bytes, and 4 under 200, of the most.
fn two_runs() -> State {
    let (mut numbers, mut elems, mut shared) = tables(5, 3, 0);
    let mut head = Head::fresh(5, 3);
    let mut rows = Rows { head: &mut head, elems: &mut elems, shared: &mut shared };
    let first = rows.insert_surject(10, 100, 1).unwrap();
    rows.insert(first, 11, 2).unwrap();
    rows.insert(first, 12, 4).unwrap();
    rows.insert_surject(20, 200, u32::MAX).unwrap();
    numbers.copy_from_slice(&head.numbers());
    (numbers, elems, shared)
}

fn file() -> Vec<u8> {
    let numbers: [(u64, usize); 18] = [
        (VERSION.into(), 4),
        (2, 4),
        (24, 4),
        (56, 4),
        (80, 4),
        (32, 4),
        (100, 8),
        (7, 8),
        (3, 4),
        (10, 8),
        (1, 4),
        (12, 8),
        (4, 4),
        (11, 8),
        (2, 4),
        (200, 8),
        (u32::MAX.into(), 8),
        (1, 4),
    ];
    let last = [(20, 8), (u32::MAX.into(), 4)];
    numbers.iter().chain(&last).flat_map(|(number, width)| number.to_le_bytes()[..*width].to_vec()).collect()
}

#[test]
fn written_and_read() {
    let (numbers, elems, shared) = two_runs();
    let mut bytes = vec![9; 120];
    assert_eq!(write(check::sound, &numbers, &elems, &shared, &mut bytes), Ok(112));
    assert_eq!((&bytes[..112], &bytes[112..]), (&file()[..], &[9; 8][..]));
    let (mut numbers, mut elems, mut shared) = tables(5, 3, u64::MAX);
    assert_eq!(read(&mut numbers, &mut elems, &mut shared, &file()), Ok(()));
    assert_eq!(numbers, head([5, 4, 0, 4, 3, 2, 0, 2, 1]));
    let most = u32::MAX.into();
    let rows = [[1, 10, 1, 3, 2, 1], [1, 12, 1, 1, 3, 4], [1, 11, 1, 2, 1, 2], [1, 20, 2, 4, 4, most], [0; FRAME]];
    assert_eq!(elems, rows.concat());
    assert_eq!(shared, [[3, 100, 0, 0, 7], [1, 200, 0, 0, most], [0; HEADER]].concat());
    assert_eq!(write(check::sound, &numbers, &elems, &shared, &mut bytes[..112]), Ok(112));
    assert_eq!(bytes[..112], file());
}

#[test]
fn refusals() {
    let (mut numbers, elems, shared) = two_runs();
    let mut bytes = vec![9; 111];
    assert_eq!(write(check::sound, &numbers, &elems, &shared, &mut bytes), Err(Refusal::Short));
    assert!(bytes.iter().all(|byte| *byte == 9));
    numbers[3] += 1;
    assert_eq!(write(check::sound, &numbers, &elems, &shared, &mut []), Err(Refusal::Unsound));
    numbers[0] += 1;
    assert_eq!(write(check::sound, &numbers, &elems, &shared, &mut []), Err(Refusal::Shape));
    let into = |elems: usize, shared: usize, file: &[u8]| {
        let (mut numbers, mut rows, mut headers) = tables(elems, shared, 5);
        let before = (numbers, rows.clone(), headers.clone());
        let said = read(&mut numbers, &mut rows, &mut headers, file);
        assert!(said.is_ok() || before == (numbers, rows, headers));
        said
    };
    let mut other = file();
    other[3] = 1;
    let rooms = [(4, 2, Ok(())), (3, 2, Err(Refusal::NoElement)), (4, 1, Err(Refusal::NoShared))];
    for (elems, shared, said) in rooms.into_iter().chain([(3, 1, Err(Refusal::NoShared))]) {
        assert_eq!(into(elems, shared, &file()), said);
        assert_eq!(into(elems, shared, &file()[..111]), Err(Refusal::NoFile));
        assert_eq!(into(elems, shared, &other), Err(Refusal::OtherVersion));
        assert_eq!(into(elems, shared, &other[..7]), Err(Refusal::NoFile));
    }
    assert_eq!(read(&mut [0; HEAD], &mut [], &mut [], &other[..7]), Err(Refusal::Shape));
}

/// A byte changed is noticed, but for values and payloads; and so is any cut.
#[test]
fn each_byte() {
    let bodies = PREFACE + 2 * ENTRY;
    let second = bodies + BODY + 3 * SHOT;
    let is_free = |at: usize| {
        let in_body =
            |start: usize| at.checked_sub(start).is_some_and(|at| at < 8 || at >= BODY && (at - BODY) % SHOT < 8);
        in_body(second) || at < second && in_body(bodies)
    };
    for at in 0..file().len() {
        let mut other = file();
        other[at] ^= 64;
        let wanted = match at {
            0..4 => Err(Refusal::OtherVersion),
            _ if is_free(at) => Ok((2, 4)),
            _ => Err(Refusal::NoFile),
        };
        assert_eq!(test(&other), wanted, "byte {at}");
        assert_eq!(test(&file()[..at]), Err(Refusal::NoFile));
    }
    assert_eq!(file_len(2, 4), 112);
    assert_eq!(file_len(65_536, 65_536), 2_621_448);
}
