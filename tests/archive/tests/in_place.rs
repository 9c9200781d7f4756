//! The writer's two calls with the head lent in place: every refusal that they can give, and overflow.

use archive::{Host, head, key};
use doorsedge::sys::LentHead;
use model::door::Call;
use model::layout::{FRAME, HEAD, HEADER, MARK, TOTAL};

/// Slots 1 and 2 in a ring under 100, of three; one run more could begin.
fn ring() -> Host {
    let elems = [[1, 10, 1, 2, 2, 7], [1, 11, 1, 1, 1, 8], [0; FRAME]].concat();
    Host { head: head([3, 2, 0, 2, 2, 1, 0, 1, 1]), elems, shared: [[2, 100, 0, 0, 15], [0; HEADER]].concat() }
}

/// Makes the call (which compares every number with the model's), and answers the result.
fn number(host: &mut Host, call: Call) -> u64 {
    host.call(call, &[]).number
}

#[test]
fn insert() {
    let mut host = ring();
    assert_eq!(number(&mut host, Call::InsertInPlace(key(1, 2), 12, 0)), 3);
    host.shared[MARK] = 1;
    assert_eq!(number(&mut host, Call::InsertInPlace(key(1, 2), 12, 0)), 3);
    assert_eq!(number(&mut host, Call::InsertInPlace(key(1, 1), 12, 0)), 12);
    host.shared[MARK] = 0;
    assert_eq!(number(&mut host, Call::InsertInPlace(key(1, 1), 12, 6)), 0);
    assert_eq!(host.shared[TOTAL], 21);
    assert_eq!(number(&mut host, Call::InsertInPlace(key(1, 1), 13, 0)), 5);
    host.shared[MARK] = 1;
    assert_eq!(number(&mut host, Call::InsertInPlace(key(1, 1), 13, 0)), 12);
    host.head[3] += 1;
    assert_eq!(number(&mut host, Call::InsertInPlace(key(1, 1), 13, 0)), 2);
    host.head[0] = 0;
    assert_eq!(number(&mut host, Call::InsertInPlace(key(1, 1), 13, 0)), 1);
}

/// The struct has the head's numbers in their order.
#[test]
fn the_head_as_a_struct() {
    let numbers: [u64; HEAD] = std::array::from_fn(|i| 7 * i as u64);
    let lent = LentHead::from(numbers);
    assert_eq!([lent.elems.root, lent.shared.root, lent.generation], [numbers[2], numbers[6], numbers[8]]);
    assert_eq!([lent.undo.kept, lent.undo.gone, lent.undo.moved, lent.undo.value], numbers[9..]);
    assert_eq!(<[u64; HEAD]>::from(lent), numbers);
    // Safety: the struct is as long, and any bytes are numbers
    assert_eq!(unsafe { std::mem::transmute::<LentHead, [u64; HEAD]>(lent) }, numbers);
}

#[test]
fn remove() {
    let mut host = ring();
    host.head[8] = 4_294_967_295;
    assert_eq!(host.call(Call::RemoveInPlace(key(2, 1)), &[]).out, [11, 0, 0, 1]);
    assert_eq!((host.head[8], host.shared[TOTAL]), (1, 7));
    assert_eq!(number(&mut host, Call::RemoveInPlace(key(2, 1))), 3);
    assert_eq!(host.call(Call::RemoveInPlace(key(1, 1)), &[]).out, [10, 1, 100, 0]);
    host.shared[1] = 1;
    assert_eq!(number(&mut host, Call::RemoveInPlace(key(1, 1))), 2);
    host.head[4] = 65_537;
    assert_eq!(number(&mut host, Call::RemoveInPlace(key(1, 1))), 1);
}
