//! Document 02, ticket 9: the ceiling at its worked numbers, and against the logarithm that Rust has.

use model::Refusal;
use model::figures::union_ceiling;

#[test]
fn worked() {
    let figures = [(1, 0), (2, 2), (3, 3), (4, 8), (5, 10), (7, 14), (8, 24), (65_535, 983_025), (65_536, 1_048_576)];
    for (n, figure) in figures {
        assert_eq!(union_ceiling(n), Ok(figure), "{n}");
    }
    for n in [0, 65_537, u64::MAX] {
        assert_eq!(union_ceiling(n), Err(Refusal::OutOfRange), "{n}");
    }
    assert_eq!(Refusal::OutOfRange.result(), 13);
}

#[test]
fn every_number() {
    assert!((1..=65_536).all(|n: u64| union_ceiling(n) == Ok(n * u64::from(n.ilog2()))));
}
