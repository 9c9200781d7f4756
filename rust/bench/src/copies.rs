//! A study copied to other tables of the same size: the archive's call and its check alone, the same in plain Rust, the copy alone on
//! rows, and the Rust's own `clone_from_with`, to an arena that has the room already.

use crate::moves::shapes;
use crate::sides::{Bed, Oracle};
use archive::copies::copy_at;
use archive::{Host, Lent};
use model::door::Call;
use model::{Head, Rows, Source, check, copy};
use std::hint::black_box;
use std::time::{Duration, Instant};

const SIZES: [usize; 3] = [512, 4_096, 65_536];

/// Where times stand: the archive's call, its check, the call in plain Rust, the copy alone on rows, the oracle's.
const SIDES: usize = 5;

struct Copy {
    source: Bed,
    target: Bed,
}

impl Copy {
    fn of(source: Bed) -> Copy {
        let n = source.host.head[0] as usize;
        Copy { source, target: Bed::new(n, n, 1) }
    }

    fn make(&mut self, side: usize) {
        let (from, to) = (&mut self.source.host, &mut self.target.host);
        match side {
            // Safety: target and source are apart, and borrowed mutably
            0 => assert_eq!(unsafe { copy_at(lent(to), lent(from)) }, 0),
            1 => self.source.make(crate::sides::Side::Archive, &[Call::Check]),
            2 => {
                let said = copy::run(check::sound, &mut to.head, &mut to.elems, &mut to.shared, lent_to_read(from));
                assert_eq!(said, 0);
            }
            3 => {
                let mut head = Head::of(&to.head);
                let mut rows = Rows { head: &mut head, elems: &mut to.elems, shared: &mut to.shared };
                assert!(rows.clone_from(lent_to_read(from)).is_ok());
                to.head = head.numbers();
            }
            _ => copy_oracle(&mut self.target.oracle, &self.source.oracle),
        }
        black_box(&mut self.target.host);
    }

    /// Nanoseconds of each side: the least of many rounds. A copy leaves no trace of what stood there, so nothing is put back.
    fn least(&mut self, budget: Duration) -> [f64; SIDES] {
        let mut best = [f64::MAX; SIDES];
        let (start, mut rounds) = (Instant::now(), 0);
        while rounds < 12 || start.elapsed() < budget && rounds < 2_000 {
            for side in (0..SIDES).map(|i| (i + rounds) % SIDES) {
                let now = Instant::now();
                self.make(side);
                best[side] = best[side].min(now.elapsed().as_nanos() as f64);
            }
            rounds += 1;
        }
        best
    }
}

pub fn lent(host: &mut Host) -> Lent {
    let (elems, shared): (*mut [u64], *mut [u64]) = (&mut host.elems[..], &mut host.shared[..]);
    Lent { head: &mut host.head, elems, shared, buffer: &mut [], out: std::ptr::null_mut() }
}

fn lent_to_read(host: &Host) -> Source<'_> {
    Source { head: &host.head, elems: &host.elems, shared: &host.shared }
}

fn copy_oracle(target: &mut Oracle, source: &Oracle) {
    target.clone_from_with(source, |_, payload| *payload, |_, value| *value).unwrap();
}

/// Full tables in rings of four, every other of them gone, and one ring in shuffled order; an empty study.
pub fn table() {
    println!(
        "\nA study copied, ns a slot; `alone` is the archive's call less its check. The oracle's copy has no check."
    );
    print!("{:<26}{:>7}", "", "slots");
    ["archive", "check", "alone", "rust", "rows", "oracle"].iter().for_each(|column| print!("{column:>12}"));
    println!("{:>12}{:>12}{:>12}", "a/rust", "alone/rows", "a/o");
    for n in SIZES {
        for (name, source) in shapes(n) {
            let [archive, check, rust, rows, oracle] =
                Copy::of(source).least(Duration::from_millis(150)).map(|time| time / n as f64);
            let alone = archive - check;
            print!("{name:<26}{n:>7}");
            [archive, check, alone, rust, rows, oracle].iter().for_each(|time| print!("{time:>12.2}"));
            println!("{:>12.2}{:>12.2}{:>12.2}", archive / rust, alone / rows, archive / oracle);
        }
    }
}
