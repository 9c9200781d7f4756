//! A study moved to other tables of the same size: the archive's call and its checks alone, the same in plain Rust, the move alone on
//! rows, and the Rust's own `transfer_canonical_reallocating`, to an arena that has the room already.

use crate::copies::lent;
use crate::measure::shuffled_ring;
use crate::sides::{Bed, Oracle, Side};
use archive::Host;
use archive::transfers::transfer_at;
use model::door::Call;
use model::{Head, Rows, Study, check, transfer};
use std::hint::black_box;
use std::num::NonZeroU32;
use std::time::{Duration, Instant};

const SIZES: [usize; 3] = [512, 4_096, 65_536];

/// Where times stand: the archive's call, its checks, the call in plain Rust, the move alone on rows, the oracle's.
pub const SIDES: usize = 5;
/// What the frames get.
const GENERATION: u32 = 9;

pub struct Move {
    source: Bed,
    target: Bed,
}

impl Move {
    pub fn of(source: Bed) -> Move {
        let n = source.host.head[0] as usize;
        Move { source, target: Bed::new(n, 0, 1) }
    }

    fn restored(&self) -> Move {
        Move { source: self.source.restored(), target: self.target.restored() }
    }

    pub fn make(&mut self, side: usize) {
        let (from, to, mut out) = (&mut self.source.host, &mut self.target.host, [0]);
        match side {
            // Safety: target and source are apart, and borrowed mutably
            0 => assert_eq!(unsafe { transfer_at(lent(to), GENERATION, lent(from), out.as_mut_ptr()) }, 0),
            1 => [&mut self.source, &mut self.target]
                .map(|bed| bed.make(Side::Archive, &[Call::Check]))
                .into_iter()
                .collect(),
            2 => assert_eq!(transfer::run(check::sound, study(to), GENERATION, study(from), &mut out), 0),
            3 => {
                let (mut head, mut left) = (Head::of(&to.head), Head::of(&from.head));
                let mut source = Rows { head: &mut left, elems: &mut from.elems, shared: &mut from.shared };
                let mut rows = Rows { head: &mut head, elems: &mut to.elems, shared: &mut to.shared };
                assert_eq!(rows.transfer_canonical(GENERATION, &mut source), Ok(false));
                (to.head, from.head) = (head.numbers(), left.numbers());
            }
            _ => move_oracle(&mut self.target.oracle, &mut self.source.oracle),
        }
        black_box(&mut self.target.host);
    }

    /// Nanoseconds of each side: the least of many rounds. What a move takes from its source is put back before the next.
    fn least(&self, budget: Duration) -> [f64; SIDES] {
        let (mut best, mut both) = ([f64::MAX; SIDES], self.restored());
        let (start, mut rounds) = (Instant::now(), 0);
        while rounds < 12 || start.elapsed() < budget && rounds < 2_000 {
            for side in (0..SIDES).map(|i| (i + rounds) % SIDES) {
                let own = if side == SIDES - 1 { Side::Oracle } else { Side::Archive };
                both.source.restore(&self.source, own);
                both.target.restore(&self.target, own);
                let now = Instant::now();
                both.make(side);
                best[side] = best[side].min(now.elapsed().as_nanos() as f64);
            }
            rounds += 1;
        }
        best
    }
}

fn study(host: &mut Host) -> Study<'_> {
    Study { head: &mut host.head, elems: &mut host.elems, shared: &mut host.shared }
}

fn move_oracle(target: &mut Oracle, source: &mut Oracle) {
    let generation = NonZeroU32::new(GENERATION).unwrap();
    target.transfer_canonical_reallocating(generation, source, |_, payload, _| payload.allow(), |value| value).unwrap();
}

/// What is moved: full tables in rings of four, every other of them gone, one ring in shuffled order; an empty study.
pub fn shapes(n: usize) -> [(&'static str, Bed); 4] {
    [
        ("rings of four", Bed::new(n, n, 4)),
        ("rings of four, half gone", Bed::with_holes(n, 4, 2)),
        ("one ring, shuffled", shuffled_ring(n)),
        ("no frame", Bed::new(n, 0, 1)),
    ]
}

pub fn table() {
    println!(
        "\nA study moved, ns a slot; `alone` is the archive's call less its two checks. The oracle's move has no check."
    );
    print!("{:<26}{:>7}", "", "slots");
    ["archive", "checks", "alone", "rust", "rows", "oracle"].iter().for_each(|column| print!("{column:>12}"));
    println!("{:>12}{:>12}{:>12}", "a/rust", "alone/rows", "alone/o");
    for n in SIZES {
        for (name, source) in shapes(n) {
            let times = Move::of(source).least(Duration::from_millis(150));
            let [archive, check, rust, rows, oracle] = times.map(|time| time / n as f64);
            let alone = archive - check;
            print!("{name:<26}{n:>7}");
            [archive, check, alone, rust, rows, oracle].iter().for_each(|time| print!("{time:>12.2}"));
            println!("{:>12.2}{:>12.2}{:>12.2}", archive / rust, alone / rows, alone / oracle);
        }
    }
}
