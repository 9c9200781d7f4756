//! A study written as a run file, and read: the archive's entries beside a plain Rust encoder and decoder of the same format over the same
//! tables, in one run. Both writers check the study and both readers the file.

use crate::measure::shuffled_ring;
use crate::sides::{Bed, Side};
use archive::Host;
use doorsedge::sys::{doorsedge_read_file, doorsedge_write_file};
use model::door::Call;
use model::file::{self, file_len};
use model::{Head, check};
use std::hint::black_box;
use std::time::{Duration, Instant};

const SIZES: [usize; 2] = [1_024, 65_536];

/// Where times stand: the archive's writer, the same in plain Rust; the archive's check, the Rust's; the Rust's encoder alone; the
/// archive's reader, the Rust's; the Rust's test of the file alone.
const SIDES: usize = 8;

/// A study, its file, and the tables that it is read into.
pub struct Filed {
    source: Bed,
    target: Host,
    file: Vec<u8>,
    right: Vec<u8>,
}

impl Filed {
    pub fn of(source: Bed) -> Filed {
        let head = source.host.head;
        let target = Host::fresh(head[0], head[4]);
        let file = vec![0; file_len(head[7] as usize, head[3] as usize)];
        let mut filed = Filed { source, target, right: file.clone(), file };
        filed.make(1);
        filed.right.copy_from_slice(&filed.file);
        filed
    }

    pub fn make(&mut self, side: usize) {
        let (from, to) = (&mut self.source.host, &mut self.target);
        match side {
            0 => write(from, &mut self.file),
            1 => {
                let said = file::write(check::sound, &from.head, &from.elems, &from.shared, &mut self.file);
                assert_eq!(said, Ok(self.right.len() as u64));
            }
            2 => self.source.make(Side::Archive, &[Call::Check]),
            3 => self.source.make(Side::Door, &[Call::Check]),
            4 => file::encode(&Head::of(&from.head), &from.elems, &from.shared, &mut self.file),
            5 => read(to, &self.right),
            6 => assert!(file::read(&mut to.head, &mut to.elems, &mut to.shared, &self.right).is_ok()),
            _ => assert!(black_box(file::test(&self.right)).is_ok()),
        }
        black_box((&mut self.file, &mut self.target));
    }

    /// Nanoseconds of each side: the least of many rounds. What a side leaves is what every other leaves.
    fn least(&mut self, budget: Duration) -> [f64; SIDES] {
        let mut best = [f64::MAX; SIDES];
        let (start, mut rounds) = (Instant::now(), 0);
        while rounds < 12 || start.elapsed() < budget && rounds < 2_000 {
            for side in (0..SIDES).map(|i| (i + rounds) % SIDES) {
                let now = Instant::now();
                self.make(side);
                best[side] = best[side].min(now.elapsed().as_nanos() as f64);
            }
            rounds += 1;
        }
        assert!(self.file == self.right, "the writers differ");
        best
    }
}

fn write(host: &Host, file: &mut [u8]) {
    let (e, s, mut out) = (&host.elems, &host.shared, [0]);
    // Safety: pointers and lengths are those of slices, the bytes and `out` are borrowed mutably
    let said = unsafe {
        doorsedge_write_file(
            &host.head,
            e.as_ptr(),
            e.len(),
            s.as_ptr(),
            s.len(),
            file.as_mut_ptr(),
            file.len(),
            &mut out,
        )
    };
    assert_eq!((said, out), (0, [file.len() as u64]));
}

fn read(host: &mut Host, file: &[u8]) {
    let (e, s) = (&mut host.elems, &mut host.shared);
    // Safety: as above
    let said = unsafe {
        doorsedge_read_file(&mut host.head, e.as_mut_ptr(), e.len(), s.as_mut_ptr(), s.len(), file.as_ptr(), file.len())
    };
    assert_eq!(said, 0);
}

/// Full tables.
fn shapes(n: usize) -> Vec<(&'static str, Bed)> {
    vec![
        ("rings of one", Bed::new(n, n, 1)),
        ("rings of four", Bed::new(n, n, 4)),
        ("one ring, shuffled", shuffled_ring(n)),
    ]
}

pub fn table() {
    println!("\nA study written as a run file and read, ns a frame; `alone` is the archive's write less its check.");
    print!("{:<20}{:>7}", "", "frames");
    let columns = ["write", "rust", "check", "rust check", "alone", "encode", "read", "rust", "rust test"];
    columns.iter().for_each(|column| print!("{column:>12}"));
    println!("{:>12}{:>12}{:>12}", "w/rust", "alone/enc", "r/rust");
    for n in SIZES {
        for (name, source) in shapes(n) {
            let [write, rust, check, rust_check, encode, read, rust_read, test] =
                Filed::of(source).least(Duration::from_millis(250)).map(|time| time / n as f64);
            let alone = write - check;
            print!("{name:<20}{n:>7}");
            [write, rust, check, rust_check, alone, encode, read, rust_read, test]
                .iter()
                .for_each(|time| print!("{time:>12.2}"));
            println!("{:>12.2}{:>12.2}{:>12.2}", write / rust, alone / encode, read / rust_read);
        }
    }
}

/// Makes one side so many times, of the shape and size by their places: what a counter of instructions is given.
pub fn repeat(shape: usize, size: usize, side: usize, times: usize) {
    let (_, source) = shapes(SIZES[size]).swap_remove(shape);
    let mut filed = Filed::of(source);
    (0..times).for_each(|_| filed.make(side));
}
