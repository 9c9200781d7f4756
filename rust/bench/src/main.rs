//! `bench`: each call of the archive beside the plain Rust rows arena and the oracle. `bench door`: the soundness check and
//! what a host call adds to it. `bench clear`: clear by extent. `bench compress`: compression as tables grow. `bench compress_with`:
//! compression in slot order as tables grow. `bench clone`: copies. `bench move`: moves. `bench files`: run files. `bench count`: instructions.
//! All times of a line are from the same rounds, but for the oracle's compression in slot order; ratios are what to read.

mod copies;
mod count;
mod files;
mod measure;
mod moves;
mod sides;

use measure::{Batch, least, least_of};
use measure::{
    checks, compressions, count_and_list, ordered_compressions, single_calls, union_and_undo, unions, whole_calls,
};
use sides::Side::{self, Archive, Door, InPlace, Oracle, Rows};
use std::time::Duration;

const SIZES: [usize; 3] = [512, 4_096, 65_536];

/// A line: nanoseconds of each side, then ratios of pairs of them.
fn line(batch: &Batch, n: usize, sides: &[Side], ratios: &[(usize, usize)], budget: Duration) -> Vec<f64> {
    let times = least(batch, sides, budget);
    print!("{:<26}{n:>7}", batch.name);
    times.iter().for_each(|time| print!("{:>12}", shown(*time)));
    ratios.iter().for_each(|(a, b)| print!("{:>10.2}", times[*a] / times[*b]));
    println!();
    times
}

fn shown(nanoseconds: f64) -> String {
    if nanoseconds < 100.0 { format!("{nanoseconds:.1}") } else { format!("{nanoseconds:.0}") }
}

fn head(title: &str, columns: &[&str]) {
    println!("\n{title}");
    print!("{:<26}{:>7}", "", "slots");
    for column in columns {
        print!("{:>width$}", column, width = if column.contains('/') { 10 } else { 12 });
    }
    println!();
}

fn calls() {
    let budget = Duration::from_millis(60);
    head(
        "Host calls, ns a call: shape, check and call. `rust` is the same in plain Rust.",
        &["archive", "rust", "a/rust"],
    );
    for n in SIZES {
        // a call takes as long as its check: few are enough
        for batch in single_calls(n, 65_536 / n) {
            line(&batch, n, &[Archive, Door], &[(0, 1)], budget);
        }
        line(&count_and_list(n, 65_536 / n), n, &[Archive, Door], &[(0, 1)], budget);
        line(&union_and_undo(n, 65_536 / n), n, &[Archive, Door], &[(0, 1)], budget);
    }
    head("The head lent in place, ns a call, beside the head as numbers.", &["in place", "archive", "i/a"]);
    let is_writers = |batch: &&Batch| ["insert", "remove_element"].contains(&batch.name);
    for n in SIZES {
        for batch in single_calls(n, 65_536 / n).iter().filter(is_writers) {
            line(batch, n, &[InPlace, Archive], &[(0, 1)], budget);
        }
    }
    head("Calls alone, ns a call: rows arena in plain Rust, and the oracle.", &["rows", "oracle", "r/o"]);
    for n in SIZES {
        for batch in single_calls(n, 128) {
            line(&batch, n, &[Rows, Oracle], &[(0, 1)], budget);
        }
        line(&count_and_list(n, 128), n, &[Rows, Oracle], &[(0, 1)], budget);
        line(&union_and_undo(n, 8), n, &[Rows, Oracle], &[(0, 1)], budget);
        line(&unions(n), n, &[Rows, Oracle], &[(0, 1)], budget);
    }
    head(
        "Whole tables, ns a frame. `rust` has the check too, `rows` and the oracle have not.",
        &["archive", "rust", "rows", "oracle", "a/rust", "a/rows", "a/o"],
    );
    for n in SIZES {
        for batch in whole_calls(n) {
            line(&batch, n, &[Archive, Door, Rows, Oracle], &[(0, 1), (0, 2), (0, 3)], budget);
        }
    }
    let n = SIZES[0];
    line(&unions(n), n, &[Archive, Door, Rows, Oracle], &[(0, 1), (0, 2), (0, 3)], 8 * budget);
}

fn door() {
    let budget = Duration::from_millis(150);
    head("The check, ns: the same algorithm in plain Rust at -O.", &["archive", "rust", "a/rust"]);
    let mut per_slot = vec![];
    for n in [4, 512, 4_096, 65_536] {
        for batch in checks(n) {
            let times = line(&batch, n, &[Archive, Door], &[(0, 1)], budget);
            per_slot.push((batch.name, n, times[0] / n as f64));
        }
    }
    println!("\nns a slot as the tables grow");
    for (name, n, time) in per_slot.iter().filter(|(name, ..)| name.contains("ring")) {
        println!("{name:<26}{n:>7}{time:>12.2}");
    }
    println!("\nWhat a call adds to its check, ns (4 slots, one frame)");
    println!("{:<26}{:>12}{:>12}{:>14}{:>12}", "", "archive", "rust", "archive adds", "rust adds");
    let bed = || sides::Bed::new(4, 1, 1);
    let key = model::Key { slot: 1, generation: 1 };
    let times = |call| least(&Batch { name: "", bed: bed(), calls: vec![call; 1], per: 1 }, &[Archive, Door], budget);
    let many = |call| {
        let batch = Batch { name: "", bed: bed(), calls: vec![call; 200], per: 200 };
        least(&batch, &[Archive, Door], budget)
    };
    use model::door::Call;
    let check = many(Call::Check);
    for (name, call) in [("check", Call::Check), ("get", Call::Get(key)), ("set_shared", Call::SetShared(key, 1))] {
        let t = many(call);
        println!("{name:<26}{:>12.1}{:>12.1}{:>14.1}{:>12.1}", t[0], t[1], t[0] - check[0], t[1] - check[1]);
    }
    // these change the state, so each round makes one; the clock's own cost is in all of them
    let check = times(Call::Check);
    for (name, call) in [
        ("insert_surject, once", Call::InsertSurject { payload: 1, value: 2, size: sides::BYTES }),
        ("insert, once", Call::Insert(key, 1, sides::BYTES)),
        ("remove_element, once", Call::RemoveElement(key)),
        ("clear, once", Call::Clear),
        ("compress_canonical, once", Call::CompressCanonical { reset: 0 }),
        ("compress_with, once", Call::CompressWith { reset: 0 }),
    ] {
        let t = times(call);
        println!("{name:<26}{:>12.1}{:>12.1}{:>14.1}{:>12.1}", t[0], t[1], t[0] - check[0], t[1] - check[1]);
    }
}

/// Clear goes up to the extents: what it adds to its check follows them, and not the capacity.
fn clear() {
    let budget = Duration::from_millis(400);
    println!("\nClear at 65,536 slots, us; `adds` is the call less its check. The oracle's clear has no check.");
    print!("{:<12}", "extent");
    ["archive", "check", "adds", "rust", "check", "adds", "oracle"].iter().for_each(|column| print!("{column:>12}"));
    println!("{:>10}{:>10}", "call/check", "a/rust");
    for extent in [0, 16, 1_024, 65_536] {
        let times = |call, sides: &[Side]| {
            let batch = Batch { name: "", bed: sides::Bed::new(65_536, extent, 1), calls: vec![call], per: 1_000 };
            least(&batch, sides, budget)
        };
        let call = times(model::door::Call::Clear, &[Archive, Door, Oracle]);
        let check = times(model::door::Call::Check, &[Archive, Door]);
        print!("{extent:<12}");
        [call[0], check[0], call[0] - check[0], call[1], check[1], call[1] - check[1], call[2]]
            .iter()
            .for_each(|time| print!("{time:>12.2}"));
        println!("{:>10.2}{:>10.2}", call[0] / check[0], call[0] / call[1]);
    }
}

/// A compression as the tables grow. Where the oracle takes the square of what moves, it has rounds of its own, and few.
fn compress(title: &str, batches: fn(usize) -> Vec<Batch>, is_square: bool) {
    let budget = Duration::from_millis(150);
    println!("\n{title}, ns a frame; `alone` is the archive's call less its check.");
    print!("{:<26}{:>7}", "", "slots");
    ["archive", "check", "alone", "rows", "oracle"].iter().for_each(|column| print!("{column:>12}"));
    println!("{:>12}{:>12}", "alone/rows", "alone/o");
    for n in [1_024, 8_192, 65_536] {
        for batch in batches(n) {
            let times = if is_square {
                [least(&batch, &[Archive, Rows], budget), least_of(2, &batch, &[Oracle], budget)].concat()
            } else {
                least(&batch, &[Archive, Rows, Oracle], budget)
            };
            let check = least(&Batch { calls: vec![model::door::Call::Check], ..batch }, &[Archive], budget)[0];
            let (archive, rows, oracle) = (times[0], times[1], times[2]);
            let alone = archive - check;
            print!("{:<26}{n:>7}", batch.name);
            [archive, check, alone, rows, oracle].iter().for_each(|time| print!("{:>12}", shown(*time)));
            println!("{:>12.2}{:>12.4}", alone / rows, alone / oracle);
        }
    }
}

fn compress_canonical() {
    compress("Compression", compressions, false);
}

fn compress_with() {
    compress("Compression in slot order", ordered_compressions, true);
}

fn main() {
    let words: Vec<String> = std::env::args().skip(1).collect();
    if let [word, batch, side] = &words[..]
        && word == "once"
    {
        return count::once(batch.parse().unwrap(), side.parse().unwrap());
    }
    if let [word, numbers @ ..] = &words[..]
        && word == "repeat"
    {
        let numbers: Vec<usize> = numbers.iter().map(|number| number.parse().unwrap()).collect();
        return files::repeat(numbers[0], numbers[1], numbers[2], numbers[3]);
    }
    let on = if cfg!(feature = "mock") {
        "the MOCK: the figures of `archive` say nothing"
    } else {
        "target/staticlib/libhost.a"
    };
    println!("archive: {on}");
    match words.first().map(String::as_str) {
        None => {
            calls();
            door();
            clear();
            compress_canonical();
            compress_with();
            copies::table();
            moves::table();
            files::table();
            count::table();
        }
        Some("door") => door(),
        Some("clear") => clear(),
        Some("compress") => compress_canonical(),
        Some("compress_with") => compress_with(),
        Some("clone") => copies::table(),
        Some("move") => moves::table(),
        Some("files") => files::table(),
        Some("count") => count::table(),
        Some(_) => {
            eprintln!("usage: bench [door|clear|compress|compress_with|clone|move|files|count]");
            std::process::exit(2);
        }
    }
}
