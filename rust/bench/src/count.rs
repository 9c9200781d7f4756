//! Instructions by callgrind, where time is too noisy: they are the same in every run, so a call's own are its host call's
//! less the check's.

use crate::measure::{Batch, checks, single_calls};
use crate::moves::{Move, shapes};
use crate::sides::Side;
use model::door::Call;
use std::process::Command;

/// What is counted is what runs in here.
#[unsafe(no_mangle)]
#[inline(never)]
fn bench_counted(make: &mut dyn FnMut()) {
    make();
}

const SLOTS: usize = 512;
/// From this number on, batches are those of the check.
const CHECKS: usize = 100;
/// From this number on, those of the move.
const MOVES: usize = 200;

/// The batches that are counted: the calls, and a check of the same tables.
fn batches() -> Vec<Batch> {
    // one call each, so that every check is of the same state
    let mut batches = single_calls(SLOTS, 1);
    let bed = || batches[0].bed.restored();
    let check = Batch { name: "check", bed: bed(), calls: vec![Call::Check], per: 1 };
    let nothing = Batch { name: "nothing", bed: bed(), calls: vec![], per: 1 };
    batches.splice(0..0, [nothing, check]);
    batches
}

/// Runs one batch on one side, once: what callgrind is given.
pub fn once(batch: usize, side: usize) {
    if batch >= MOVES {
        let (_, source) = shapes(SLOTS).into_iter().nth(batch - MOVES).unwrap();
        let mut both = Move::of(source);
        return bench_counted(&mut || both.make(side));
    }
    let all = if batch < CHECKS { batches() } else { checks(SLOTS) };
    let batch = &all[batch % CHECKS];
    let side = [Side::Archive, Side::Door, Side::Rows, Side::Oracle][side];
    let mut bed = batch.bed.restored();
    bench_counted(&mut || bed.make(side, &batch.calls));
}

/// Instructions for each call of a batch.
fn counted(batch: usize, side: usize, per: usize) -> Option<f64> {
    let out = Command::new("valgrind")
        .args(["--tool=callgrind", "--callgrind-out-file=/dev/null", "--toggle-collect=bench_counted"])
        .arg(std::env::current_exe().ok()?)
        .args(["once", &batch.to_string(), &side.to_string()])
        .output()
        .ok()?;
    let said = String::from_utf8_lossy(&out.stderr);
    let line = said.lines().find(|line| line.contains("Collected"))?;
    line.split(':').nth(1)?.trim().parse::<f64>().ok().map(|all| all / per as f64)
}

pub fn table() {
    println!("\nInstructions a call, {SLOTS} slots, half of them in rings of four (callgrind)");
    println!(
        "`adds` is the host call less its check; `rows`, which checks nothing, is its call less the choice of it."
    );
    let columns = ["archive", "rust", "archive adds", "rust adds", "rows", "oracle", "a/r adds", "a adds/rows"];
    print!("{:<20}", "");
    columns.iter().for_each(|column| print!("{column:>14}"));
    println!();
    let count = |at, side| counted(at, side, 1).unwrap_or(f64::NAN);
    // what the loop over the calls takes is no call's own
    let nothing = [0, 1, 2, 3].map(|side| count(0, side));
    let check = (count(1, 0) - nothing[0], count(1, 1) - nothing[1]);
    let choice = count(1, 2) - nothing[2];
    println!("{:<20}{:>14.0}{:>14.0}", "check", check.0, check.1);
    for (at, batch) in batches().iter().enumerate().skip(2) {
        let count = |side: usize| count(at, side) - nothing[side];
        let (archive, rust) = (if batch.is_there() { count(0) } else { f64::NAN }, count(1));
        let (adds, rust_adds, rows, oracle) = (archive - check.0, rust - check.1, count(2) - choice, count(3));
        println!(
            "{:<20}{archive:>14.0}{rust:>14.0}{adds:>14.0}{rust_adds:>14.0}{rows:>14.0}{oracle:>14.0}{:>14.2}{:>14.2}",
            batch.name,
            adds / rust_adds,
            adds / rows
        );
    }
    println!("\nThe check, instructions a slot (callgrind)");
    println!("{:<26}{:>12}{:>12}{:>10}", "", "archive", "rust", "a/rust");
    for (at, batch) in checks(SLOTS).iter().enumerate() {
        let count = |side| counted(at + CHECKS, side, batch.per * SLOTS).unwrap_or(f64::NAN);
        let (archive, rust) = (count(0), count(1));
        println!("{:<26}{archive:>12.1}{rust:>12.1}{:>10.2}", batch.name, archive / rust);
    }
    println!("\nA move, instructions a slot (callgrind); `alone` is the archive's call less its two checks");
    let columns = ["archive", "checks", "rust", "rows", "oracle", "alone", "a/rust", "alone/rows"];
    print!("{:<26}", "");
    columns.iter().for_each(|column| print!("{column:>12}"));
    println!();
    for (at, (name, _)) in shapes(SLOTS).iter().enumerate() {
        let sides = [0, 1, 2, 3, 4].map(|side| counted(at + MOVES, side, SLOTS).unwrap_or(f64::NAN));
        let alone = sides[0] - sides[1];
        print!("{name:<26}");
        sides.iter().chain([&alone]).for_each(|count| print!("{count:>12.1}"));
        println!("{:>12.2}{:>12.2}", sides[0] / sides[2], alone / sides[3]);
    }
}
