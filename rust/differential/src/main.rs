//! Drives the oracle and the archive with the same calls, and compares what they say and hold after each.
//!
//! `differential [CASES] [SEED] [--length N] [--fault NAME]`: all sequences of up to N calls (5), the adversarial cases, then
//! CASES random sequences. Exit status 0: no difference; 1: a difference, shown by the smallest sequence that has it; 2: bad usage.
//!
//! `differential sample SEQUENCES SEED` writes a fixed sample of the oracle's answers ([sample]).

mod adversarial;
mod calls;
mod causes;
mod compare;
mod copies;
mod files;
mod frames;
mod generate;
mod joins;
mod moves;
mod ordered;
mod pair;
mod reads;
mod run;
mod sample;
mod seal;
mod totals;
mod whole;

use calls::{Call, Case, KINDS};
use generate::Random;
use pair::{Fault, Tally};
use run::{Difference, Way};
use std::io::{IsTerminal, Write};
use std::process::exit;
use std::time::{Duration, Instant};

struct Args {
    cases: u64,
    seed: u64,
    length: usize,
    fault: Fault,
}

const USAGE: &str = "usage: differential [CASES] [SEED] [--length N] [--fault equal|run|map|further|seal|ring|pairs|headers|cause|size|sizes|undo|kept|clone|move|left|file]";

fn args() -> Option<Args> {
    let mut args = Args { cases: 20_000, seed: 1, length: 5, fault: Fault::None };
    let (mut words, mut numbers) = (std::env::args().skip(1), 0);
    while let Some(word) = words.next() {
        match word.as_str() {
            "--length" => args.length = words.next()?.parse().ok()?,
            "--fault" => {
                args.fault = match words.next()?.as_str() {
                    "equal" => Fault::EqualSwapped,
                    "run" => Fault::RunStays,
                    "map" => Fault::MapCrossed,
                    "further" => Fault::OneFurther,
                    "seal" => Fault::Unsealed,
                    "ring" => Fault::SealedElsewhere,
                    "pairs" => Fault::PairsCrossed,
                    "headers" => Fault::HeadersCrossed,
                    "cause" => Fault::KeysSwapped,
                    "size" => Fault::SizeOff,
                    "sizes" => Fault::SizesCrossed,
                    "undo" => Fault::UndoneValue,
                    "kept" => Fault::SetKeepsUndo,
                    "clone" => Fault::ChainReversed,
                    "move" => Fault::MovedElsewhere,
                    "left" => Fault::SourceKept,
                    "file" => Fault::FramesExchanged,
                    _ => return None,
                }
            }
            number => {
                *[&mut args.cases, &mut args.seed].into_iter().nth(numbers)? = number.parse().ok()?;
                numbers += 1;
            }
        }
    }
    Some(args)
}

/// Counts what was met, and shows where the run is.
struct Progress {
    tally: Tally,
    start: Instant,
    shown: Instant,
}

impl Progress {
    fn add(&mut self, phase: &str, tally: &Tally) {
        let all = &mut self.tally;
        all.sequences += tally.sequences;
        all.compared += tally.compared;
        for (sum, counts) in all.calls.iter_mut().zip(tally.calls) {
            sum.iter_mut().zip(counts).for_each(|(sum, n)| *sum += n);
        }
        all.causes.iter_mut().zip(tally.causes).for_each(|(sum, n)| *sum += n);
        all.longest_ring = all.longest_ring.max(tally.longest_ring);
        all.largest_union = all.largest_union.max(tally.largest_union);
        all.largest_total = all.largest_total.max(tally.largest_total);
        if self.shown.elapsed() > Duration::from_millis(200) {
            self.shown = Instant::now();
            self.line(&format!("{phase}: {} sequences, {} calls", self.tally.sequences, calls_made(&self.tally)));
        }
    }

    fn line(&self, text: &str) {
        if std::io::stderr().is_terminal() {
            eprint!("\r{text:<78}");
            let _ = std::io::stderr().flush();
        }
    }
}

fn calls_made(tally: &Tally) -> u64 {
    tally.calls.iter().flatten().sum()
}

/// Whether both sides put a new frame on the same side of its target: three frames tell.
fn measured_side() -> bool {
    let calls =
        vec![Call::InsertSurject(0, 1, 2, 0), Call::Insert(0, 1, 3, 0), Call::Insert(0, 2, 4, 0), Call::List(0)];
    let way = Way { ordered: true, fault: Fault::None };
    way.run(&Case { elems: 3, shared: 1, others: [1, 1], calls, stride: 4 }).is_ok()
}

fn all(args: &Args, way: &Way, progress: &mut Progress) -> Result<(), (Case, Difference)> {
    for (elems, shared, others) in [(3, 3, [2, 1]), (5, 4, [5, 4])] {
        let mut case = Case { elems, shared, others, calls: vec![], stride: usize::MAX };
        generate::every(way, &mut case, args.length, &mut |tally| progress.add("all short sequences", tally))?;
    }
    for (name, case) in adversarial::adversarial(args.seed, 4_096) {
        match way.run(&case) {
            Ok(tally) => progress.add(name, &tally),
            Err(difference) => return Err((case, difference)),
        }
    }
    let r = &mut Random::new(args.seed);
    for _ in 0..args.cases {
        progress.add("random sequences", &generate::random(way, r)?);
    }
    Ok(())
}

fn summary(args: &Args, way: &Way, progress: &Progress) {
    let tally = &progress.tally;
    let against = if cfg!(feature = "mock") { "the MOCK, not the proved archive" } else { "the archive" };
    println!("Differential run: the Rust (three files over a stand-in) against {against}");
    print!("{:<20}", "call");
    ["accepted", "refused 3", "refused 4", "refused 12", "refused 10", "refused 5", "refused 6", "refused 13"]
        .iter()
        .for_each(|column| print!("{column:>12}"));
    println!();
    for (name, counts) in KINDS.iter().zip(tally.calls) {
        print!("{name:<20}");
        counts.iter().for_each(|count| print!("{count:>12}"));
        println!();
    }
    println!(
        "{:<20}{:>12} in {} sequences, all frames compared {} times",
        "calls",
        calls_made(tally),
        tally.sequences,
        tally.compared
    );
    let [none, free, old] = tally.causes;
    println!("{:<20}{none:>12} no slot{free:>12} free slot{old:>12} other generation", "refused 3 by cause");
    println!("{:<20}{:>12}", "longest ring", tally.longest_ring);
    println!("{:<20}{:>12}", "largest union", tally.largest_union);
    println!("{:<20}{:>12} bytes", "largest total", tally.largest_total);
    let side = if way.ordered { "the same: rings in order" } else { "DIFFERENT: rings as sets" };
    println!("{:<20}{side}", "insert's side");
    if !doorsedge::sys::MISSING.is_empty() {
        println!("{:<20}{}", "NOT IN THE ARCHIVE", doorsedge::sys::MISSING.join(", "));
    }
    println!("{:<20}cases {}, seed {}, length {}, {:?}", "run", args.cases, args.seed, args.length, args.fault);
    println!("{:<20}{:>12.1}", "seconds", progress.start.elapsed().as_secs_f64());
}

/// `sample SEQUENCES SEED`: the sample's bytes to the standard output.
fn write_sample(words: &[String]) -> Option<()> {
    let [_, sequences, seed] = words else { return None };
    let bytes = sample::sample(sequences.parse().ok()?, seed.parse().ok()?, measured_side());
    match bytes {
        Ok(bytes) => std::io::stdout().write_all(&bytes).ok(),
        Err(what) => {
            eprintln!("the sides differ: {what}");
            exit(1);
        }
    }
}

fn main() {
    let words: Vec<String> = std::env::args().skip(1).collect();
    if words.first().is_some_and(|word| word == "sample") {
        if write_sample(&words).is_none() {
            eprintln!("usage: differential sample SEQUENCES SEED");
            exit(2);
        }
        return;
    }
    let Some(args) = args() else {
        eprintln!("{USAGE}");
        exit(2);
    };
    std::panic::set_hook(Box::new(|_| {}));
    let way = Way { ordered: measured_side(), fault: args.fault };
    let mut progress = Progress { tally: Tally::default(), start: Instant::now(), shown: Instant::now() };
    let found = all(&args, &way, &mut progress);
    progress.line("");
    progress.line("");
    summary(&args, &way, &progress);
    match found {
        Ok(()) => println!("no difference"),
        Err((case, difference)) => {
            let calls = case.calls.len();
            let (case, difference) = way.shrink(&case, difference);
            println!(
                "A DIFFERENCE, found after {calls} calls; the smallest sequence that shows it:\n{case}\n-- {}",
                difference.what
            );
            exit(1);
        }
    }
}
