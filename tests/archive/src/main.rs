//! `archive [CALLS] [SEED]`: a seeded run of random calls on the archive against the model, every number compared.
//! `archive chains [CASES] [SEED]`: the same of states whose free chains were cut, or joined otherwise.
//! `archive memories [CASES] [SEED]`: the same of states whose head was made to remember a union.
//! `archive files [CASES] [SEED]`: run files of random studies, most of them changed, read, and written again, against an independent
//! reader and writer.

use std::{env, time::Instant};

fn main() {
    let mut words = env::args().skip(1).peekable();
    let states = words.next_if(|word| ["chains", "memories", "files"].contains(&word.as_str()));
    let mut numbers = words.map(|word| word.parse::<u64>().expect("CALLS, CASES and SEED are numbers"));
    let (many, seed) = (numbers.next().unwrap_or(1_000_000), numbers.next().unwrap_or(1));
    let start = Instant::now();
    let tally = match states.as_deref() {
        Some("chains") => archive::chains::compare(many, seed),
        Some("files") => {
            show(&archive::mutated::compare(many, seed));
            Default::default()
        }
        Some(_) => archive::memories::compare(many, seed),
        None => {
            println!("{}", archive::random::compare(many, seed));
            Default::default()
        }
    };
    for (what, [sound, unsound]) in tally {
        println!("{what:<40}{sound:>9} sound{unsound:>9} unsound");
    }
    let on = if cfg!(feature = "mock") { "the MOCK (not the proved archive)" } else { "the archive" };
    if !doorsedge::sys::MISSING.is_empty() {
        println!("NOT COMPARED, since the archive lacks them: {}", doorsedge::sys::MISSING.join(", "));
    }
    let what = match states.as_deref() {
        Some("files") => "files",
        Some(_) => "states",
        None => "calls",
    };
    println!("{many} {what} on {on}, seed {seed}, 0 differences, {:.1} s", start.elapsed().as_secs_f64());
}

/// Files by what was done to them and by the number that they were refused with.
fn show(tally: &archive::mutated::Tally) {
    println!(
        "{:<26}{:>10}{:>10}{:>10}{:>10}{:>10}{:>10}",
        "files", "accepted", "ref. 1", "ref. 9", "ref. 11", "ref. 6", "ref. 5"
    );
    for (what, counts) in tally {
        print!("{what:<26}");
        [0, 1, 9, 11, 6, 5].iter().for_each(|number| print!("{:>10}", counts.get(number).unwrap_or(&0)));
        println!();
    }
}
