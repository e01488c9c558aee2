//! Compares every service of the static library with an independent implementation of document 01.

#![deny(unsafe_code)]

mod besides;
mod boxing;
mod chips;
mod counting;
mod damage;
mod fits;
mod fitting;
mod generating;
#[allow(unsafe_code)]
mod library;
mod marked;
mod measures;
mod measuring;
mod placing;
mod quoting;
mod random;
mod reading;
mod records;
mod report;
mod texts;
mod trying;

use std::env;
use std::process::ExitCode;
use std::thread;

use library::{NO, YES};
use placing::{BOXES, DESK, PAGE};
use random::Random;
use report::{grouped, Difference, Tally};

const SEED: u64 = 1;

/// An answer that should come up and came up less often than this is reported.
const LEAST: u64 = 20;

const THREADS: u64 = 4;
/// The stack of a thread, as the interface asks for it.
const STACK: usize = 8 << 20;

fn main() -> ExitCode {
    let seed = match env::args().nth(1).map(|word| word.parse()) {
        None => SEED,
        Some(Ok(seed)) => seed,
        Some(Err(_)) => {
            eprintln!("usage: run [SEED], a whole number");
            return ExitCode::from(2);
        }
    };
    println!("seed {seed}");
    match compare(&mut Random::new(seed)) {
        Ok(total) => {
            println!("compared {} inputs, no difference", grouped(total));
            ExitCode::SUCCESS
        }
        Err(fault) => {
            println!("{fault}");
            ExitCode::FAILURE
        }
    }
}

/// Runs every comparison and gives the number of inputs, or the first difference.
fn compare(random: &mut Random) -> Result<u64, String> {
    let chip_refusals = [1, 2, 3, 4, 5, 6, 7, 8, 9, 10];
    let chip_answers = [&[YES], &chip_refusals[..]].concat();
    Ok(finish(marked::cases(), &[])?
        + finish(texts::chips(random, 40_000), &chip_answers)?
        + finish(texts::records(random, 40_000), &[YES, 1, 2, 3, 4, 5, 6, 8])?
        + finish(measures::measures(random, 10_000), &[YES, NO, 2, 13, 14])?
        + finish(besides::records(random, 12_000), &[YES, 2, 3, 4, 5, 13, 16, 17])?
        + finish(fits::fits(random, 20_000), &[YES, NO, 2, 11, 12, 15])?
        + finish(fits::of_empty_string(random, 5_000), &[YES, NO, 2, 15])?
        + finish(placing::small(random, 4_000), &[YES, 15])?
        + finish(placing::large(random, 1_000), &[YES, 15])?
        + finish(placing::refused(random, DESK, "refused chips", 2_000), &chip_refusals)?
        + finish(boxing::boxes(random, 4_000), &[YES, 15])?
        + finish(placing::refused(random, BOXES, "refused chips of boxes", 2_000), &chip_refusals)?
        + finish(quoting::quotes(random, 4_000), &[YES, 15, 22])?
        + finish(
            placing::refused(random, PAGE, "refused chips of the page", 2_000),
            &chip_refusals,
        )?
        + finish(in_threads(random), &[YES, NO, 2, 15])?)
}

/// Prints the counts of a comparison and gives the number of its inputs.
fn finish(tally: Result<Tally, Difference>, answers: &[u64]) -> Result<u64, String> {
    let tally = tally.map_err(|difference| difference.to_string())?;
    println!("{tally}");
    match tally.rare(answers, LEAST) {
        Some(fault) => Err(fault),
        None => Ok(tally.total()),
    }
}

/// All services from several threads at the same time.
fn in_threads(random: &mut Random) -> Result<Tally, Difference> {
    let seeds: Vec<u64> = (0..THREADS).map(|_| random.next()).collect();
    thread::scope(|scope| {
        let start = |&seed| {
            let stack = thread::Builder::new().stack_size(STACK);
            stack.spawn_scoped(scope, move || in_one_thread(seed)).expect("a thread starts")
        };
        let running: Vec<_> = seeds.iter().map(start).collect();
        let mut tally = Tally::new("calls from several threads", "yes", "no");
        for thread in running {
            tally.add(thread.join().expect("a thread ends")?);
        }
        Ok(tally)
    })
}

fn in_one_thread(seed: u64) -> Result<Tally, Difference> {
    let mut random = Random::new(seed);
    let mut tally = texts::chips(&mut random, 500)?;
    tally.add(texts::records(&mut random, 500)?);
    tally.add(measures::measures(&mut random, 500)?);
    tally.add(besides::records(&mut random, 500)?);
    tally.add(fits::fits(&mut random, 500)?);
    tally.add(placing::small(&mut random, 100)?);
    tally.add(boxing::boxes(&mut random, 100)?);
    tally.add(quoting::quotes(&mut random, 100)?);
    Ok(tally)
}
