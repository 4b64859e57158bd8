//! The differential test: the project's library beside the reference, on random, near-valid and damaged inputs.
//!
//!   diff [--self] [--seed N] [--count N] [--seconds N] [--case N]
//!
//! --self puts the reference itself in the library's place. --case runs one case of the seed and shows its input.
//! Exit status: 0 all the same and everything occurred; 1 a difference, or something did not occur; 2 bad usage.

use std::process::exit;
use std::time::{Duration, Instant};

use reference::compare::{compare, describe};
use reference::generate;
use reference::interface::{Library, Reference};
use reference::random::Random;
use reference::tally::{required, Tally};

#[cfg(library)]
mod linked;

const SEED: u64 = 20_111_125;
const COUNT: u64 = 1_500_000;

struct Options {
    own: bool,
    seed: u64,
    count: Option<u64>,
    seconds: Option<u64>,
    case: Option<u64>,
}

fn usage(problem: &str) -> ! {
    eprintln!("{problem}\nusage: diff [--self] [--seed N] [--count N] [--seconds N] [--case N]");
    exit(2)
}

fn options() -> Options {
    let mut options = Options { own: false, seed: SEED, count: None, seconds: None, case: None };
    let mut words = std::env::args().skip(1);
    while let Some(word) = words.next() {
        if word == "--self" {
            options.own = true;
            continue;
        }
        let Some(number) = words.next().and_then(|number| number.parse().ok()) else {
            usage(&format!("{word} needs a number"));
        };
        match word.as_str() {
            "--seed" => options.seed = number,
            "--count" => options.count = Some(number),
            "--seconds" => options.seconds = Some(number),
            "--case" => options.case = Some(number),
            _ => usage(&format!("no option {word}")),
        }
    }
    options
}

#[cfg(library)]
fn library(own: bool) -> Box<dyn Library> {
    if own { Box::new(Reference) } else { Box::new(linked::Linked) }
}

#[cfg(not(library))]
fn library(own: bool) -> Box<dyn Library> {
    if !own {
        usage("this build has no library in it: only --self");
    }
    Box::new(Reference)
}

fn main() {
    let options = options();
    let library = library(options.own);
    let (first, count) = match (options.case, options.count, options.seconds) {
        (Some(case), _, _) => (case, 1),
        (None, Some(count), _) => (0, count),
        (None, None, Some(_)) => (0, u64::MAX),
        (None, None, None) => (0, COUNT),
    };
    let limit = options.seconds.map(Duration::from_secs);
    let begin = Instant::now();
    let mut tally = Tally::default();
    let (mut cases, mut calls) = (0, 0);
    while cases < count {
        if cases % 256 == 0 && limit.is_some_and(|limit| begin.elapsed() >= limit) {
            break;
        }
        let number = first + cases;
        let mut random = Random::of_case(options.seed, number);
        let case = generate::case(&mut random);
        if options.case.is_some() {
            print!("{}", describe(&case));
        }
        match compare(&case, library.as_ref(), &mut random, &mut tally) {
            Ok(made) => calls += made,
            Err(difference) => {
                println!("DIFFERENCE: seed {} case {number}", options.seed);
                println!("{difference}\nThe input:\n{}", describe(&case));
                println!("Again: diff --seed {} --case {number}", options.seed);
                exit(1);
            }
        }
        cases += 1;
    }
    let seconds = begin.elapsed().as_secs_f64();
    let required = if options.case.is_some() { Vec::new() } else { required() };
    print!("{}", tally.table(&required));
    println!("seed {}: {cases} inputs, {calls} calls, no difference, {seconds:.1} s", options.seed);
    let missing = tally.missing(&required);
    if !missing.is_empty() {
        for (call, what) in missing {
            println!("FAILED: did not occur: {call} {what}");
        }
        exit(1);
    }
}
