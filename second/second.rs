//! The second program: the feeding desk, the timestamp desk, their line reader and the judge of
//! histories once more, written from documents 01 and 02 (cited as "01" and "02") and,
//! where they leave a point open, from docs/DECISIONS.md alone. It is the yardstick for
//! random runs, so it is simple rather than clever.
//!
//! This file has the command line. Each subject has a file: words, lines, desk, chain, stamps, judge,
//! commands, make with its ten, demands with its four; and tests with a file for each of these.

mod chain;
mod commands;
mod demands;
mod desk;
mod judge;
mod lines;
mod make;
mod stamps;
#[cfg(test)]
mod tests;
mod words;

use commands::{answers, cases, chain, history, lines, mix, stamp_steps, steps, verdict};
use demands::demands;
use demands::stamps::stamp_demands;
use desk::Desk;
use make::{make_asked, make_cases, make_chains, make_histories, make_lines, make_requests, make_steps};
use make::{make_knots, make_stamp_steps, make_stamps};
use stamps::Stamps;
use std::io::{self, ErrorKind, Read, Write};

const USAGE: &str = "usage: second answers | history | chain | verdict | lines | cases | steps FIRST | mix COUNT
       second stamp_answers | stamp_history | stamp_steps FIRST | stamp_mix COUNT
       second make requests|chains|histories|knots|lines|stamps SEED LINES
       second make cases SEED COUNT
       second make steps|asked|stamp_steps SEED COUNT [FIRST]
       second demands|stamp_demands SEED STEPS";

fn main() {
    let words: Vec<String> =
        std::env::args_os().skip(1).map(|word| word.to_string_lossy().into_owned()).collect();
    let words: Vec<&str> = words.iter().map(String::as_str).collect();
    match run(&words, io::stdin().lock(), &mut io::stdout().lock()) {
        Ok(status) => std::process::exit(status),
        Err(error) if error.kind() == ErrorKind::BrokenPipe => {}
        Err(error) => {
            eprintln!("second: {error}");
            std::process::exit(1);
        }
    }
}

/// Runs one command and tells the exit status: 0, 1 for a violated demand, 2 for misuse.
fn run(words: &[&str], input: impl Read, output: &mut impl Write) -> io::Result<i32> {
    match *words {
        ["answers"] => answers::<Desk>(input, output)?,
        ["history"] => history::<Desk>(input, output)?,
        ["stamp_answers"] => answers::<Stamps>(input, output)?,
        ["stamp_history"] => history::<Stamps>(input, output)?,
        ["chain"] => chain(input, output)?,
        ["verdict"] => verdict(input, output)?,
        ["lines"] => lines(input, output)?,
        ["cases"] => cases(input, output)?,
        [what @ ("steps" | "stamp_steps"), first] => return numbers(what, first, input, output),
        [what @ ("mix" | "stamp_mix"), count] => return tally(what, count, output),
        ["make", what, seed, count] => return make(what, seed, count, None, output),
        ["make", what, seed, count, first] => return make(what, seed, count, Some(first), output),
        [what @ ("demands" | "stamp_demands"), seed, count] => return watch(what, seed, count, output),
        _ => return usage(),
    }
    Ok(0)
}

/// Gives steps by numbers to one of the desks.
fn numbers(what: &str, first: &str, input: impl Read, output: &mut impl Write) -> io::Result<i32> {
    let Ok(first) = first.parse() else {
        return usage();
    };
    let (all_steps, or) = if what == "steps" {
        (steps(first, input, output)?, " (or 256 job places)")
    } else {
        (stamp_steps(first, input, output)?, "")
    };
    if !all_steps {
        eprintln!("second: a step is three numbers, kind job cell{or}, parted by one blank");
    }
    Ok(if all_steps { 0 } else { 2 })
}

/// Gives drawn steps to one of the desks, and tells how many came to what.
fn tally(what: &str, count: &str, output: &mut impl Write) -> io::Result<i32> {
    let Ok(count) = count.parse() else {
        return usage();
    };
    let [go, wait, back, no, wakes] = if what == "mix" { mix::<Desk>(count) } else { mix::<Stamps>(count) };
    output.write_all(format!("{go}\t{wait}\t{back}\t{no}\t{wakes}\n").as_bytes())?;
    output.flush()?;
    Ok(0)
}

/// Runs one maker. Only steps have a first number, which is 1 if not given.
fn make(
    what: &str,
    seed: &str,
    count: &str,
    first: Option<&str>,
    output: &mut impl Write,
) -> io::Result<i32> {
    let numbers = (seed.parse(), count.parse(), first.unwrap_or("1").parse());
    let (Ok(seed), Ok(count), Ok(number)) = numbers else {
        return usage();
    };
    match (what, first) {
        ("requests", None) => make_requests(seed, count, output)?,
        ("chains", None) => make_chains(seed, count, output)?,
        ("histories", None) => make_histories(seed, count, output)?,
        ("knots", None) => make_knots(seed, count, output)?,
        ("lines", None) => make_lines(seed, count, output)?,
        ("stamps", None) => make_stamps(seed, count, output)?,
        ("cases", None) => make_cases(seed, count, output)?,
        ("steps", _) => make_steps(seed, count, number, output)?,
        ("asked", _) => make_asked(seed, count, number, output)?,
        ("stamp_steps", _) => make_stamp_steps(seed, count, number, output)?,
        _ => return usage(),
    }
    Ok(0)
}

/// Holds a random run of one of the desks against what is demanded of it.
fn watch(what: &str, seed: &str, count: &str, output: &mut impl Write) -> io::Result<i32> {
    let (Ok(seed), Ok(count)) = (seed.parse(), count.parse()) else {
        return usage();
    };
    let found = if what == "demands" { demands(seed, count) } else { stamp_demands(seed, count) };
    let text = found.as_ref().map_or_else(String::as_str, |()| "ok");
    output.write_all(format!("{what}: {seed} {text}\n").as_bytes())?;
    output.flush()?;
    Ok(i32::from(found.is_err()))
}

fn usage() -> io::Result<i32> {
    eprintln!("{USAGE}");
    Ok(2)
}
